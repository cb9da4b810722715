//! The frames of a beat, one by one.

use std::iter::FusedIterator;

use crate::FRAME_MOST;

/// The bytes before a frame's claims: mark, version and n.
const HEAD: usize = 4;

/// The bytes of one claim.
const CLAIM: usize = 26;

const _: () = assert!(FRAME_MOST == HEAD + 4 * CLAIM);

/// The frames that stand end to end in some bytes; see [`frames`].
#[derive(Clone, Debug)]
pub struct Frames<'a> {
    rest: &'a [u8],
}

/// Walks over frames that stand end to end, as a beat writes them, and gives
/// the bytes of each: what a daemon sends as one message.
///
/// How long a frame is follows from its fourth byte. The walk ends where what
/// is left doesn't begin with a whole frame of 1 to 4 claims; nothing else is
/// asked here, since whoever takes a frame asks it all.
///
/// ```
/// use minutefrost::{BEAT_FRAMES, EMPTY_IMAGE, IMAGE_MOST, beat, enter, frames};
///
/// // One key and nothing pending: the beat sends one claim.
/// let (mut out, mut sent) = ([0; IMAGE_MOST], [0; BEAT_FRAMES]);
/// let length = enter(&EMPTY_IMAGE, 7, &mut out)?;
/// let image = out[..length].to_vec();
/// let beaten = beat(&image, &mut out, &mut sent)?;
/// for frame in frames(&sent[..beaten.frames]) {
///     assert_eq!(frame.len(), 30);
/// }
/// # assert_eq!(frames(&sent[..beaten.frames]).count(), 1);
/// # Ok::<(), minutefrost::Refusal>(())
/// ```
pub const fn frames(bytes: &[u8]) -> Frames<'_> {
    Frames { rest: bytes }
}

impl<'a> Iterator for Frames<'a> {
    type Item = &'a [u8];

    fn next(&mut self) -> Option<&'a [u8]> {
        let n = self.rest.get(HEAD - 1).filter(|n| (1..=4).contains(*n))?;
        let length = HEAD + CLAIM * usize::from(*n);
        let (frame, rest) = self.rest.split_at_checked(length)?;
        self.rest = rest;
        Some(frame)
    }
}

/// Where the walk ended, `rest` stays what it is.
impl FusedIterator for Frames<'_> {}

#[cfg(test)]
mod tests {
    use super::*;

    fn frame(n: u8) -> Vec<u8> {
        let mut bytes = vec![0x4C, 0x43, 1, n];
        bytes.resize(HEAD + CLAIM * usize::from(n), n);
        bytes
    }

    #[test]
    fn every_frame_comes_once_and_in_order() {
        let lengths = [4, 4, 1, 2, 3];
        let all: Vec<Vec<u8>> = lengths.into_iter().map(frame).collect();
        let bytes = all.concat();
        assert!(frames(&bytes).eq(&all));
    }

    #[test]
    fn a_cut_or_miscounted_frame_ends_the_walk() {
        let first = frame(2);
        let second = frame(4);
        for cut in 0..second.len() {
            let bytes = [&first, &second[..cut]].concat();
            let mut walk = frames(&bytes);
            assert_eq!(walk.next(), Some(&first[..]));
            assert_eq!(walk.next(), None);
            assert_eq!(walk.next(), None);
        }
        for n in [0, 5, 255] {
            let mut bytes = [first.clone(), frame(n)].concat();
            bytes.extend(frame(1));
            assert_eq!(frames(&bytes).count(), 1);
        }
    }
}
