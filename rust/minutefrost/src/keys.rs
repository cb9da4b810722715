//! The keys of an image, one by one.

use std::iter::FusedIterator;
use std::slice::Iter;

use crate::{Refusal, accepted, archive};

/// The bytes before an image's keys, which tell how many there are.
const COUNT: usize = 2;

/// The bytes of one key, high byte first.
const KEY: usize = 8;

/// The keys of an image; see [`keys`].
#[derive(Clone, Debug)]
pub struct Keys<'a> {
    rest: Iter<'a, [u8; KEY]>,
}

/// Walks over the keys of an image, each once, the lowest first. Nothing is
/// copied: they are read where they stand.
///
/// This is the call that tells whether bytes are an image at all, and how many
/// keys it holds.
///
/// # Errors
///
/// Refused by 14 and 1 of the image; the first one answered no counts.
///
/// ```
/// use minutefrost::{EMPTY_IMAGE, IMAGE_MOST, enter, keys};
///
/// let mut out = [0; IMAGE_MOST];
/// let length = enter(&EMPTY_IMAGE, 9, &mut out)?;
/// let image = out[..length].to_vec();
/// let length = enter(&image, 7, &mut out)?;
/// let image = &out[..length];
///
/// assert!(keys(image)?.eq([7, 9]));
/// assert_eq!(keys(image)?.len(), 2);
/// assert_eq!(keys(b"no image").unwrap_err().number(), 14);
/// # Ok::<(), minutefrost::Refusal>(())
/// ```
pub fn keys(image: &[u8]) -> Result<Keys<'_>, Refusal> {
    let count = accepted(archive::count(image))?;
    // Bytes that the call accepted have so many keys behind their count.
    let (keys, _) = image[COUNT..][..KEY * count].as_chunks();
    Ok(Keys { rest: keys.iter() })
}

impl Iterator for Keys<'_> {
    type Item = u64;

    fn next(&mut self) -> Option<u64> {
        self.rest.next().map(|&key| u64::from_be_bytes(key))
    }

    fn size_hint(&self) -> (usize, Option<usize>) {
        self.rest.size_hint()
    }
}

impl DoubleEndedIterator for Keys<'_> {
    fn next_back(&mut self) -> Option<u64> {
        self.rest.next_back().map(|&key| u64::from_be_bytes(key))
    }
}

impl ExactSizeIterator for Keys<'_> {}

impl FusedIterator for Keys<'_> {}
