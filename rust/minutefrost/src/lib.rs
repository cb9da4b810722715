//! The proved host calls of Minutefrost, for the daemon of a kiosk.
//!
//! All that a kiosk knows is its *image*, a run of at most [`IMAGE_MOST`]
//! bytes that lies on its card: the slip keys it holds and the claims that
//! wait for an answer. A new kiosk has [`EMPTY_IMAGE`]. What kiosks send each
//! other are *frames* of at most [`FRAME_MOST`] bytes, one to four claims in
//! each. A daemon does six things, at any time and in any order:
//!
//! - A book was lent or came back: [`enter`] gives the image with the slip's
//!   key in it.
//! - A frame came: [`take_frame`] gives the image with the frame taken in.
//! - Every now and then: [`beat`] gives the image after a beat, and the
//!   [`frames`] to send.
//! - Someone asks what the kiosk holds: [`keys`] gives the keys in order.
//! - Staff pin up what it holds: [`sheet`] gives the keys as text, by pages.
//! - A branch closed, and the card of its kiosk came here: [`join`] gives the
//!   image with what both have.
//!
//! Whoever plans the opening of a kiosk asks [`opening_cost`] what it costs to
//! tell it so many keys. That needs no image.
//!
//! ```
//! use minutefrost::{BEAT_FRAMES, EMPTY_IMAGE, IMAGE_MOST, SHEET_MOST};
//! use minutefrost::{beat, enter, frames, join, keys, sheet, take_frame};
//!
//! let (mut out, mut sent) = ([0; IMAGE_MOST], [0; BEAT_FRAMES]);
//! // The van enters the key 7 and beats.
//! let length = enter(&EMPTY_IMAGE, 7, &mut out)?;
//! let van = out[..length].to_vec();
//! let beaten = beat(&van, &mut out, &mut sent)?;
//! // A kiosk enters the key 9, hears the van, and lists its keys.
//! let length = enter(&EMPTY_IMAGE, 9, &mut out)?;
//! let mut kiosk = out[..length].to_vec();
//! for frame in frames(&sent[..beaten.frames]) {
//!     let length = take_frame(&kiosk, frame, &mut out)?;
//!     kiosk = out[..length].to_vec();
//! }
//! assert!(keys(&kiosk)?.eq([7, 9]));
//! // Its sheet has a head line and a line with both keys, 63 bytes each.
//! assert_eq!(sheet(&kiosk, &mut [0; SHEET_MOST])?, 126);
//! // A branch that held the key 8 closes, and the kiosk gets its card.
//! let length = enter(&EMPTY_IMAGE, 8, &mut out)?;
//! let card = out[..length].to_vec();
//! let length = join(&kiosk, &card, &mut out)?;
//! kiosk = out[..length].to_vec();
//! assert!(keys(&kiosk)?.eq([7, 8, 9]));
//! # Ok::<(), minutefrost::Refusal>(())
//! ```
//!
//! # What is proved, and what was seen
//!
//! Every call takes bytes of any content, and none panics. One that can't do
//! its work returns a [`Refusal`] and has written nothing. On success the bytes
//! of a buffer past what was written keep their contents. The calls themselves
//! are the archive `libhost.a`, every function of which is proved; it has no
//! state, allocates nothing, and runs on a stack of 128 KB.
//!
//! Frames may be lost, repeated, delayed and reordered: by what kiosks send, and
//! by joining two of them, no key that was entered is lost, and no kiosk comes to
//! hold one that nobody entered. (A frame has no checksum. Damage that leaves it
//! a frame is for the radio link to find.)
//!
//! That two kiosks come to hold the same keys is proved of *rounds*, in which
//! each hears every claim of the other: after as many rounds as keys differ, none
//! of them refused, both hold all keys of both, if no match is false. A match is
//! false when the claim heard equals the kiosk's own although its sender held
//! other keys there. Where one of the two has all keys of the other, one round is
//! enough, whatever matches; and one with no key, on the left, is filled by just
//! as many deliveries as [`opening_cost`] tells.
//!
//! Of *beats* over a radio it isn't proved. It was seen: in the tests and in the
//! example `two_kiosks`, where keys are drawn at random from all 64-bit numbers
//! and all kiosks stay in reach, they always came to hold the same keys. There
//! are two ways in which they may never do so:
//!
//! - Where a match is false: {1, 3, 4, 16} and {1, 2, 5, 16} have the same ends,
//!   the same count and the same XOR, and two kiosks that hold them learn nothing
//!   from each other until one of them gets another key.
//! - Where a kiosk left in the middle of a transfer. A beat replies to eight
//!   pending claims, those that are asked about stay, and the next beat begins
//!   with the same ones: eight that nobody in reach can answer keep all behind
//!   them waiting. The crate's README tells whoever plans the radio what was seen
//!   and what helps.

#![deny(unsafe_code)]
#![warn(missing_docs)]

/// The one place of the number that [`KEYS_MOST`] is. A literal, so that the
/// words of refusals can have it too: `concat!` takes no constant.
macro_rules! limit {
    () => {
        2_048
    };
}

#[allow(unsafe_code)]
mod archive;
mod frames;
mod join;
mod keys;
mod refusal;

pub use frames::{Frames, frames};
pub use join::join;
pub use keys::{Keys, keys};
pub use refusal::Refusal;

/// The most keys that an image can hold.
pub const KEYS_MOST: usize = limit!();

/// The most claims that can be pending in an image.
const PENDING_MOST: usize = 64;

/// The bytes of the longest image, of [`KEYS_MOST`] keys and 64 pending claims:
/// what the buffer for an image needs, however short that image will be.
pub const IMAGE_MOST: usize = image_length(KEYS_MOST, PENDING_MOST);

/// The bytes of the most that a beat sends, 17 claims in five frames: what the
/// buffer for its frames needs, whatever is pending.
pub const BEAT_FRAMES: usize = 462;

/// The bytes of the longest frame, of four claims.
pub const FRAME_MOST: usize = 108;

/// The bytes of the longest sheet, of [`KEYS_MOST`] keys; [`sheet`] itself asks
/// only for the length of the sheet that it writes.
pub const SHEET_MOST: usize = sheet_length(KEYS_MOST);

/// The image of a kiosk that holds no key, with nothing pending.
///
/// ```
/// # use minutefrost::{BEAT_FRAMES, EMPTY_IMAGE, IMAGE_MOST, beat, keys};
/// assert_eq!(keys(&EMPTY_IMAGE)?.len(), 0);
/// // It has nothing to say.
/// let beaten = beat(&EMPTY_IMAGE, &mut [0; IMAGE_MOST], &mut [0; BEAT_FRAMES])?;
/// assert_eq!(beaten.frames, 0);
/// # Ok::<(), minutefrost::Refusal>(())
/// ```
pub const EMPTY_IMAGE: [u8; 4] = [0; 4];

/// How much a [`beat`] wrote.
#[derive(Clone, Copy, Debug, PartialEq, Eq, Hash)]
pub struct Beat {
    /// The length of the new image, at the front of its buffer.
    pub image: usize,
    /// The length of the frames, end to end at the front of theirs.
    pub frames: usize,
}

/// Enters a key into an image: writes the new image to the front of `out` and
/// returns its length.
///
/// The key goes to its place among the others; pending claims stay. A key that
/// is held already changes nothing, and the new image is the old one; without
/// pending claims that 16 refuses, if it was saved before 16 was asked. `out`
/// has at least [`IMAGE_MOST`] bytes.
///
/// # Errors
///
/// Refused by 14 and 1 of the image, 6 of the key and 15 of the buffer; the
/// first one answered no counts.
///
/// ```
/// # use minutefrost::{EMPTY_IMAGE, IMAGE_MOST, enter, keys};
/// let mut out = [0; IMAGE_MOST];
/// let length = enter(&EMPTY_IMAGE, 7, &mut out)?;
/// assert!(keys(&out[..length])?.eq([7]));
///
/// let short = enter(&EMPTY_IMAGE, 7, &mut out[1..]);
/// assert_eq!(short.unwrap_err().number(), 15);
/// # Ok::<(), minutefrost::Refusal>(())
/// ```
pub fn enter(image: &[u8], key: u64, out: &mut [u8]) -> Result<usize, Refusal> {
    accepted(archive::enter(image, key, out))
}

/// Takes a frame into an image: writes the new image to the front of `out` and
/// returns its length.
///
/// The ends of the frame's claims are added where they are missing. A claim of
/// three keys, where just its ends are held then, tells the one between them;
/// that is added if there is space. The claims are kept until a beat replies to
/// them. `out` has at least [`IMAGE_MOST`] bytes.
///
/// # Errors
///
/// Refused by 14 and 1 of the image, 10 to 13 of the frame, 6 of the ends of
/// each of its claims in turn, and 15 of the buffer; the first one answered no
/// counts. A frame is taken whole or not at all.
///
/// ```
/// # use minutefrost::{EMPTY_IMAGE, IMAGE_MOST, keys, take_frame};
/// // A frame of one claim: someone holds the key 7 and no other.
/// let mut frame = vec![0x4C, 0x43, 1, 1];
/// frame.extend([0, 0, 0, 0, 0, 0, 0, 7].repeat(3)); // lo, hi, sum
/// frame.extend([0, 1]); // cnt
///
/// let mut out = [0; IMAGE_MOST];
/// let length = take_frame(&EMPTY_IMAGE, &frame, &mut out)?;
/// assert!(keys(&out[..length])?.eq([7]));
///
/// let cut = take_frame(&EMPTY_IMAGE, &frame[..29], &mut out);
/// assert_eq!(cut.unwrap_err().number(), 12);
/// # Ok::<(), minutefrost::Refusal>(())
/// ```
pub fn take_frame(image: &[u8], frame: &[u8], out: &mut [u8]) -> Result<usize, Refusal> {
    accepted(archive::take_frame(image, frame, out))
}

/// Beats an image: writes the new image to the front of `out` and the frames
/// to send to the front of `frames`, and returns both lengths.
///
/// The frames carry the claim of the whole store and the replies to up to eight
/// pending claims, the first in table order that don't match. Those that match,
/// wherever they stand, and those that are helped leave the image; those that
/// are asked about stay, and so do all behind the eight. No key is added. `out`
/// has at least [`IMAGE_MOST`] bytes and `frames` at least [`BEAT_FRAMES`].
///
/// # Errors
///
/// Refused by 14 and 1 of the image and 15 of the buffers; the first one
/// answered no counts.
///
/// ```
/// # use minutefrost::{BEAT_FRAMES, EMPTY_IMAGE, IMAGE_MOST, beat, enter};
/// let (mut out, mut frames) = ([0; IMAGE_MOST], [0; BEAT_FRAMES]);
/// let length = enter(&EMPTY_IMAGE, 7, &mut out)?;
/// let image = out[..length].to_vec();
///
/// // One frame of one claim; the image stays what it was.
/// let beaten = beat(&image, &mut out, &mut frames)?;
/// assert_eq!(beaten.frames, 30);
/// assert_eq!(out[..beaten.image], image);
///
/// let cut = beat(&image[1..], &mut out, &mut frames);
/// assert_eq!(cut.unwrap_err().number(), 14);
/// # Ok::<(), minutefrost::Refusal>(())
/// ```
pub fn beat(image: &[u8], out: &mut [u8], frames: &mut [u8]) -> Result<Beat, Refusal> {
    let frames = accepted(archive::beat(image, out, frames))?;
    Ok(Beat {
        image: length_by_counts(out),
        frames,
    })
}

/// Lays out the keys of an image for the wall: writes the sheet, which is text,
/// to the front of `out` and returns its length.
///
/// Every line has 62 characters, all ASCII, and a line feed. It has up to three
/// keys, each right-aligned in 20 characters, with a space between them; they
/// rise along the line and from line to line, and what isn't used is spaces. A
/// page has 40 lines, the last page only those it needs, and above each page
/// stands a head line with its number and the number of pages. An image without
/// keys makes one page with its head line only. Pending claims aren't on the
/// sheet, and the image stays as it is.
///
/// `out` has at least as many bytes as this sheet; [`SHEET_MOST`] are enough
/// for any.
///
/// # Errors
///
/// Refused by 14 and 1 of the image and 15 of the buffer; the first one
/// answered no counts.
///
/// ```
/// # use minutefrost::{EMPTY_IMAGE, IMAGE_MOST, SHEET_MOST, enter, sheet};
/// let (mut out, mut text) = ([0; IMAGE_MOST], [0; SHEET_MOST]);
/// let mut image = EMPTY_IMAGE.to_vec();
/// for key in [1_000, 7, 52, u64::MAX] {
///     let length = enter(&image, key, &mut out)?;
///     image = out[..length].to_vec();
/// }
/// let length = sheet(&image, &mut text)?;
/// let lines = str::from_utf8(&text[..length]).unwrap().lines();
/// assert!(lines.eq([
///     "page    1 of    1                                             ",
///     "                   7                   52                 1000",
///     "18446744073709551615                                          ",
/// ]));
///
/// let short = sheet(&image, &mut text[..length - 1]);
/// assert_eq!(short.unwrap_err().number(), 15);
/// # Ok::<(), minutefrost::Refusal>(())
/// ```
pub fn sheet(image: &[u8], out: &mut [u8]) -> Result<usize, Refusal> {
    accepted(archive::sheet(image, out))
}

/// How many deliveries a round makes between an empty left store and a right
/// store of so many keys, whichever they are: what a new kiosk costs, for those
/// who plan openings by airtime. It needs no image.
///
/// A delivery is one claim, and a round delivers each claim once. What a radio
/// loses is not counted, nor what beats send again.
///
/// # Errors
///
/// Refused by 17 where they are more keys than a store can hold.
///
/// ```
/// # use minutefrost::opening_cost;
/// assert_eq!(opening_cost(0)?, 0);
/// assert_eq!(opening_cost(3)?, 1);
/// assert_eq!(opening_cost(100)?, 74);
///
/// let too_many = opening_cost(usize::MAX);
/// assert_eq!(too_many.unwrap_err().number(), 17);
/// # Ok::<(), minutefrost::Refusal>(())
/// ```
pub fn opening_cost(keys: usize) -> Result<usize, Refusal> {
    accepted(archive::opening_cost(keys))
}

/// The length or count that a call's answer is, or its refusal.
fn accepted(answer: i64) -> Result<usize, Refusal> {
    // Below 0 is a refusal; a length is at most that of the longest sheet, and
    // a count, of keys or of deliveries, is at most KEYS_MOST.
    usize::try_from(answer).map_err(|_| Refusal::of_answer(answer))
}

/// "The image's length follows from its counts": two bytes and 8 a key, two
/// bytes and 26 a pending claim.
const fn image_length(keys: usize, pending: usize) -> usize {
    2 + 8 * keys + 2 + 26 * pending
}

/// The length of the image at the front of some bytes. A count that isn't there
/// counts as 0.
fn length_by_counts(image: &[u8]) -> usize {
    let count_at = |at| {
        let bytes = image.get(at..).and_then(<[u8]>::first_chunk);
        bytes.map_or(0, |&count| usize::from(u16::from_be_bytes(count)))
    };
    let keys = count_at(0);
    // With nothing pending, the count of claims is an image's last two bytes.
    let pending_at = image_length(keys, 0) - 2;
    image_length(keys, count_at(pending_at))
}

/// The length of the sheet of so many keys: lines of 63 bytes, three keys a
/// line, 40 lines a page, and above each page a head line; there is one page at
/// least.
const fn sheet_length(keys: usize) -> usize {
    let lines = keys.div_ceil(3);
    let pages = if keys == 0 { 1 } else { lines.div_ceil(40) };
    63 * (lines + pages)
}

#[cfg(test)]
mod tests {
    use super::*;

    #[test]
    fn lengths_follow_from_counts() {
        assert_eq!(length_by_counts(&EMPTY_IMAGE), EMPTY_IMAGE.len());
        let mut full = [0; IMAGE_MOST];
        full[..2].copy_from_slice(&(KEYS_MOST as u16).to_be_bytes());
        full[2 + 8 * KEYS_MOST + 1] = 64;
        assert_eq!(length_by_counts(&full), IMAGE_MOST);
        // Bytes that no call leaves behind are counted without a panic.
        assert_eq!(length_by_counts(&[]), 4);
        assert_eq!(length_by_counts(&[0xFF; 3]), 4 + 8 * 0xFFFF);
    }

    #[test]
    fn answers_below_0_are_refusals() {
        assert_eq!(accepted(0), Ok(0));
        assert_eq!(accepted(IMAGE_MOST as i64), Ok(IMAGE_MOST));
        assert_eq!(accepted(SHEET_MOST as i64), Ok(SHEET_MOST));
        assert_eq!(accepted(-14).unwrap_err().number(), 14);
    }

    /// Sizes follow from the limit by formulas, and would follow a mistake in them
    /// too. So the two that daemons reserve stand here as digits: the one that
    /// the customer's documents tell, and the one counted from their layout.
    #[test]
    fn sizes_are_those_of_the_documents() {
        assert_eq!(IMAGE_MOST, 18_052);
        assert_eq!(SHEET_MOST, 44_163);
        // "An empty store is one page with its head line only."
        assert_eq!(sheet_length(0), 63);
    }
}
