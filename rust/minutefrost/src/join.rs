//! Two images joined into one.

use crate::{Refusal, accepted, archive};

/// Joins two images: writes the image that they become to the front of `out`
/// and returns its length. For the card of a branch that closed, which goes to
/// another kiosk: that kiosk goes on with the new image.
///
/// It holds the keys of both. The claims that wait in either wait in it, equal
/// ones once, in table order; of more than 64 the first 64 are kept. No claim is
/// heard by this, so no other key comes in, and both images given stay as they
/// are. Which of them is the first makes no difference to the bytes, and an image
/// joined with itself is unchanged; without pending claims that 16 refuses, if it
/// was saved before 16 was asked. `out` has at least
/// [`IMAGE_MOST`](crate::IMAGE_MOST) bytes.
///
/// # Errors
///
/// Refused by 14 and 1 of the first image, then of the second, by 8 where they
/// hold more keys together than fit, and by 15 of the buffer; the first one
/// answered no counts.
///
/// ```
/// # use minutefrost::{EMPTY_IMAGE, IMAGE_MOST, enter, join, keys};
/// let mut out = [0; IMAGE_MOST];
/// let length = enter(&EMPTY_IMAGE, 7, &mut out)?;
/// let closed = out[..length].to_vec();
/// let length = enter(&EMPTY_IMAGE, 9, &mut out)?;
/// let kiosk = out[..length].to_vec();
///
/// let length = join(&kiosk, &closed, &mut out)?;
/// assert!(keys(&out[..length])?.eq([7, 9]));
///
/// let cut = join(&kiosk, &closed[1..], &mut out);
/// assert_eq!(cut.unwrap_err().number(), 14);
/// # Ok::<(), minutefrost::Refusal>(())
/// ```
pub fn join(first: &[u8], second: &[u8], out: &mut [u8]) -> Result<usize, Refusal> {
    accepted(archive::join(first, second, out))
}
