//! Frames (document 01, "Frame and image").

use crate::claim::Claim;
use crate::image::Length;
use crate::questions;

/// The two bytes a frame begins with.
pub const MARK: [u8; 2] = [0x4C, 0x43];

/// The version byte.
pub const VERSION: u8 = 1;

/// The bytes of one claim: lo 8, hi 8, sum 8, cnt 2.
pub const CLAIM_BYTES: usize = 26;

/// "At most 108 bytes."
pub const FRAME_MOST: usize = 108;

/// The claims of a full frame.
pub(crate) const FRAME_CLAIMS: usize = 4;

/// Mark, version and n.
pub(crate) const FRAME_HEAD: usize = 4;

/// The length of a frame of n claims.
pub(crate) const fn frame_length(n: usize) -> usize {
    FRAME_HEAD + CLAIM_BYTES * n
}

/// A claim from its 26 bytes, high byte first.
pub(crate) fn claim_from_bytes(bytes: &[u8]) -> Claim {
    Claim::new(
        key_from_bytes(&bytes[..8]),
        key_from_bytes(&bytes[8..16]),
        key_from_bytes(&bytes[16..24]),
        u16::from_be_bytes([bytes[24], bytes[25]]),
    )
}

/// A key from its 8 bytes, high byte first.
pub(crate) fn key_from_bytes(bytes: &[u8]) -> u64 {
    u64::from_be_bytes(bytes.try_into().expect("eight bytes"))
}

/// Claims to as many 26 bytes, high byte first.
pub(crate) fn claims_to_bytes(claims: &[Claim], out: &mut [u8]) {
    for (place, claim) in out.chunks_exact_mut(CLAIM_BYTES).zip(claims) {
        place[..8].copy_from_slice(&claim.lo.to_be_bytes());
        place[8..16].copy_from_slice(&claim.hi.to_be_bytes());
        place[16..24].copy_from_slice(&claim.sum.to_be_bytes());
        place[24..].copy_from_slice(&claim.cnt.to_be_bytes());
    }
}

/// The claims of a frame that questions 10 to 12 were answered yes for.
pub(crate) fn claims_of_frame(frame: &[u8]) -> impl Iterator<Item = Claim> {
    frame[FRAME_HEAD..]
        .chunks_exact(CLAIM_BYTES)
        .map(claim_from_bytes)
}

/// Writes a frame that 12, 13 and 15 were answered yes for; its length.
pub(crate) fn put_frame(claims: &[Claim], out: &mut [u8]) -> usize {
    let length = frame_length(claims.len());
    out[..2].copy_from_slice(&MARK);
    out[2] = VERSION;
    out[3] = claims.len() as u8;
    claims_to_bytes(claims, &mut out[FRAME_HEAD..length]);
    length
}

/// What [`read_frame`] returns.
#[derive(Clone, Copy, Debug, PartialEq, Eq)]
pub struct FrameRead {
    /// The first question answered no, 0 if there is none.
    pub number: u8,
    /// The claims in their order, zeros in the unused places.
    pub claims: [Claim; 4],
    /// How many there are; refused, 0.
    pub count: usize,
}

/// Reads a frame. Asks 10 to 13.
pub fn read_frame(frame: &[u8]) -> FrameRead {
    let mut read = FrameRead {
        number: 0,
        claims: [Claim::ZERO; FRAME_CLAIMS],
        count: 0,
    };
    match questions::of_read_frame(frame) {
        Ok(()) => {
            for (place, claim) in read.claims.iter_mut().zip(claims_of_frame(frame)) {
                *place = claim;
                read.count += 1;
            }
        }
        Err(number) => read.number = number,
    }
    read
}

/// Writes a frame of these claims and returns its length. "Writing a frame
/// asks 12 (of n), 13, 15."
pub fn write_frame(claims: &[Claim], out: &mut [u8]) -> Length {
    Length::from(questions::of_write_frame(claims, out.len()).map(|()| put_frame(claims, out)))
}
