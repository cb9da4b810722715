//! Images of nodes (document 01, "Frame and image").

use crate::claim::Claim;
use crate::frame::{CLAIM_BYTES, claim_from_bytes, claims_to_bytes, key_from_bytes};
use crate::node::{Node, PENDING, RawNode};
use crate::questions::{self, Asked, ask};
use crate::store::{RawStore, Store};

/// The length of the image of a full store and a full table, the longest there
/// is. "the host calls require that much output" (document 02, slip 6).
pub const IMAGE_MOST: usize = length_of_counts(RawStore::LIMIT, PENDING);

/// The bytes of one key.
const KEY_BYTES: usize = 8;

/// The bytes of either count.
const COUNT_BYTES: usize = 2;

/// The length of an image of so many keys and pending claims.
pub(crate) const fn length_of_counts(keys: usize, pending: usize) -> usize {
    COUNT_BYTES + KEY_BYTES * keys + COUNT_BYTES + CLAIM_BYTES * pending
}

/// A length, or the number of the question that refused it.
#[derive(Clone, Copy, Debug, PartialEq, Eq)]
pub struct Length {
    /// The first question answered no, 0 if there is none.
    pub number: u8,
    /// The length in bytes; refused, 0.
    pub length: usize,
}

impl From<Result<usize, u8>> for Length {
    fn from(length: Result<usize, u8>) -> Length {
        match length {
            Ok(length) => Length { number: 0, length },
            Err(number) => Length { number, length: 0 },
        }
    }
}

/// The counts an image tells, the pending one's place following from the key
/// one's; none if the bytes end before.
pub(crate) fn counts(bytes: &[u8]) -> Option<(usize, usize)> {
    fn count_at(bytes: &[u8], at: usize) -> Option<usize> {
        let count = bytes.get(at..)?.first_chunk()?;
        Some(usize::from(u16::from_be_bytes(*count)))
    }
    let keys = count_at(bytes, 0)?;
    let pending = count_at(bytes, COUNT_BYTES + KEY_BYTES * keys)?;
    Some((keys, pending))
}

/// The length that the counts at the front of these bytes tell: as much as
/// question 14 of an image that may have more bytes behind it.
pub(crate) fn front_length(bytes: &[u8]) -> Asked<usize> {
    let (keys, pending) = counts(bytes).ok_or(14)?;
    ask(14, keys <= RawStore::LIMIT && pending <= PENDING)?;
    let length = length_of_counts(keys, pending);
    ask(14, length <= bytes.len())?;
    Ok(length)
}

/// The node of an image, judged by 14 and 1, without the pending claims that
/// fail 16: each "is left out once the image has passed 1 as before, and the
/// rest of the image is used" (document 02, slip 2). Of the running sums, "The
/// image doesn't hold them; reading works them out." (document 02, slip 7)
pub(crate) fn node_of_image(image: &[u8]) -> Asked<Node> {
    ask(14, front_length(image)? == image.len())?;
    // Asked just now, so that both counts are there; the bytes after the
    // second one are as many as it says.
    let (key_count, _) = counts(image).ok_or(14)?;
    let (key_bytes, rest) = image[COUNT_BYTES..].split_at(KEY_BYTES * key_count);

    // All the places there can be, so that nothing is moved when more come.
    let mut keys = Vec::with_capacity(RawStore::LIMIT);
    keys.extend(key_bytes.chunks_exact(KEY_BYTES).map(key_from_bytes));
    let mut pending = Vec::with_capacity(PENDING);
    let claim_bytes = rest[COUNT_BYTES..].chunks_exact(CLAIM_BYTES);
    pending.extend(claim_bytes.map(claim_from_bytes));

    ask(1, questions::contents_in_order(&keys, &pending))?;
    pending.retain(questions::q16_middle_between);
    Ok(Node {
        store: Store::from_keys(keys),
        pending,
    })
}

/// Writes the image of keys and pending claims in order, where there is room
/// for it; its length.
pub(crate) fn put_image(keys: &[u64], pending: &[Claim], out: &mut [u8]) -> usize {
    let length = length_of_counts(keys.len(), pending.len());
    let (key_part, pending_part) = out[..length].split_at_mut(COUNT_BYTES + KEY_BYTES * keys.len());

    let (count, places) = key_part.split_at_mut(COUNT_BYTES);
    count.copy_from_slice(&(keys.len() as u16).to_be_bytes());
    for (place, key) in places.chunks_exact_mut(KEY_BYTES).zip(keys) {
        place.copy_from_slice(&key.to_be_bytes());
    }

    let (count, places) = pending_part.split_at_mut(COUNT_BYTES);
    count.copy_from_slice(&(pending.len() as u16).to_be_bytes());
    claims_to_bytes(pending, places);
    length
}

/// What [`read_image`] returns.
#[derive(Clone, Debug, PartialEq, Eq)]
pub struct ImageRead {
    /// The first question answered no, 0 if there is none.
    pub number: u8,
    /// The node; refused, where no node was given, the one of zeros.
    pub node: RawNode,
}

/// Reads an image that is the whole of these bytes. Asks 14 and 1. Pending
/// claims that fail 16 aren't in the node.
pub fn read_image(image: &[u8]) -> ImageRead {
    match node_of_image(image) {
        Ok(node) => ImageRead {
            number: 0,
            node: node.into_raw(),
        },
        Err(number) => ImageRead {
            number,
            node: RawNode::empty(),
        },
    }
}

/// Writes the image of a node and returns its length. Asks 1 and 15, the
/// output being long enough if this image fits.
///
/// What [`read_image`] read is written as the same bytes, where nothing was
/// left out: "the same-bytes rule holds for images that have none" (document
/// 02, slip 2) of the claims that fail 16.
pub fn write_image(node: &RawNode, out: &mut [u8]) -> Length {
    Length::from(
        questions::of_write_image(node, out.len())
            .map(|()| put_image(node.store.held(), node.table(), out)),
    )
}

/// The length of the image at the front of these bytes, by its counts. Asks
/// 14, whatever comes behind that length.
pub fn image_length(bytes: &[u8]) -> Length {
    Length::from(front_length(bytes))
}
