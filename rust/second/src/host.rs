//! The host calls, on numbers and byte slices (document 01, "Frame and
//! image").
//!
//! Document 01 names two of them, [`take_frame`] and [`beat`]. By three others
//! a daemon enters a key, as document 01 enters one into a store, learns how
//! many keys an image holds, and lays them out as the wall sheet (document 02,
//! slip 4). By [`opening_cost`], which takes no image, a planner learns what a
//! new kiosk costs (document 02, slip 5). By the last, [`join`], the images of
//! two kiosks become one (document 02, slip 9).
//!
//! An image with pending claims that fail 16 "is written back without" them
//! (document 02, slip 2) by each call that writes one.

use crate::frame::{FRAME_CLAIMS, FRAME_MOST, claims_of_frame, frame_length, put_frame};
use crate::image::{IMAGE_MOST, node_of_image, put_image};
use crate::node::BEAT_PLACES;
use crate::opening::deliveries;
use crate::questions::{self, Asked, ask};
use crate::sheet::{put_sheet, sheet_length};

/// A beat needs 17 places, "and its host call 462 bytes of frames" (document
/// 02, slip 8), "whatever is pending".
pub const BEAT_FRAMES: usize = 462;

// The claims of all places fill four frames, and a last one has one.
const _: () = assert!(BEAT_PLACES == 4 * FRAME_CLAIMS + 1);
const _: () = assert!(BEAT_FRAMES == 4 * FRAME_MOST + frame_length(1));

/// A length or a count, or minus the number.
fn answer(found: Asked<usize>) -> i64 {
    match found {
        // At most the length of the longest sheet.
        Ok(found) => found as i64,
        Err(number) => -i64::from(number),
    }
}

/// Takes each claim of a frame into the node of an image, writes the new
/// image and returns its length, or minus the number.
///
/// Asks 14 and 1 of the image, 10 to 13 of the frame, 6 claim by claim and
/// 15. "one no refuses the frame": nothing is written then.
pub fn take_frame(image: &[u8], frame: &[u8], out: &mut [u8]) -> i64 {
    answer(try_take_frame(image, frame, out))
}

fn try_take_frame(image: &[u8], frame: &[u8], out: &mut [u8]) -> Asked<usize> {
    let mut node = node_of_image(image)?;
    questions::of_read_frame(frame)?;
    for claim in claims_of_frame(frame) {
        ask(
            6,
            questions::q6_missing_fit(node.store.keys(), &[claim.lo, claim.hi]),
        )?;
        node.take(&claim);
    }
    ask(
        15,
        questions::q15_outputs_long_enough(&[(out.len(), IMAGE_MOST)]),
    )?;
    Ok(put_image(node.store.keys(), &node.pending, out))
}

/// Beats the node of an image, writes the new image to one buffer and the
/// claims to a second, "four to a frame and the rest in a last one", and
/// returns the length of the frames, or minus the number.
///
/// Asks 14 and 1 of the image, then 15 of both buffers. Claims that wait for
/// a later beat (document 02, slip 8) are in the new image.
pub fn beat(image: &[u8], out: &mut [u8], frames: &mut [u8]) -> i64 {
    answer(try_beat(image, out, frames))
}

fn try_beat(image: &[u8], out: &mut [u8], frames: &mut [u8]) -> Asked<usize> {
    let mut node = node_of_image(image)?;
    let needs = [(out.len(), IMAGE_MOST), (frames.len(), BEAT_FRAMES)];
    ask(15, questions::q15_outputs_long_enough(&needs))?;
    let claims = node.beat();
    put_image(node.store.keys(), &node.pending, out);
    let mut length = 0;
    for claims in claims.chunks(FRAME_CLAIMS) {
        length += put_frame(claims, &mut frames[length..]);
    }
    Ok(length)
}

/// Enters a key into the store of an image, writes the new image and returns
/// its length, or minus the number. Pending claims stay.
///
/// Asks 14 and 1 of the image, 6 of the key and 15: the buffer is as long as
/// [`take_frame`] needs it, whether or not the key is held already.
pub fn enter(image: &[u8], key: u64, out: &mut [u8]) -> i64 {
    answer(try_enter(image, key, out))
}

fn try_enter(image: &[u8], key: u64, out: &mut [u8]) -> Asked<usize> {
    let mut node = node_of_image(image)?;
    ask(6, questions::q6_missing_fit(node.store.keys(), &[key]))?;
    let needs = [(out.len(), IMAGE_MOST)];
    ask(15, questions::q15_outputs_long_enough(&needs))?;
    node.store.enter(key);
    Ok(put_image(node.store.keys(), &node.pending, out))
}

/// How many keys an image holds, or minus the number. Asks 14 and 1.
pub fn count(image: &[u8]) -> i64 {
    answer(node_of_image(image).map(|node| node.store.keys().len()))
}

/// Writes the wall sheet of the keys of an image and returns its length, or
/// minus the number. Whatever is pending isn't on it.
///
/// Asks 14 and 1 of the image, then 15, which "wants the sheet's own length of
/// lent output" (document 02, slip 4).
pub fn sheet(image: &[u8], out: &mut [u8]) -> i64 {
    answer(try_sheet(image, out))
}

fn try_sheet(image: &[u8], out: &mut [u8]) -> Asked<usize> {
    let store = node_of_image(image)?.store;
    let needs = [(out.len(), sheet_length(store.keys().len()))];
    ask(15, questions::q15_outputs_long_enough(&needs))?;
    Ok(put_sheet(store.keys(), out))
}

/// How many deliveries open a new kiosk with so many keys, or minus the number.
/// Asks 17.
pub fn opening_cost(keys: usize) -> i64 {
    answer(questions::of_opening_cost(keys).map(|()| deliveries(keys)))
}

/// Joins the nodes of two images, writes the image of the one they become and
/// returns its length, or minus the number. "The images given in the other
/// order make the same bytes".
///
/// "The questions are 14 and 1 for the first image, then for the second, then
/// 8, then 15 (18,052 bytes)." (document 02, slip 9) What fails 16 is left out
/// of either image before, so that it takes no place among the 64 claims kept.
pub fn join(first: &[u8], second: &[u8], out: &mut [u8]) -> i64 {
    answer(try_join(first, second, out))
}

fn try_join(first: &[u8], second: &[u8], out: &mut [u8]) -> Asked<usize> {
    let mut node = node_of_image(first)?;
    let other = node_of_image(second)?;
    let union = questions::union_count(node.store.keys(), other.store.keys());
    ask(8, questions::q8_union_fits(union))?;
    let needs = [(out.len(), IMAGE_MOST)];
    ask(15, questions::q15_outputs_long_enough(&needs))?;
    node.join(&other);
    Ok(put_image(node.store.keys(), &node.pending, out))
}
