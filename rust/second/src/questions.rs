//! The seventeen questions (document 01, "Questions, each with its number when
//! the answer is no", and document 02, slips 2 and 5), and for each public call
//! the first one answered no.
//!
//! The functions `q1_…` to `q17_…` answer one question each, yes or no. Those
//! named `of_…` put a call's questions, "those that concern it, in this
//! order", 16 "straight after 5", and give the number of the first no. A
//! question is put only when those before it were answered yes, so that it may
//! count on them.

use std::collections::BTreeSet;

use crate::claim::Claim;
use crate::frame::{FRAME_CLAIMS, FRAME_HEAD, MARK, VERSION, claims_of_frame, frame_length};
use crate::host::BEAT_FRAMES;
use crate::image::{IMAGE_MOST, front_length, length_of_counts, node_of_image};
use crate::node::{BEAT_PLACES, PENDING, RawNode};
use crate::rehearse::REHEARSAL_RECORDS;
use crate::sheet::sheet_length;
use crate::store::RawStore;

/// A value, or the number of the first question answered no.
pub type Asked<T = ()> = Result<T, u8>;

/// Puts one question: its number is the answer if that is no.
pub(crate) fn ask(number: u8, yes: bool) -> Asked {
    if yes { Ok(()) } else { Err(number) }
}

// ---- the seventeen ----

/// 1, of a store: the count is at most the limit, "the keys below the count
/// rise strictly and every place from the count on is 0". It "is in order only
/// if these numbers are right too", the running sums (document 02, slip 7).
pub fn q1_store_in_order(store: &RawStore) -> bool {
    store.count <= RawStore::LIMIT && {
        let (keys, unused) = store.keys.split_at(store.count);
        let (sums, unused_sums) = store.sums.split_at(store.count);
        keys_in_order(keys) && all_zero(unused) && sums_right(keys, sums) && all_zero(unused_sums)
    }
}

/// Whether unused places hold 0, of the keys or of the sums. All are looked at,
/// several at once.
fn all_zero(places: &[u64]) -> bool {
    places.iter().fold(0, |bits, place| bits | place) == 0
}

/// Whether each of as many sums as keys is "the XOR of all keys up to and with
/// that place" (document 02, slip 7): the first is the first key, and each one
/// after it is the sum before it XOR its own key.
fn sums_right(keys: &[u64], sums: &[u64]) -> bool {
    let (Some((key, keys)), Some((sum, sums_after))) = (keys.split_first(), sums.split_first())
    else {
        return true;
    };
    // None of these waits for another, so that several are looked at at once.
    let after = keys.iter().zip(sums_after).zip(sums);
    let wrong = after.fold(0, |wrong, ((key, sum), before)| {
        wrong | (key ^ sum ^ before)
    });
    sum == key && wrong == 0
}

/// 1, of a node: its store is in order and so is its table, with zeros in
/// the unused places. Where a pending claim fails 16, "a node given with one
/// gets 1" (document 02, slip 2).
pub fn q1_node_in_order(node: &RawNode) -> bool {
    q1_store_in_order(&node.store) && node.pending_count <= PENDING && {
        let (pending, unused) = node.pending.split_at(node.pending_count);
        table_in_order(node.store.held(), pending, of_claim)
            && unused.iter().all(|place| *place == Claim::ZERO)
    }
}

/// Whether keys rise strictly.
pub(crate) fn keys_in_order(keys: &[u64]) -> bool {
    keys.is_sorted_by(|lower, upper| lower < upper)
}

/// Whether pending claims rise strictly, pass their questions and have their
/// ends among keys in order.
fn table_in_order(keys: &[u64], pending: &[Claim], asked: impl Fn(&Claim) -> Asked) -> bool {
    pending.is_sorted_by(|before, after| before.rank() < after.rank())
        && pending.iter().all(|claim| {
            asked(claim).is_ok()
                && keys.binary_search(&claim.lo).is_ok()
                && keys.binary_search(&claim.hi).is_ok()
        })
}

/// 1, of the contents of an image, which has no unused places, and no sums:
/// "The image doesn't hold them" (document 02, slip 7). Its counts are at most
/// the limit and 64 by question 14. Pending claims that fail 16 are there
/// still: 1 is asked "as before" (document 02, slip 2).
pub(crate) fn contents_in_order(keys: &[u64], pending: &[Claim]) -> bool {
    keys_in_order(keys) && table_in_order(keys, pending, of_saved_claim)
}

/// 2: "Is lo ≤ hi?"
pub fn q2_lo_at_most_hi(claim: &Claim) -> bool {
    claim.lo <= claim.hi
}

/// 3: "Is cnt from 1 to" the limit?
pub fn q3_cnt_in_limit(claim: &Claim) -> bool {
    (1..=RawStore::LIMIT).contains(&usize::from(claim.cnt))
}

/// 4: "Is cnt 1 when lo = hi, and otherwise from 2 to hi − lo + 1?"
pub fn q4_cnt_in_span(claim: &Claim) -> bool {
    if claim.lo == claim.hi {
        claim.cnt == 1
    } else {
        // One less on both sides: from 0 to the largest key, hi − lo + 1 is
        // a number that 64 bits don't hold.
        let most = claim.hi.checked_sub(claim.lo);
        claim.cnt >= 2 && most.is_some_and(|most| u64::from(claim.cnt) - 1 <= most)
    }
}

/// 5: "Is sum lo when cnt is 1, and lo XOR hi when cnt is 2?"
pub fn q5_sum_of_ends(claim: &Claim) -> bool {
    match claim.cnt {
        1 => claim.sum == claim.lo,
        2 => claim.sum == claim.lo ^ claim.hi,
        _ => true,
    }
}

/// 16, answered no "for a claim with cnt 3 and sum XOR lo XOR hi not strictly
/// between lo and hi, asked straight after 5 and part of what 13 asks"
/// (document 02, slip 2).
pub fn q16_middle_between(claim: &Claim) -> bool {
    let middle = claim.middle();
    claim.cnt != 3 || (claim.lo < middle && middle < claim.hi)
}

/// 6: "Do the missing ones among the keys to add fit" within the limit? A key
/// to add twice is missing once. Of a claim these are lo and hi: "6 doesn't
/// count the middle one" (document 02, slip 1).
pub fn q6_missing_fit(held: &[u64], to_add: &[u64]) -> bool {
    let missing = to_add
        .iter()
        .enumerate()
        .filter(|&(at, key)| !to_add[..at].contains(key) && held.binary_search(key).is_err())
        .count();
    held.len() + missing <= RawStore::LIMIT
}

/// 7: "Is the first position ≤ the last, and the last below the count?"
pub fn q7_positions_held(count: usize, first: usize, last: usize) -> bool {
    first <= last && last < count
}

/// How many keys the union of two stores in order has: "every key that
/// either holds, once".
pub fn union_count(left: &[u64], right: &[u64]) -> usize {
    let (mut i, mut j, mut count) = (0, 0, 0);
    while i < left.len() && j < right.len() {
        let (lower, upper) = (left[i], right[j]);
        i += usize::from(lower <= upper);
        j += usize::from(upper <= lower);
        count += 1;
    }
    count + (left.len() - i) + (right.len() - j)
}

/// 8: "Has the union of both stores at most" as many keys as the limit?
pub fn q8_union_fits(union: usize) -> bool {
    union <= RawStore::LIMIT
}

/// 9: "Has the transcript at least twice as many records as that union has
/// keys?"
pub fn q9_transcript_long_enough(union: usize, records: usize) -> bool {
    records >= 2 * union
}

/// 10: "Has the frame at least 4 bytes, the first two hex 4C 43?"
pub fn q10_frame_marked(frame: &[u8]) -> bool {
    frame.len() >= FRAME_HEAD && frame.starts_with(&MARK)
}

/// 11: "Is the version byte 1?"
pub fn q11_version_known(frame: &[u8]) -> bool {
    frame.get(2) == Some(&VERSION)
}

/// 12, of n alone: "Is n from 1 to 4 …?"
pub fn q12_n_in_limit(n: usize) -> bool {
    (1..=FRAME_CLAIMS).contains(&n)
}

/// 12: "Is n from 1 to 4, and the length 4 + 26n?"
pub fn q12_length_told(frame: &[u8]) -> bool {
    frame.get(3).is_some_and(|&n| {
        let n = usize::from(n);
        q12_n_in_limit(n) && frame.len() == frame_length(n)
    })
}

/// 13: "Does each claim in it pass 2 to 5?" And 16, which is "part of what 13
/// asks" (document 02, slip 2).
pub fn q13_claims_pass(mut claims: impl Iterator<Item = Claim>) -> bool {
    claims.all(|claim| of_claim(&claim).is_ok())
}

/// 14: "Are the image's counts at most" the limit "and 64, and its length
/// exactly theirs?" Bytes too few to tell both counts have no length of theirs.
pub fn q14_length_told(image: &[u8]) -> bool {
    front_length(image) == Ok(image.len())
}

/// 15: "Is each lent output long enough?" Of each its length and the need.
pub fn q15_outputs_long_enough(lent: &[(usize, usize)]) -> bool {
    lent.iter().all(|(length, need)| length >= need)
}

/// 17, answered no "for n above the limit", which is the store's (document 02,
/// slip 5).
pub fn q17_n_in_store_limit(n: usize) -> bool {
    n <= RawStore::LIMIT
}

// ---- the first answered no ----

/// 2 to 5, 16, of one claim.
pub fn of_claim(claim: &Claim) -> Asked {
    of_saved_claim(claim)?;
    ask(16, q16_middle_between(claim))
}

/// 2 to 5, of one claim that an image has pending. By 16 it isn't refused but
/// left out.
pub fn of_saved_claim(claim: &Claim) -> Asked {
    ask(2, q2_lo_at_most_hi(claim))?;
    ask(3, q3_cnt_in_limit(claim))?;
    ask(4, q4_cnt_in_span(claim))?;
    ask(5, q5_sum_of_ends(claim))
}

/// 1, 6.
pub fn of_enter(store: &RawStore, key: u64) -> Asked {
    ask(1, q1_store_in_order(store))?;
    ask(6, q6_missing_fit(store.held(), &[key]))
}

/// 1, 7.
pub fn of_make(store: &RawStore, first: usize, last: usize) -> Asked {
    ask(1, q1_store_in_order(store))?;
    ask(7, q7_positions_held(store.count, first, last))
}

/// 1, 2 to 5, 16, 6.
pub fn of_reply(store: &RawStore, claim: &Claim) -> Asked {
    ask(1, q1_store_in_order(store))?;
    of_claim(claim)?;
    ask(6, q6_missing_fit(store.held(), &[claim.lo, claim.hi]))
}

/// 1, 2 to 5, 16, 6.
pub fn of_take(node: &RawNode, claim: &Claim) -> Asked {
    ask(1, q1_node_in_order(node))?;
    of_claim(claim)?;
    ask(6, q6_missing_fit(node.store.held(), &[claim.lo, claim.hi]))
}

/// 1, 15: "A beat needs 17 places" (document 02, slip 8), still "whatever is
/// pending".
pub fn of_beat(node: &RawNode, places: usize) -> Asked {
    ask(1, q1_node_in_order(node))?;
    ask(15, q15_outputs_long_enough(&[(places, BEAT_PLACES)]))
}

/// 1, 8, 9.
pub fn of_round(left: &RawStore, right: &RawStore, records: usize) -> Asked {
    ask(1, q1_store_in_order(left) && q1_store_in_order(right))?;
    let union = union_count(left.held(), right.held());
    ask(8, q8_union_fits(union))?;
    ask(9, q9_transcript_long_enough(union, records))
}

/// 1, of the first node and of the second, 8, 15, of as much as the longest
/// image: what [`of_host_join`] asks, of nodes (document 02, slip 9).
pub fn of_join_nodes(into: &RawNode, from: &RawNode, room: usize) -> Asked {
    ask(1, q1_node_in_order(into))?;
    ask(1, q1_node_in_order(from))?;
    let union = union_count(into.store.held(), from.store.held());
    ask(8, q8_union_fits(union))?;
    ask(15, q15_outputs_long_enough(&[(room, IMAGE_MOST)]))
}

/// 10 to 13.
pub fn of_read_frame(frame: &[u8]) -> Asked {
    ask(10, q10_frame_marked(frame))?;
    ask(11, q11_version_known(frame))?;
    ask(12, q12_length_told(frame))?;
    ask(13, q13_claims_pass(claims_of_frame(frame)))
}

/// "Writing a frame asks 12 (of n), 13, 15."
pub fn of_write_frame(claims: &[Claim], out: usize) -> Asked {
    ask(12, q12_n_in_limit(claims.len()))?;
    ask(13, q13_claims_pass(claims.iter().copied()))?;
    let need = frame_length(claims.len());
    ask(15, q15_outputs_long_enough(&[(out, need)]))
}

/// 14, 1.
pub fn of_read_image(image: &[u8]) -> Asked {
    node_of_image(image).map(drop)
}

/// 1, 15.
pub fn of_write_image(node: &RawNode, out: usize) -> Asked {
    ask(1, q1_node_in_order(node))?;
    let need = length_of_counts(node.store.count, node.pending_count);
    ask(15, q15_outputs_long_enough(&[(out, need)]))
}

/// 1, 15: it "wants the sheet's own length of lent output" (document 02, slip
/// 4).
pub fn of_write_sheet(store: &RawStore, out: usize) -> Asked {
    ask(1, q1_store_in_order(store))?;
    let need = sheet_length(store.count);
    ask(15, q15_outputs_long_enough(&[(out, need)]))
}

/// 17, "the only question of this call" (document 02, slip 5), and of its host
/// call.
pub fn of_opening_cost(n: usize) -> Asked {
    ask(17, q17_n_in_store_limit(n))
}

/// 14, of an image with anything behind it.
pub fn of_image_length(bytes: &[u8]) -> Asked {
    front_length(bytes).map(drop)
}

/// "images come first: 14, 1, then 10 to 13, 6, 15. … In a frame, 6 is put
/// claim by claim", each time to the keys that the claims before it left,
/// their middle keys of three with them (document 02, slip 1).
///
/// [`host::take_frame`](crate::host::take_frame) puts 6 on its way; here a plain set of
/// keys grows instead, and the tests hold the two together.
pub fn of_host_take_frame(image: &[u8], frame: &[u8], out: usize) -> Asked {
    let node = node_of_image(image)?;
    of_read_frame(frame)?;
    let mut keys: BTreeSet<u64> = node.store.keys().iter().copied().collect();
    for claim in claims_of_frame(frame) {
        keys.extend([claim.lo, claim.hi]);
        ask(6, keys.len() <= RawStore::LIMIT)?;
        // Strictly between them by 16, a part of 13.
        let own = keys.range(claim.lo..=claim.hi).count();
        if claim.cnt == 3 && own == 2 && keys.len() < RawStore::LIMIT {
            keys.insert(claim.middle());
        }
    }
    ask(15, q15_outputs_long_enough(&[(out, IMAGE_MOST)]))
}

/// 14, 1, 15, of as much as the longest image "and its host call 462 bytes of
/// frames (15)" (document 02, slip 8).
pub fn of_host_beat(image: &[u8], out: usize, frames: usize) -> Asked {
    of_read_image(image)?;
    let needs = [(out, IMAGE_MOST), (frames, BEAT_FRAMES)];
    ask(15, q15_outputs_long_enough(&needs))
}

/// 14, 1, 6, 15. As for a frame, a plain set of keys grows here.
pub fn of_host_enter(image: &[u8], key: u64, out: usize) -> Asked {
    let node = node_of_image(image)?;
    let mut keys: BTreeSet<u64> = node.store.keys().iter().copied().collect();
    keys.insert(key);
    ask(6, keys.len() <= RawStore::LIMIT)?;
    ask(15, q15_outputs_long_enough(&[(out, IMAGE_MOST)]))
}

/// 14, 1.
pub fn of_host_count(image: &[u8]) -> Asked {
    of_read_image(image)
}

/// 14, 1, 15, of the sheet's own length.
pub fn of_host_sheet(image: &[u8], out: usize) -> Asked {
    let node = node_of_image(image)?;
    let need = sheet_length(node.store.keys().len());
    ask(15, q15_outputs_long_enough(&[(out, need)]))
}

/// "14 and 1 for the first image, then for the second, then 8, then 15 (18,052
/// bytes)" (document 02, slip 9). As for a frame, a plain set of keys grows
/// here.
pub fn of_host_join(first: &[u8], second: &[u8], out: usize) -> Asked {
    let mut keys: BTreeSet<u64> = BTreeSet::new();
    for image in [first, second] {
        keys.extend(node_of_image(image)?.store.keys());
    }
    ask(8, q8_union_fits(keys.len()))?;
    ask(15, q15_outputs_long_enough(&[(out, IMAGE_MOST)]))
}

/// 14 and 1 of the first image, 14 and 1 of the second, 8, 9.
pub fn of_rehearse(input: &[u8]) -> Asked {
    let (first, rest) = input.split_at(front_length(input)?);
    let left = node_of_image(first)?;
    let right = node_of_image(rest)?;
    let union = union_count(left.store.keys(), right.store.keys());
    ask(8, q8_union_fits(union))?;
    ask(9, q9_transcript_long_enough(union, REHEARSAL_RECORDS))
}
