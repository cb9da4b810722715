//! "Questions 3, 6, 8 and 14 use the new limit": 6, in stores and in frames; 3
//! is asked with the stores, 8 with the unions and 14 with the images.

use std::collections::{BTreeMap, BTreeSet};

use super::common::*;
use super::{OLD_LIMIT, tens};
use second::*;

/// 6, of a store: "Do the missing ones among the keys to add fit" (document
/// 01), put to a call that enters, replies or takes.
#[test]
fn six_in_stores_at_the_limit() {
    let (one, two, held) = (c(1, 1, 1, 1), c(1, 3, 2, 2), c(0, 10, 10, 2));
    for (count, claim, number) in [
        (OLD_LIMIT, two, 0),
        (LIMIT - 2, two, 0),
        (LIMIT - 1, two, 6),
        (LIMIT - 1, one, 0),
        (LIMIT, one, 6),
        (LIMIT, two, 6),
        (LIMIT, held, 0),
    ] {
        let store = RawStore::of(&tens(count));
        let node = RawNode::of(store.clone(), &[]);
        let ends = [claim.lo, claim.hi];
        assert_eq!(questions::q6_missing_fit(store.held(), &ends), number == 0);
        let replied = reply(store.clone(), claim);
        let taken = take(node.clone(), claim);
        assert_eq!((replied.number, taken.number), (number, number));
        if number == 6 {
            assert_eq!((replied.store, taken.node), (store, node));
        }
    }
}

/// 6, of a frame: one that brings a key more than the limit gets it, and
/// nothing is written.
#[test]
fn a_frame_that_brings_too_many_keys_gets_6() {
    let keys = tens(LIMIT);
    let ones: Vec<Claim> = (1..=4).map(|key| c(key, key, key, 1)).collect();
    for missing in 0..=4 {
        let image = image_of_keys(&keys[..LIMIT - missing]);
        let mut out = vec![0x55; IMAGE_MOST];
        // One claim more than there is room for, then just as many.
        if let Some(more) = ones.get(..missing + 1) {
            assert_eq!(host::take_frame(&image, &frame_of(more), &mut out), -6);
            assert_eq!(out, vec![0x55; IMAGE_MOST]);
        }
        if missing > 0 {
            let answer = host::take_frame(&image, &frame_of(&ones[..missing]), &mut out);
            assert_eq!(answer, (4 + 8 * LIMIT + 26 * missing) as i64);
            let read = read_image(&out[..answer as usize]);
            assert_eq!((read.number, read.node.store.count), (0, LIMIT));
            assert_eq!(read.node.table(), &ones[..missing]);
        }
    }
}

/// A claim of one key, of two or of three, with none of 0, 10, 20, … strictly
/// between its ends.
fn between_tens(rng: &mut Rng, count: usize) -> Claim {
    let ten = 10 * rng.below(count) as u64;
    let mut ends = [0; 2].map(|_: u64| ten + rng.below(10) as u64);
    ends.sort_unstable();
    let [lo, hi] = ends;
    match hi - lo {
        0 => c(lo, lo, lo, 1),
        1 => c(lo, hi, lo ^ hi, 2),
        _ if rng.one_in(3) => c(lo, hi, lo ^ hi, 2),
        _ => three(lo, lo + 1 + rng.below((hi - lo - 1) as usize) as u64, hi),
    }
}

/// What a frame leaves of a set of keys, word by word: the number of the claim
/// that doesn't fit, from 1 on, or 0.
fn taken_by_set(keys: &mut BTreeSet<u64>, claims: &[Claim], ways: &Ways) -> usize {
    for (at, claim) in claims.iter().enumerate() {
        keys.extend([claim.lo, claim.hi]);
        if keys.len() > LIMIT {
            return at + 1;
        }
        if claim.cnt == 3 && keys.range(claim.lo..=claim.hi).count() == 2 {
            if keys.len() < LIMIT {
                keys.insert(claim.sum ^ claim.lo ^ claim.hi);
                ways.saw("a middle key");
            } else {
                ways.saw("a middle key without space");
            }
        }
    }
    0
}

/// "In a frame, 6 is put claim by claim" (document 01), here to images of
/// nearly as many keys as the limit.
#[test]
fn frames_at_the_limit_beside_sets() {
    let ways = Ways::default();
    for_seeds(400, |rng| {
        let count = LIMIT - rng.below(10);
        let image = image_of_keys(&tens(count));
        let n = 1 + rng.below(4);
        let claims: Vec<Claim> = (0..n).map(|_| between_tens(rng, count)).collect();
        let mut out = vec![0x55; IMAGE_MOST];
        let answer = host::take_frame(&image, &frame_of(&claims), &mut out);

        let mut keys: BTreeSet<u64> = tens(count).into_iter().collect();
        let refused = taken_by_set(&mut keys, &claims, &ways);
        if refused > 0 {
            ways.saw(format!("6 at claim {refused}"));
            assert_eq!((answer, out), (-6, vec![0x55; IMAGE_MOST]));
            return;
        }
        let full = keys.len() == LIMIT;
        ways.saw(if full { "up to the limit" } else { "below it" });
        let keys: Vec<u64> = keys.into_iter().collect();
        let table: BTreeMap<_, Claim> = claims.iter().map(|it| (it.rank(), *it)).collect();
        let table: Vec<Claim> = table.into_values().collect();
        let expected = image_of(&keys, &table);
        assert_eq!(answer, expected.len() as i64);
        assert_eq!(out[..expected.len()], expected);
    });
    ways.all_of(&["up to the limit", "below it"]);
    ways.all_of(&["a middle key", "a middle key without space"]);
    ways.all_of(&[
        "6 at claim 1",
        "6 at claim 2",
        "6 at claim 3",
        "6 at claim 4",
    ]);
}
