//! What a new kiosk costs: by hand, and beside the second program for every
//! number of keys that a store can hold and for more. That both READMEs tell it
//! so is a test of `readme`.

#[path = "../../second/tests/common/mod.rs"]
mod common;

use common::{Rng, for_seeds};
use minutefrost::opening_cost;
use second::{RawStore, host};

const LIMIT: usize = RawStore::LIMIT;

/// The deliveries for so many keys, which the second program gives too.
fn cost(keys: usize) -> usize {
    let cost = opening_cost(keys).unwrap();
    assert_eq!(host::opening_cost(keys), cost as i64, "of {keys} keys");
    cost
}

/// More keys than a store can hold are refused, by both programs.
fn refused(keys: usize) {
    let refusal = opening_cost(keys).unwrap_err();
    assert_eq!(refusal.number(), 17, "of {keys} keys");
    assert_eq!(host::opening_cost(keys), -17);
    assert_eq!(
        refusal.to_string(),
        "refused 17: the number of keys is more than a store can hold",
    );
}

/// The request's own numbers, and the first that come of its equations.
#[test]
fn costs_by_hand() {
    for (keys, deliveries) in [
        (0, 0), // "none for n = 0"
        (1, 1), // "Let E(1), E(2), E(3) be 1."
        (2, 1),
        (3, 1),
        (4, 3), // 2 + E(2)
        (5, 3), // 2 + E(3)
        (6, 4), // z = 2: 2 + E(3) + E(1)
        (7, 4), // z = 2: 2 + E(3) + E(2)
        (8, 6), // z = 3: 2 + E(4) + E(2)
    ] {
        assert_eq!(cost(keys), deliveries, "of {keys} keys");
    }
}

/// "for each n from 0 to the store limit"
#[test]
fn every_number_of_keys_agrees() {
    let costs: Vec<usize> = (0..=LIMIT).map(cost).collect();
    // A key more never makes a round shorter.
    assert!(costs.is_sorted());
    assert_eq!(costs.len(), LIMIT + 1);
}

/// "17, for n above the limit": just above it, far above, and where the low
/// bits alone would be within it.
#[test]
fn more_keys_than_fit_are_refused() {
    for keys in [
        LIMIT + 1,
        LIMIT + 2,
        2 * LIMIT,
        usize::from(u16::MAX),
        1 << 16,
        (1 << 16) + LIMIT,
        u32::MAX as usize,
        1 << 32,
        (1 << 32) + 5,
        i64::MAX as usize,
        1 << 63,
        usize::MAX - LIMIT,
        usize::MAX - 1,
        usize::MAX,
    ] {
        refused(keys);
    }
}

/// Any number of keys, of any number of bits.
#[test]
fn any_number_is_answered() {
    for_seeds(2_000, |rng: &mut Rng| {
        let keys = (rng.next() >> rng.below(64)) as usize;
        match keys {
            0..=LIMIT => drop(cost(keys)),
            _ => refused(keys),
        }
    });
}
