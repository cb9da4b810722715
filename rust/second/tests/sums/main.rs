//! Document 02, slip 7, "Running sums beside the keys": its sentences, each in
//! a file or two.

#[path = "../common/mod.rs"]
mod common;
#[path = "../properties/sets.rs"]
mod sets;

mod asked;
mod bits;
mod calls;
mod events;
mod images;
mod limit;
mod spans;
mod stores;
mod wrong;

use common::*;
use second::*;

const MAX: u64 = u64::MAX;

/// The sums of a store of these keys, one for each place: "the XOR of all keys
/// up to and with that place, and 0 in unused places".
fn sums_of(keys: &[u64]) -> Vec<u64> {
    let mut sums = Vec::new();
    let mut sum = 0;
    for key in keys {
        sum ^= key;
        sums.push(sum);
    }
    while sums.len() < LIMIT {
        sums.push(0);
    }
    sums
}

/// Fails unless a store holds these keys in order, with the sums that are
/// worked out of them here.
fn holds(store: &RawStore, keys: &[u64]) {
    assert_eq!((store.held(), store.count), (keys, keys.len()));
    assert!(store.keys[keys.len()..].iter().all(|&place| place == 0));
    assert_eq!(store.sums[..], sums_of(keys));
    assert!(questions::q1_store_in_order(store));
}

/// Fails unless a store is in order, its sums those of the keys that it holds.
fn in_order(store: &RawStore) {
    let keys = store.held().to_vec();
    assert!(keys.is_sorted_by(|lower, upper| lower < upper));
    holds(store, &keys);
}

/// So many keys of all 64 bits, rising, 0 and the largest among them if there
/// are two or more.
fn drawn(rng: &mut Rng, count: usize) -> Vec<u64> {
    let mut keys = std::collections::BTreeSet::new();
    if count >= 2 {
        keys.extend([0, MAX]);
    }
    while keys.len() < count {
        keys.insert(rng.next());
    }
    keys.into_iter().collect()
}

/// Lent transcript records, with something in each.
fn lent(records: usize) -> Vec<Delivery> {
    let untouched = Delivery {
        sender: 200,
        claim: c(1, 2, 3, 4),
    };
    vec![untouched; records]
}

/// Sets of a few keys: 0 and the largest in them or not, and such whose sums
/// are 0 in a place in use.
const FEW: [&[u64]; 16] = [
    &[],
    &[0],
    &[1],
    &[MAX],
    &[0, 1],
    &[0, MAX],
    &[7, 8],
    &[MAX - 1, MAX],
    &[1, 2, 3],
    &[0, 1, 10],
    &[0, 1, 2, 3],
    &[1, 2, 3, 4, 8, 12],
    &[1, 2, 4, 8, 16, 32],
    &[0, 5, 6, 10, 1 << 63, MAX],
    &[0, 1, 2, 3, 4, 5, 6, 7, 8, 9, 10, 11],
    &[3, 9, 27, 81, 243, 729, 2_187, 6_561, 19_683],
];
