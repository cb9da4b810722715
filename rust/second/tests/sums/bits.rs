//! Every bit of every sum is asked about by question 1.

use super::common::*;
use super::{FEW, drawn};
use second::*;

/// A store in order, and out of order by each single bit of its sums.
fn every_bit_counts(keys: &[u64]) {
    let mut store = RawStore::of(keys);
    let answers = |store: &RawStore| {
        let made = make(store, 0, keys.len().wrapping_sub(1));
        let sheet = write_sheet(store, &mut []);
        (made.number, sheet.number)
    };
    let in_order = (if keys.is_empty() { 7 } else { 0 }, 15);
    assert_eq!(answers(&store), in_order);
    for place in 0..LIMIT {
        for bit in 0..64 {
            store.sums[place] ^= 1 << bit;
            assert_eq!(answers(&store), (1, 1), "place {place}, bit {bit}");
            store.sums[place] ^= 1 << bit;
        }
    }
    assert_eq!(answers(&store), in_order);
}

#[test]
fn every_bit_of_an_empty_store() {
    every_bit_counts(&[]);
}

#[test]
fn every_bit_of_a_few_keys() {
    for keys in [FEW[1], FEW[8], FEW[13]] {
        every_bit_counts(keys);
    }
}

#[test]
fn every_bit_of_a_full_store() {
    for_seeds(1, |rng| every_bit_counts(&drawn(rng, LIMIT)));
}
