//! "The store record gains one number for each place: the XOR of all keys up to
//! and with that place, and 0 in unused places."

use super::common::*;
use super::{FEW, MAX, drawn, holds, sums_of};
use second::*;

/// Worked out by hand.
#[test]
fn sums_of_a_few_keys() {
    for (keys, sums) in [
        (&[][..], &[][..]),
        (&[7], &[7]),
        (&[0, 1, 10], &[0, 1, 11]),
        (&[0, 5, 6, 10], &[0, 5, 3, 9]),
        (&[1, 2, 4, 8, 16], &[1, 3, 7, 15, 31]),
        (&[5, MAX], &[5, MAX - 5]),
        // A sum of 0 is that of a place in use, or of one that isn't.
        (&[0], &[0]),
        (&[1, 2, 3], &[1, 3, 0]),
        (&[1, 2, 3, 4], &[1, 3, 0, 4]),
    ] {
        let store = RawStore::of(keys);
        let (in_use, unused) = store.sums.split_at(keys.len());
        assert_eq!(in_use, sums);
        assert!(unused.iter().all(|&sum| sum == 0));
        holds(&store, keys);
    }
    holds(&RawStore::empty(), &[]);
    holds(&RawNode::empty().store, &[]);
}

/// Each sum by a loop of its own over "all keys up to and with that place".
#[test]
fn each_sum_by_itself() {
    for_seeds(1, |rng| {
        let full = drawn(rng, LIMIT);
        for keys in FEW.into_iter().chain([&full[..], &full[1..], &full[..5]]) {
            let store = RawStore::of(keys);
            for place in 0..LIMIT {
                let mut sum = 0;
                if place < keys.len() {
                    for key in &keys[..=place] {
                        sum ^= key;
                    }
                }
                assert_eq!(store.sums[place], sum);
            }
            assert_eq!(store.sums[..], sums_of(keys));
        }
    });
}

/// Keys "as they stand, not sorted" have their sums as they stand, and are out
/// of order by the keys alone.
#[test]
fn sums_of_keys_that_do_not_rise() {
    for (keys, sums) in [
        (&[3, 3][..], &[3, 0][..]),
        (&[3, 2], &[3, 1]),
        (&[0, 0], &[0, 0]),
        (&[16, 1, 2], &[16, 17, 19]),
    ] {
        let store = RawStore::of(keys);
        assert_eq!(store.sums[..keys.len()], *sums);
        assert_eq!(store.sums[..], sums_of(keys));
        assert!(!questions::q1_store_in_order(&store));
        assert_eq!(enter(store, 4).number, 1);
    }
}

/// What the tests put right sums with, whatever the count.
#[test]
fn sums_made_right() {
    for_seeds(1, |rng| {
        let keys = drawn(rng, LIMIT);
        for count in [0, 1, 2, 1_000, LIMIT - 1, LIMIT, LIMIT + 1, usize::MAX] {
            let mut store = RawStore::of(&keys);
            (store.count, store.sums[3]) = (count, 9);
            let right = sums_of(&keys[..count.min(LIMIT)]);
            assert_eq!(store.right_sums()[..], right);
            store.resum();
            assert_eq!(store.sums[..], right);
            assert_eq!((store.count, &store.keys[..]), (count, &keys[..]));
        }
    });
}

/// A failing test tells of the sums only where they aren't right.
#[test]
fn sums_that_are_told() {
    let mut store = RawStore::of(&[1, 2]);
    let told = |store: &RawStore| format!("{store:?}");
    let right = "RawStore { count: 2, keys: [1, 2] }";
    assert_eq!(told(&store), right);
    store.sums[1] = 9;
    store.sums[700] = 8;
    let wrong = "RawStore { count: 2, keys: [1, 2], wrong_sums: [(1, 9), (700, 8)] }";
    assert_eq!(told(&store), wrong);
    store.resum();
    assert_eq!(told(&store), right);
    store.count = usize::MAX;
    assert!(told(&store).contains("wrong_sums: [(2, 0), (3, 0),"));
    assert_eq!(told(&RawStore::empty()), "RawStore { count: 0, keys: [] }");
}
