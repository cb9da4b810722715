//! "Its keys are the union", and "then 8": unions of up to the limit, and of
//! one key more.

use std::collections::BTreeSet;

use super::common::*;
use super::{MAX, NEEDED, joined, refused};

/// So many keys of all 64 bits, rising, 0 and the largest among them.
fn drawn(rng: &mut Rng, count: usize) -> Vec<u64> {
    let mut keys = BTreeSet::from([0, MAX]);
    while keys.len() < count {
        keys.insert(rng.next());
    }
    keys.into_iter().collect()
}

/// Pairs of keys whose union is these: halves, every other one, ends and
/// middle, all but one in both, all but one in one; where they fit, all in one
/// or in both.
fn pairs_of(keys: &[u64]) -> Vec<[Vec<u64>; 2]> {
    let (lower, upper) = keys.split_at(keys.len() / 2);
    let (even, odd) = (keys.iter().step_by(2), keys[1..].iter().step_by(2));
    let (front, last) = keys.split_at(keys.len() - 1);
    let inner = &keys[100..900];
    let outer = [&keys[..100], &keys[900..]].concat();
    let mut pairs = vec![
        [lower.to_vec(), upper.to_vec()],
        [even.copied().collect(), odd.copied().collect()],
        [inner.to_vec(), outer],
        [keys[1..].to_vec(), front.to_vec()],
        [front.to_vec(), last.to_vec()],
        [keys[1..].to_vec(), vec![keys[0]]],
    ];
    if keys.len() <= LIMIT {
        pairs.push([keys.to_vec(), vec![]]);
        pairs.push([keys.to_vec(), keys.to_vec()]);
        pairs.push([keys.to_vec(), keys[700..].to_vec()]);
    }
    pairs
}

#[test]
fn unions_of_2_047_and_2_048_keys() {
    for_seeds(2, |rng| {
        for count in [2_047, 2_048] {
            let keys = drawn(rng, count);
            for [first, second] in pairs_of(&keys) {
                let [first, second] = [first, second].map(|it| image_of_keys(&it));
                assert_eq!(joined(&first, &second), image_of_keys(&keys));
            }
        }
    });
}

#[test]
fn unions_of_2_049_keys_are_refused() {
    for_seeds(2, |rng| {
        for [first, second] in pairs_of(&drawn(rng, 2_049)) {
            let [first, second] = [first, second].map(|it| image_of_keys(&it));
            for lent in [0, NEEDED - 1, NEEDED, 2 * NEEDED] {
                assert_eq!(refused(&first, &second, lent), 8);
                assert_eq!(refused(&second, &first, lent), 8);
            }
        }
    });
}

/// "refusing two equal full stores because 2,048 exceeds 1,024" is among the
/// mistakes that come easily (document 01): here 4,096 would exceed 2,048.
#[test]
fn two_full_equal_stores() {
    for keys in [full(1), full(3), full(MAX / 2_047)] {
        let keys = keys.held();
        let last = keys[2_047];
        let without = image_of_keys(keys);
        let one = image_of(keys, &[c(0, last, last, 2)]);
        let other = image_of(keys, &[c(0, 0, 0, 1), c(0, last, 5, 9)]);
        let both = [c(0, 0, 0, 1), c(0, last, last, 2), c(0, last, 5, 9)];
        assert_eq!(joined(&without, &without), without);
        assert_eq!(joined(&one, &without), one);
        assert_eq!(joined(&one, &other), image_of(keys, &both));
    }
    // The longest image there is, of two of the same keys and other claims.
    let (twos, fours) = (full_image(2), full_image(4));
    assert_eq!(joined(&twos, &fours), twos);
    assert_eq!(twos.len(), NEEDED);
}

/// Two full stores that differ in one key have a union of 2,049.
#[test]
fn two_full_stores_with_one_key_of_their_own() {
    let keys = full(2);
    let keys = keys.held();
    for at in [0, 1, 1_000, 2_047] {
        let mut other = keys.to_vec();
        other[at] += 1;
        let [first, second] = [keys, &other].map(image_of_keys);
        assert_eq!(refused(&first, &second, NEEDED), 8);
        assert_eq!(refused(&second, &first, NEEDED), 8);
    }
}
