//! "The limit becomes 2,048, in stores, in cnt and in unions": unions.

use super::common::*;
use super::{OLD_LIMIT, drawn};
use second::*;

/// Stores whose union is these keys: as halves, as every other one, with all
/// but one in both, with all but one in one; where they fit, with all in one
/// or in both.
pub fn pairs_of(keys: &[u64]) -> Vec<[RawStore; 2]> {
    let count = keys.len();
    let every_other = |first: usize| -> Vec<u64> {
        let rest = keys[first..].iter();
        rest.step_by(2).copied().collect()
    };
    let (even, odd) = (every_other(0), every_other(1));
    let (lower, upper) = keys.split_at(count / 2);
    let (front, last) = keys.split_at(count - 1);
    let mut pairs = vec![
        [lower, upper],
        [&even, &odd],
        [&keys[1..], front],
        [front, last],
        [last, front],
    ];
    if count <= LIMIT {
        pairs.extend([[keys, &[]], [&[], keys], [keys, keys]]);
    }
    let stores = |pair: [&[u64]; 2]| pair.map(RawStore::of);
    pairs.into_iter().map(stores).collect()
}

/// Rounds of two stores until they are equal; what they hold then. None is
/// refused and no match is false.
fn meet([mut left, mut right]: [RawStore; 2], records: usize) -> RawStore {
    let mut records = vec![Delivery::default(); records];
    for _ in 0..=LIMIT {
        let (rounded, false_matches) = round_watched(left, right, &mut records);
        assert_eq!((rounded.number, false_matches), (0, vec![]));
        (left, right) = (rounded.left, rounded.right);
        if left == right {
            return left;
        }
    }
    panic!("each round leaves fewer keys that differ");
}

/// The number of a round that is refused, which leaves all as it was.
pub fn refused_round([left, right]: [RawStore; 2], records: usize) -> u8 {
    let untouched = Delivery {
        sender: 77,
        claim: c(4, 3, 2, 1),
    };
    let mut lent = vec![untouched; records];
    let rounded = round(left.clone(), right.clone(), &mut lent);
    assert_eq!(rounded.deliveries, 0);
    assert_eq!((rounded.left, rounded.right), (left, right));
    assert!(lent.iter().all(|record| *record == untouched));
    rounded.number
}

/// "in unions", and question 8 uses the new limit: a union of just as many keys
/// meets, with records enough; one of a key more is refused, whatever is lent.
#[test]
fn unions_up_to_the_limit_meet() {
    for_seeds(1, |rng| {
        for count in [OLD_LIMIT + 1, LIMIT - 1, LIMIT] {
            let keys = drawn(rng, count);
            for pair in pairs_of(&keys) {
                assert_eq!(refused_round(pair.clone(), 2 * count - 1), 9);
                assert_eq!(meet(pair, 2 * count).held(), keys);
            }
        }
        for pair in pairs_of(&drawn(rng, LIMIT + 1)) {
            for records in [0, REHEARSAL_RECORDS, 2 * LIMIT, 4 * LIMIT] {
                assert_eq!(refused_round(pair.clone(), records), 8);
            }
        }
    });
}
