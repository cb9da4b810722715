//! "Its keys are the union", which question 8 lets have as many keys as a store.

use second::IMAGE_MOST;
use tests::draw::image_of;

use super::{LIMIT, even, expect_refused, join, joined};

/// Two images of a union of so many keys: its lower and upper part, parted
/// anywhere; every other key; all but a few in both; all of one, and one more.
fn pairs(union: usize) -> Vec<[Vec<u8>; 2]> {
    let keys = even(0, union);
    let every_other =
        [0, 1].map(|from| -> Vec<u64> { keys.iter().copied().skip(from).step_by(2).collect() });
    let mut pairs = vec![every_other];
    for at in [1, 2, union / 2, union - 2, union - 1] {
        pairs.push([keys[..at].to_vec(), keys[at..].to_vec()]);
    }
    for alone in [0, union / 2, union - 1] {
        let mut others = keys.clone();
        let key = others.remove(alone);
        pairs.push([others.clone(), vec![key]]);
        pairs.push([others, keys[alone.saturating_sub(9)..=alone].to_vec()]);
    }
    pairs.push([keys[..union - 5].to_vec(), keys[5..].to_vec()]);
    let images = |pair: [Vec<u64>; 2]| pair.map(|keys| image_of(&keys, &[]));
    pairs.into_iter().map(images).collect()
}

#[test]
fn as_many_keys_as_fit_and_one_more() {
    for union in [LIMIT - 1, LIMIT] {
        let whole = image_of(&even(0, union), &[]);
        for [first, second] in pairs(union) {
            assert!(joined(&first, &second) == whole, "{union} keys");
            assert!(joined(&first, &whole) == whole, "{union} keys");
            for lent in [0, whole.len(), IMAGE_MOST - 1] {
                expect_refused(&first, &second, lent, 15);
            }
        }
    }
    for [first, second] in pairs(LIMIT + 1) {
        // "then 8, then 15"
        for lent in [0, IMAGE_MOST - 1, IMAGE_MOST, IMAGE_MOST + 1] {
            expect_refused(&first, &second, lent, 8);
        }
    }
}

/// Twice as many keys as fit, none in both, and all in both.
#[test]
fn two_full_images() {
    let keys = even(0, LIMIT);
    let odd: Vec<u64> = keys.iter().map(|key| key + 1).collect();
    let above = even(LIMIT, LIMIT);
    let [even, odd, above] = [keys, odd, above].map(|keys| image_of(&keys, &[]));
    for other in [&odd, &above] {
        for lent in [IMAGE_MOST - 1, IMAGE_MOST] {
            expect_refused(&even, other, lent, 8);
        }
    }
    assert!(joined(&even, &even) == even);
    assert_eq!(join(&even, &even, IMAGE_MOST - 1), Err(15));
}

/// Keys at both ends of all that there are, and key 0 is one like any other.
#[test]
fn the_lowest_and_the_highest_keys() {
    const MAX: u64 = u64::MAX;
    let sets: [&[u64]; 8] = [
        &[],
        &[0],
        &[MAX],
        &[0, MAX],
        &[1, MAX - 1],
        &[0, 1 << 63, MAX],
        &[255, 256, 65_535, 65_536],
        &[1 << 32, (1 << 32) + 1, 1 << 56],
    ];
    for first in sets {
        for second in sets {
            let mut keys = [first, second].concat();
            keys.sort_unstable();
            keys.dedup();
            let [first, second] = [first, second].map(|keys| image_of(keys, &[]));
            assert!(joined(&first, &second) == image_of(&keys, &[]), "{keys:?}");
        }
    }
}
