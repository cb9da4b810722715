//! A round.

use super::MAX;
use super::common::*;
use second::*;

fn lent(records: usize) -> Vec<Delivery> {
    let untouched = Delivery {
        sender: 200,
        claim: c(1, 2, 3, 4),
    };
    vec![untouched; records]
}

#[test]
fn a_union_above_the_limit_gets_8() {
    let mut keys = full(2).keys.to_vec();
    *keys.last_mut().unwrap() = MAX;
    let (left, right) = (full(2), RawStore::of(&keys));
    let mut records = lent(4 * LIMIT);
    let rounded = round(left.clone(), right.clone(), &mut records);
    assert_eq!((rounded.number, rounded.deliveries), (8, 0));
    assert_eq!((rounded.left, rounded.right), (left.clone(), right));
    assert_eq!(records, lent(4 * LIMIT));
    // 8 before 9, and only the union counts.
    assert_eq!(round(left.clone(), RawStore::of(&[1]), &mut []).number, 8);
    assert_eq!(round(RawStore::of(&[1]), left.clone(), &mut []).number, 8);
    assert_eq!(round(left, RawStore::of(&[2]), &mut records).number, 0);
}

#[test]
fn records_twice_the_union() {
    let mut records = lent(2 * LIMIT - 1);
    let rounded = round(full(1), full(1), &mut records);
    assert_eq!((rounded.number, rounded.deliveries), (9, 0));
    assert_eq!((rounded.left, rounded.right), (full(1), full(1)));
    assert_eq!(records, lent(2 * LIMIT - 1));

    let mut records = lent(2 * LIMIT);
    let rounded = round(full(1), full(1), &mut records);
    assert_eq!((rounded.number, rounded.deliveries), (0, 2));
    assert_eq!(&records[2..], &lent(2 * LIMIT - 2));

    let (left, right) = (RawStore::of(&[1, 2]), RawStore::of(&[2, 3]));
    assert_eq!(round(left.clone(), right.clone(), &mut lent(5)).number, 9);
    assert_eq!(round(left, right, &mut lent(6)).number, 0);
}

#[test]
fn rounds_with_empty_stores() {
    let empty = RawStore::empty;
    let rounded = round(empty(), empty(), &mut []);
    assert_eq!((rounded.number, rounded.deliveries), (0, 0));

    // The whole claim of an empty one is none: the other opens at once.
    let mut records = lent(2);
    let rounded = round(empty(), RawStore::of(&[7]), &mut records);
    assert_eq!((rounded.number, rounded.deliveries), (0, 1));
    assert_eq!(rounded.left, RawStore::of(&[7]));
    let opening = |sender| Delivery {
        sender,
        claim: c(7, 7, 7, 1),
    };
    assert_eq!(records, [opening(1), lent(1)[0]]);

    // The right one's whole claim is "made then": it has learnt meanwhile.
    let rounded = round(RawStore::of(&[7]), empty(), &mut records);
    assert_eq!((rounded.number, rounded.deliveries), (0, 2));
    assert_eq!(rounded.right, RawStore::of(&[7]));
    assert_eq!(records, [opening(0), opening(1)]);
}

#[test]
fn one_side_learns_everything_in_deliveries_of_their_order() {
    // Left {1, 2, 4, 8, 16, 32}, right {}: ask, two claims of help, the first
    // of which gives its middle key away.
    learns_everything(
        &[1, 2, 4, 8, 16, 32],
        &[
            (0, c(1, 32, 63, 6)),
            (1, c(1, 32, 33, 2)),
            (0, c(2, 8, 14, 3)),
            (0, c(16, 16, 16, 1)),
            (1, c(1, 32, 63, 6)),
        ],
    );
    // Two keys more: ask, two claims of help, an ask about the first of them,
    // help with the keys between.
    learns_everything(
        &[1, 2, 4, 8, 16, 32, 64, 128],
        &[
            (0, c(1, 128, 255, 8)),
            (1, c(1, 128, 129, 2)),
            (0, c(2, 16, 30, 4)),
            (0, c(32, 64, 96, 2)),
            (1, c(2, 16, 18, 2)),
            (0, c(4, 8, 12, 2)),
            (1, c(1, 128, 255, 8)),
        ],
    );
}

/// An empty right store learns the left one's keys by these deliveries.
fn learns_everything(keys: &[u64], expected: &[(u8, Claim)]) {
    let mut records = lent(2 * keys.len());
    let left = RawStore::of(keys);
    let rounded = round(left.clone(), RawStore::empty(), &mut records);
    assert_eq!((rounded.number, rounded.deliveries), (0, expected.len()));
    assert_eq!((&rounded.left, &rounded.right), (&left, &left));
    let (written, kept) = records.split_at(expected.len());
    for (record, &(sender, claim)) in written.iter().zip(expected) {
        assert_eq!(*record, Delivery { sender, claim });
    }
    assert_eq!(kept, &lent(kept.len()));
}
