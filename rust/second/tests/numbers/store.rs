//! Keys and the store.

use super::MAX;
use super::common::*;
use second::*;

/// "The limit becomes 2,048, in stores, in cnt and in unions" (document 02,
/// slip 6).
#[test]
fn the_limit() {
    assert_eq!(LIMIT, 2_048);
}

/// "The empty store is" as many "zeros with count 0", and its running sums are
/// "0 in unused places" (document 02, slip 7).
#[test]
fn the_empty_store_is_zeros_with_count_0() {
    let empty = RawStore::empty();
    assert_eq!((empty.count, empty.keys.as_slice()), (0, &[0; LIMIT][..]));
    assert_eq!(empty.sums.as_slice(), &[0; LIMIT]);
    assert!(questions::q1_store_in_order(&empty));
}

#[test]
fn a_key_is_any_64_bit_number() {
    let mut store = RawStore::empty();
    for key in [5, MAX, 0, 7, 0, MAX, 6] {
        let entered = enter(store, key);
        assert_eq!(entered.number, 0);
        store = entered.store;
    }
    assert_eq!(store, RawStore::of(&[0, 5, 6, 7, MAX]));
}

/// Stores out of order, each by one thing, a key or the count: the sums are
/// those of the keys as they stand. Wrong sums are in `tests/sums`.
fn out_of_order() -> Vec<RawStore> {
    let good = RawStore::of(&[0, 3, 8]);
    let mut bad = vec![
        RawStore::of(&[3, 3]),
        RawStore::of(&[3, 2]),
        RawStore::of(&[3, 0]),
        RawStore::of(&[0, 0]),
    ];
    for count in [LIMIT + 1, LIMIT + 2, 65_536, usize::MAX] {
        bad.push(RawStore {
            count,
            ..full(1).clone()
        });
    }
    // Count lower or higher than the keys there.
    bad.push(RawStore {
        count: 2,
        ..good.clone()
    });
    bad.push(RawStore {
        count: 4,
        ..good.clone()
    });
    // "every place from the count on is 0"
    for place in [3, 500, LIMIT - 1] {
        let mut store = good.clone();
        store.keys[place] = 9;
        bad.push(store);
    }
    // The last two of a full one.
    let mut store = full(1);
    store.keys[LIMIT - 1] = store.keys[LIMIT - 2];
    bad.push(store);
    let mut store = full(1);
    store.count = LIMIT - 1;
    bad.push(store);
    bad.iter_mut().for_each(RawStore::resum);
    bad
}

#[test]
fn stores_out_of_order_get_1_whatever_else_is_wrong() {
    let bad_claim = c(9, 5, 0, 0);
    for bad in out_of_order() {
        let entered = enter(bad.clone(), MAX);
        assert_eq!((entered.number, entered.store), (1, bad.clone()));
        let made = make(&bad, 1, 0);
        assert_eq!((made.number, made.claim), (1, Claim::ZERO));
        let replied = reply(bad.clone(), bad_claim);
        assert_eq!((replied.number, replied.reply), (1, None));
        assert_eq!(replied.store, bad);

        let node = RawNode::of(bad.clone(), &[]);
        let taken = take(node.clone(), bad_claim);
        assert_eq!((taken.number, &taken.node), (1, &node));
        let beaten = beat(node.clone(), &mut []);
        assert_eq!((beaten.number, beaten.written), (1, 0));
        assert_eq!(beaten.node, node);
        assert_eq!(write_image(&node, &mut []).number, 1);

        for (left, right) in [(bad.clone(), full(1)), (full(1), bad.clone())] {
            let rounded = round(left.clone(), right.clone(), &mut []);
            assert_eq!((rounded.number, rounded.deliveries), (1, 0));
            assert_eq!((rounded.left, rounded.right), (left, right));
        }
    }
}

#[test]
fn entering_into_a_full_store() {
    // A key held needs no room; the one after it isn't held.
    let held = full(2).keys[LIMIT / 2];
    let entered = enter(full(2), held);
    assert_eq!((entered.number, entered.store), (0, full(2)));
    for key in [1, held + 1, MAX] {
        let entered = enter(full(2), key);
        assert_eq!((entered.number, entered.store), (6, full(2)));
    }
    // The last key up to the limit has room, wherever it goes.
    for missing in [0, 1, LIMIT / 2 - 1, LIMIT - 1] {
        let mut keys = full(2).keys.to_vec();
        let key = keys.remove(missing);
        let entered = enter(RawStore::of(&keys), key);
        assert_eq!((entered.number, entered.store), (0, full(2)));
    }
}
