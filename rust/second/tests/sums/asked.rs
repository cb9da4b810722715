//! "… which question 1 covers": each call that is given a store or a node asks
//! it, before all other questions.

use super::common::*;
use super::wrong::{with_sums, with_wrong_sums};
use super::{FEW, MAX, drawn, lent, sums_of};
use second::*;

/// Claims that get 0 or 6, and of each other question one.
fn claims(store: &RawStore) -> Vec<Claim> {
    let mut claims = vec![
        c(9, 5, 12, 2),
        c(5, 6, 3, 0),
        c(5, 6, 3, 3),
        c(5, 5, 0, 1),
        three(4, 4, 8),
        c(4, 4, 4, 1),
        c(1, MAX - 1, 0, MOST_CNT),
        three(1, 9, 11),
    ];
    claims.extend((store.count > 0).then(|| claim_of(store.held())));
    claims
}

/// The numbers of the calls that are given a store and give one back.
fn entering_and_replying(store: &RawStore, numbers: &mut Vec<u8>) {
    for key in [0, 5, MAX, store.keys[store.count / 2]] {
        let entered = enter(store.clone(), key);
        assert!(entered.number == 0 || entered.store == *store);
        numbers.push(entered.number);
    }
    for claim in claims(store) {
        let replied = reply(store.clone(), claim);
        if replied.number != 0 {
            assert_eq!((replied.reply, &replied.store), (None, store));
            assert_eq!(replied.claims(), (0, [Claim::ZERO; 2]));
        }
        numbers.push(replied.number);
    }
}

/// The numbers of the calls that look at a store.
fn making_and_sheets(store: &RawStore, numbers: &mut Vec<u8>) {
    let given = store.clone();
    let last = store.count.wrapping_sub(1);
    for (first, last) in [(0, 0), (0, last), (last, last), (1, 0), (0, LIMIT)] {
        let made = make(store, first, last);
        assert!(made.number == 0 || made.claim == Claim::ZERO);
        numbers.push(made.number);
    }
    for length in [0, SHEET_MOST] {
        let mut out = vec![0x55; length];
        let written = write_sheet(store, &mut out);
        assert!(written.number == 0 || (written.length == 0 && out == vec![0x55; length]));
        numbers.push(written.number);
    }
    assert_eq!(*store, given);
}

/// The numbers of rounds with an empty store, an equal one and a full one, on
/// either side, of too few records and of enough.
fn rounds(store: &RawStore, numbers: &mut Vec<u8>) {
    let others = [RawStore::empty(), RawStore::of(store.held()), full(3)];
    for other in others {
        for (left, right) in [(store, &other), (&other, store)] {
            for records in [0, 2 * LIMIT] {
                let mut run = lent(records);
                let (rounded, matches) = round_watched(left.clone(), right.clone(), &mut run);
                let plain = round(left.clone(), right.clone(), &mut lent(records));
                assert_eq!(plain, rounded);
                if rounded.number != 0 {
                    assert_eq!((&rounded.left, &rounded.right), (left, right));
                    assert_eq!((rounded.deliveries, matches), (0, vec![]));
                    assert_eq!(run, lent(records));
                }
                numbers.push(rounded.number);
            }
        }
    }
}

/// The numbers of the calls that are given a node.
fn nodes(node: &RawNode, numbers: &mut Vec<u8>) {
    for claim in claims(&node.store) {
        let taken = take(node.clone(), claim);
        assert!(taken.number == 0 || taken.node == *node);
        numbers.push(taken.number);
    }
    for words in [0, BEAT_WORDS] {
        let mut run = vec![7; words];
        let beaten = beat(node.clone(), &mut run);
        if beaten.number != 0 {
            assert_eq!((&beaten.node, beaten.written), (node, 0));
            assert_eq!(run, vec![7; words]);
        }
        numbers.push(beaten.number);
    }
    let given = node.clone();
    for length in [0, IMAGE_MOST] {
        let mut out = vec![0x55; length];
        let written = write_image(node, &mut out);
        assert!(written.number == 0 || (written.length == 0 && out == vec![0x55; length]));
        numbers.push(written.number);
    }
    assert_eq!(*node, given);
}

/// The numbers of every call that is given this store or a node with it, some
/// of them refused by later questions. What was given and lent is as it was,
/// where a call is refused.
pub fn numbers(store: &RawStore) -> Vec<u8> {
    let mut numbers = Vec::new();
    entering_and_replying(store, &mut numbers);
    making_and_sheets(store, &mut numbers);
    rounds(store, &mut numbers);
    nodes(&RawNode::of(store.clone(), &[]), &mut numbers);
    if store.count > 0 {
        let whole = claim_of(store.held());
        nodes(&RawNode::of(store.clone(), &[whole]), &mut numbers);
    }
    numbers
}

/// Every call answers 1.
pub fn gets_1(store: &RawStore) {
    assert!(!questions::q1_store_in_order(store), "{store:?}");
    let node = RawNode::of(store.clone(), &[]);
    assert!(!questions::q1_node_in_order(&node), "{store:?}");
    let numbers = numbers(store);
    assert!(numbers.iter().all(|&it| it == 1), "{store:?} {numbers:?}");
}

/// The numbers of a store in order are 0 and those of later questions, each of
/// which some call asks.
pub fn gets_others(store: &RawStore) {
    let numbers = numbers(store);
    assert!(!numbers.contains(&1), "{store:?} {numbers:?}");
    for number in [0, 2, 3, 4, 5, 7, 9, 15, 16] {
        assert!(numbers.contains(&number), "{store:?} {numbers:?}");
    }
    assert!(store.count < LIMIT || numbers.contains(&6));
    let more = store.held().iter().any(|key| !full(3).held().contains(key));
    assert_eq!(numbers.contains(&8), more);
}

#[test]
fn wrong_sums_get_1_from_every_call() {
    for keys in FEW {
        gets_others(&RawStore::of(keys));
        let wrong = with_wrong_sums(keys);
        assert!(wrong.len() > 10);
        wrong.iter().for_each(gets_1);
    }
}

#[test]
fn wrong_sums_of_drawn_keys_get_1_from_every_call() {
    for_seeds(2, |rng| {
        for count in [3, 100] {
            let keys = drawn(rng, count);
            gets_others(&RawStore::of(&keys));
            with_wrong_sums(&keys).iter().for_each(gets_1);
        }
    });
}

/// Zeros are the sums of {} and {0} alone: "0 in unused places", and the XOR of
/// the key 0.
#[test]
fn sums_of_zeros() {
    let zeros = |keys: &[u64]| with_sums(keys, &[0; LIMIT]);
    gets_others(&zeros(&[]));
    gets_others(&zeros(&[0]));
    assert_eq!(zeros(&[0]), RawStore::of(&[0]));
    for keys in FEW
        .into_iter()
        .filter(|keys| keys.iter().any(|&key| key > 0))
    {
        gets_1(&zeros(keys));
    }
    gets_1(&zeros(full(1).held()));
    // A count that the keys and the sums don't tell of.
    for count in [2, LIMIT, LIMIT + 1] {
        let mut store = RawStore::empty();
        store.count = count;
        assert!(!questions::q1_store_in_order(&store));
    }
}

/// Two stores, both wrong, each right with the sums of the other.
#[test]
fn rounds_of_two_wrong_stores() {
    let (one, other) = ([1, 2, 4], [1, 2, 9]);
    let left = with_sums(&one, &sums_of(&other));
    let right = with_sums(&other, &sums_of(&one));
    for records in [0, 8] {
        let mut run = lent(records);
        let rounded = round(left.clone(), right.clone(), &mut run);
        assert_eq!((rounded.number, rounded.deliveries), (1, 0));
        assert_eq!((&rounded.left, &rounded.right), (&left, &right));
        assert_eq!(run, lent(records));
    }
}

/// Sums that are right for keys in order don't help keys that aren't; nor do
/// right sums a table that isn't in order.
#[test]
fn keys_and_tables_out_of_order_get_1() {
    let right = sums_of(&[1, 2, 3, 9]);
    for keys in [[1, 3, 2, 9], [2, 1, 3, 9], [1, 2, 2, 9]] {
        gets_1(&with_sums(&keys, &right));
        gets_1(&with_sums(&keys, &sums_of(&keys)));
    }
    let mut unused = RawStore::of(&[1, 2]);
    unused.keys[2] = 3;
    for sum in [0, 3] {
        unused.sums[2] = sum;
        gets_1(&unused);
    }
    let mut numbers = Vec::new();
    let table = [c(1, 9, 0, 4), c(1, 2, 3, 2)];
    let store = RawStore::of(&[1, 2, 3, 9]);
    nodes(&RawNode::of(store, &table), &mut numbers);
    assert!(numbers.iter().all(|&number| number == 1));
}
