//! After each call the sums are those of the keys that the store then holds.

use super::common::*;
use super::sets::{learn_of_set, set, store_of};
use super::{MAX, holds, in_order};
use second::*;

fn sorted(keys: &std::collections::BTreeSet<u64>) -> Vec<u64> {
    keys.iter().copied().collect()
}

/// A key entered before all others, between two, after all others, and one
/// already held.
#[test]
fn entering_a_key_at_each_position() {
    for_seeds(10, |rng| {
        let all = sorted(&set(&[rng.keys(40, 4), vec![0, MAX]].concat()));
        for (at, &key) in all.iter().enumerate() {
            let mut keys = all.clone();
            keys.remove(at);
            let entered = enter(RawStore::of(&keys), key);
            assert_eq!(entered.number, 0);
            holds(&entered.store, &all);
            let again = enter(entered.store.clone(), key);
            assert_eq!((again.number, again.store), (0, entered.store));
        }
    });
}

#[test]
fn entering_keys_in_any_order() {
    for_seeds(60, |rng| {
        let density = rng.density();
        let mut keys = set(&rng.keys(LIMIT, density));
        let mut store = store_of(&keys);
        for _ in 0..20 {
            let key = rng.key(density);
            let entered = enter(store, key);
            if entered.number == 0 {
                keys.insert(key);
            }
            store = entered.store;
            holds(&store, &sorted(&keys));
        }
    });
}

/// A claim that adds none, one, two or three keys.
#[test]
fn replying_and_taking() {
    let ways = Ways::default();
    for_seeds(300, |rng| {
        let density = rng.density();
        let keys = rng.keys(LIMIT, density);
        let store = RawStore::of(&keys);
        for _ in 0..8 {
            let claim = rng.claim(&keys, density);
            let mut model = set(&keys);
            let replied = reply(store.clone(), claim);
            if replied.number == 0 {
                learn_of_set(&mut model, claim);
                ways.saw(model.len() - keys.len());
            }
            holds(&replied.store, &sorted(&model));
            let taken = take(RawNode::of(store.clone(), &[]), claim);
            assert_eq!(taken.number, replied.number);
            holds(&taken.node.store, &sorted(&model));
        }
    });
    ways.all_of(&[0, 1, 2, 3]);
}

#[test]
fn rounds() {
    for_seeds(100, |rng| {
        let (left, right) = rng.pair();
        let stores = || (RawStore::of(&left), RawStore::of(&right));
        let mut records = vec![Delivery::default(); 2 * LIMIT];
        let rounded = round(stores().0, stores().1, &mut records);
        assert_eq!(rounded.number, 0);
        in_order(&rounded.left);
        in_order(&rounded.right);
        let watched = round_watched(stores().0, stores().1, &mut records).0;
        assert_eq!(watched, rounded);
        // Those refused, by 9 here, are as they were.
        if !left.is_empty() {
            let refused = round(stores().0, stores().1, &mut []);
            assert_eq!(refused.number, 9);
            holds(&refused.left, &left);
            holds(&refused.right, &right);
        }
    });
}

/// One store goes from call to call, so that what one of them leaves wrong the
/// next one would go by.
#[test]
fn one_call_after_another() {
    for_seeds(40, |rng| {
        let density = rng.density();
        let mut node = RawNode::empty();
        let mut other = RawStore::of(&rng.keys(300, density));
        for _ in 0..60 {
            let held = node.store.held().to_vec();
            match rng.below(6) {
                0 | 1 => node.store = enter(node.store, rng.key(density)).store,
                2 => node.store = reply(node.store, rng.claim(&held, density)).store,
                3 => node = take(node, rng.claim(&held, density)).node,
                4 => node = beat(node, &mut [7; BEAT_WORDS]).node,
                _ => {
                    let mut records = vec![Delivery::default(); 2 * LIMIT];
                    let rounded = round(node.store, other, &mut records);
                    (node.store, other) = (rounded.left, rounded.right);
                }
            }
            in_order(&node.store);
            in_order(&other);
            assert!(questions::q1_node_in_order(&node));
        }
    });
}
