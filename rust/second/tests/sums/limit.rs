//! Full stores, and those with one place left; the key 0 and the largest among
//! their keys.

use super::asked::{gets_1, gets_others};
use super::common::*;
use super::wrong::{with_sums, with_wrong_sums};
use super::{MAX, drawn, holds, lent, sums_of};
use second::*;

/// A store filled key by key, rising, falling and in any order.
#[test]
fn stores_filled_by_entering() {
    for_seeds(1, |rng| {
        let rising = drawn(rng, LIMIT);
        let falling: Vec<u64> = rising.iter().rev().copied().collect();
        let mut mixed = rising.clone();
        for at in 0..LIMIT {
            mixed.swap(at, rng.below(at + 1));
        }
        for keys in [rising.clone(), falling, mixed] {
            let mut store = RawStore::empty();
            for (at, key) in keys.iter().enumerate() {
                store = enter(store, *key).store;
                if at % 64 == 0 || at + 3 > LIMIT {
                    let mut held = keys[..=at].to_vec();
                    held.sort();
                    holds(&store, &held);
                }
            }
            let refused = enter(store.clone(), rising[1] + 1);
            assert_eq!((refused.number, &refused.store), (6, &store));
            holds(&store, &rising);
        }
    });
}

/// The last place taken by each of some keys: by entering, replying and taking.
#[test]
fn the_last_place() {
    for_seeds(1, |rng| {
        let all = drawn(rng, LIMIT);
        for at in [0, 1, 2, 1_000, LIMIT - 2, LIMIT - 1] {
            let mut keys = all.clone();
            let key = keys.remove(at);
            let store = RawStore::of(&keys);
            holds(&store, &keys);
            holds(&enter(store.clone(), key).store, &all);
            let one = c(key, key, key, 1);
            let replied = reply(store.clone(), one);
            assert_eq!(replied.reply, Some(Reply::Match));
            holds(&replied.store, &all);
            holds(&take(RawNode::of(store, &[]), one).node.store, &all);
        }
        // The middle key of three takes it (document 02, slip 1); with no place
        // left it stays out.
        for at in [1, 1_000, LIMIT - 2] {
            let mut keys = all.clone();
            keys.remove(at);
            let claim = claim_of(&all[at - 1..=at + 1]);
            let replied = reply(RawStore::of(&keys), claim);
            assert_eq!(replied.reply, Some(Reply::Match));
            holds(&replied.store, &all);
            let between = keys[at] - 1;
            let claim = three(keys[at - 1], between, keys[at]);
            let replied = reply(replied.store, claim);
            assert_eq!((replied.number, between != all[at]), (0, true));
            holds(&replied.store, &all);
        }
    });
}

/// Two stores that fill each other up.
#[test]
fn rounds_that_end_full() {
    for_seeds(2, |rng| {
        let all = drawn(rng, LIMIT);
        let left: Vec<u64> = all.iter().copied().step_by(2).collect();
        let mut records = lent(2 * LIMIT);
        let mut stores = (RawStore::of(&left), RawStore::of(&all[1..]));
        // A round adds at least one key to one of them until they are equal.
        for _ in 0..LIMIT {
            let rounded = round(stores.0, stores.1, &mut records);
            assert_eq!(rounded.number, 0);
            stores = (rounded.left, rounded.right);
            if stores.0 == stores.1 {
                break;
            }
        }
        holds(&stores.0, &all);
        holds(&stores.1, &all);
    });
}

#[test]
fn wrong_sums_of_full_stores_get_1() {
    for_seeds(1, |rng| {
        let keys = drawn(rng, LIMIT);
        assert_eq!((keys[0], keys[LIMIT - 1]), (0, MAX));
        for keys in [&keys[..], &keys[1..], &keys[..LIMIT - 1]] {
            gets_others(&RawStore::of(keys));
            with_wrong_sums(keys).iter().for_each(gets_1);
        }
        // One short of full: the sum of a key that isn't there, in the place
        // that isn't in use.
        gets_1(&with_sums(&keys[..LIMIT - 1], &sums_of(&keys)));
        // Full: the last sum not yet there.
        gets_1(&with_sums(&keys, &sums_of(&keys[..LIMIT - 1])));
    });
}

/// One sum wrong, in each place of a full store, is seen by a beat.
#[test]
fn each_place_of_a_full_store() {
    for_seeds(1, |rng| {
        let keys = drawn(rng, LIMIT);
        let mut run = vec![7; BEAT_WORDS];
        for place in 0..LIMIT {
            let mut store = RawStore::of(&keys);
            store.sums[place] ^= 1 << rng.below(64);
            let node = RawNode::of(store, &[]);
            let beaten = beat(node.clone(), &mut run);
            assert_eq!((beaten.number, beaten.written), (1, 0));
            assert_eq!(beaten.node, node);
        }
        assert!(run.iter().all(|&word| word == 7));
    });
}
