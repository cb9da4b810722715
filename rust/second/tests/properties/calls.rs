//! Entering, claims, replies, taking and beats.

use std::cell::Cell;
use std::collections::BTreeSet;

use super::common::*;
use super::number;
use super::sets::{Table, beat_of_set, learn_of_set, reply_of_set, set, store_of};
use second::*;

#[test]
fn entering_is_that_of_sets() {
    let ways = Ways::default();
    for_seeds(300, |rng| {
        let density = rng.density();
        let mut model = set(&rng.keys(LIMIT, density));
        // So that the last places are taken, too.
        for _ in 0..rng.below(9) {
            model.pop_first();
        }
        let mut store = store_of(&model);
        for _ in 0..40 {
            let key = rng.key(density);
            let entered = enter(store.clone(), key);
            ways.saw(match (model.len(), model.contains(&key)) {
                (LIMIT, true) => "held by a full store",
                (LIMIT, false) => "no room",
                (_, true) => "held",
                (count, false) if count == LIMIT - 1 => "the last place",
                (_, false) => "new",
            });
            if model.len() == LIMIT && !model.contains(&key) {
                assert_eq!((entered.number, &entered.store), (6, &store));
            } else {
                model.insert(key);
                assert_eq!(entered.number, 0);
            }
            assert_eq!(entered.store, store_of(&model));
            store = entered.store;
        }
    });
    ways.all_of(&["held", "new", "the last place"]);
    ways.all_of(&["held by a full store", "no room"]);
}

/// The number that a claim got, and whether its cnt was at the limit's edge.
fn saw_claim(ways: &Ways, claim: &Claim, number: u8) {
    ways.saw(number);
    if claim.cnt == MOST_CNT && number == 0 {
        ways.saw("cnt at the limit");
    }
    if claim.cnt == MOST_CNT + 1 && number == 3 {
        ways.saw("cnt above the limit");
    }
}

/// Every number that a claim can get in a store in order was seen.
fn saw_every_claim(ways: &Ways) {
    ways.all_of(&[0, 2, 3, 4, 5, 6, 16]);
    ways.all_of(&["cnt at the limit", "cnt above the limit"]);
}

#[test]
fn claims_made_pass_2_to_5_and_16_and_match_at_home() {
    for_seeds(300, |rng| {
        let density = rng.density();
        let keys = rng.keys(LIMIT, density);
        let store = RawStore::of(&keys);
        for _ in 0..10 {
            let (first, last) = (rng.below(LIMIT + 6), rng.below(LIMIT + 6));
            let made = make(&store, first, last);
            if first > last || last >= keys.len() {
                assert_eq!((made.number, made.claim), (7, Claim::ZERO));
                continue;
            }
            assert_eq!(
                (made.number, made.claim),
                (0, claim_of(&keys[first..=last]))
            );
            assert_eq!(questions::of_claim(&made.claim), Ok(()));
            let replied = reply(store.clone(), made.claim);
            assert_eq!(replied.reply, Some(Reply::Match));
            assert_eq!(replied.store, store);
        }
    });
}

#[test]
fn replies_are_those_of_sets() {
    let middle_keys = Cell::new(0);
    let ways = Ways::default();
    for_seeds(600, |rng| {
        let density = rng.density();
        let keys = rng.keys(LIMIT, density);
        let store = RawStore::of(&keys);
        for _ in 0..20 {
            let claim = rng.claim(&keys, density);
            let replied = reply(store.clone(), claim);
            assert_eq!(replied.number, number(questions::of_reply(&store, &claim)));
            saw_claim(&ways, &claim, replied.number);
            let (count, claims) = replied.claims();
            if replied.number != 0 {
                assert_eq!((replied.reply, &replied.store), (None, &store));
                assert_eq!((count, claims), (0, [Claim::ZERO; 2]));
                continue;
            }
            let mut model = set(&keys);
            let middle = learn_of_set(&mut model, claim);
            middle_keys.set(middle_keys.get() + usize::from(middle));
            let (asks, expected) = reply_of_set(&model, claim);
            assert_eq!(replied.store, store_of(&model));
            assert_eq!(claims[..count], expected);
            assert_eq!(matches!(replied.reply, Some(Reply::Ask(_))), asks);
            // What is sent would pass its receiver's questions.
            assert!(
                expected
                    .iter()
                    .all(|made| questions::of_claim(made).is_ok())
            );
        }
    });
    seen_often("middle keys", middle_keys.get());
    saw_every_claim(&ways);
}

/// Fails if a property was idle: what it needs came only so many times.
pub fn seen_often(what: &str, times: usize) {
    if std::env::var("SECOND_SEED").is_err() {
        assert!(times > 50, "only {times} {what}");
    }
}

/// A beat of a node, which writes what one of these keys and this table does;
/// the node afterwards, and how many claims wait in it.
fn beaten_as_set(
    node: RawNode,
    keys: &BTreeSet<u64>,
    table: &mut Table,
    more: usize,
) -> (RawNode, usize) {
    let mut run = vec![7; BEAT_WORDS + more];
    let beaten = beat(node, &mut run);
    let (expected, waiting) = beat_of_set(keys, table);
    assert_eq!((beaten.number, beaten.written), (0, expected.len()));
    let (written, kept) = run.split_at(4 * beaten.written);
    for (words, claim) in written.chunks(4).zip(&expected) {
        let cnt = u64::from(claim.cnt);
        assert_eq!(words, [claim.lo, claim.hi, claim.sum, cnt]);
    }
    assert!(kept.iter().all(|&word| word == 7));
    (beaten.node, waiting)
}

/// Keys and a table that hear a claim; whether it told a middle key.
fn heard_by_set(keys: &mut BTreeSet<u64>, table: &mut Table, claim: Claim) -> bool {
    let middle = learn_of_set(keys, claim);
    table.insert(claim.rank());
    if table.len() == 65 {
        table.pop_last();
    }
    middle
}

#[test]
fn taking_and_beating_are_those_of_sets() {
    let [middle_keys, waiting] = [(); 2].map(|()| Cell::new(0));
    let ways = Ways::default();
    for_seeds(150, |rng| {
        let density = rng.density();
        let mut keys = set(&rng.keys(LIMIT, density));
        let mut table = Table::new();
        let mut node = RawNode::of(store_of(&keys), &[]);
        for _ in 0..120 {
            if rng.one_in(60) {
                let (beaten, wait) = beaten_as_set(node, &keys, &mut table, rng.below(9));
                waiting.set(waiting.get() + wait);
                node = beaten;
            } else {
                let held: Vec<u64> = keys.iter().copied().collect();
                let claim = rng.claim(&held, density);
                let before = node.clone();
                let taken = take(node, claim);
                assert_eq!(taken.number, number(questions::of_take(&before, &claim)));
                saw_claim(&ways, &claim, taken.number);
                if taken.number == 0 {
                    let middle = heard_by_set(&mut keys, &mut table, claim);
                    middle_keys.set(middle_keys.get() + usize::from(middle));
                } else {
                    assert_eq!(taken.node, before);
                }
                node = taken.node;
            }
            let claims = table.iter().map(|&(cnt, lo, hi, sum)| c(lo, hi, sum, cnt));
            let pending: Vec<Claim> = claims.collect();
            assert_eq!(node, RawNode::of(store_of(&keys), &pending));
            assert!(questions::q1_node_in_order(&node));
        }
    });
    seen_often("middle keys", middle_keys.get());
    seen_often("claims that waited", waiting.get());
    saw_every_claim(&ways);
}
