//! "However it is done now, a span's sum is then read from two of them, or from
//! one where the span begins at position 0." The claims are those worked out by
//! a loop over the keys.

use super::common::*;
use super::sets::{beat_of_set, reply_of_set, set};
use super::{FEW, MAX, drawn};
use second::*;

/// The claim of positions first to last: made, matched, asked with and helped
/// about.
fn span_is_told(store: &RawStore, first: usize, last: usize) {
    let span = &store.held()[first..=last];
    let own = claim_of(span);
    let made = make(store, first, last);
    assert_eq!((made.number, made.claim), (0, own), "{first} to {last}");

    let replies = |claim: Claim| {
        let replied = reply(store.clone(), claim);
        assert_eq!((replied.number, &replied.store), (0, store));
        replied.reply.unwrap()
    };
    assert_eq!(replies(own), Reply::Match);
    // A claim of more keys, but not of three, which might tell a middle one.
    for cnt in [own.cnt + 1, MOST_CNT] {
        let more = Claim { cnt, ..own };
        let asks = cnt > own.cnt && cnt != 3 && questions::of_claim(&more).is_ok();
        if asks {
            assert_eq!(replies(more), Reply::Ask(own));
        }
    }
    if span.len() > 2 {
        let ends = c(own.lo, own.hi, own.lo ^ own.hi, 2);
        let (_, expected) = reply_of_set(&set(span), ends);
        let (count, claims) = replies(ends).claims();
        assert_eq!(claims[..count], expected, "{first} to {last}");
    }
}

#[test]
fn claims_of_all_positions_of_a_few_keys() {
    for_seeds(20, |rng| {
        let density = rng.density();
        let random = [rng.keys(12, density), rng.keys(24, density)];
        for keys in FEW.into_iter().chain([&random[0][..], &random[1]]) {
            let store = RawStore::of(keys);
            for last in 0..keys.len() {
                for first in 0..=last {
                    span_is_told(&store, first, last);
                }
            }
        }
    });
}

#[test]
fn claims_of_some_positions_of_many_keys() {
    for_seeds(150, |rng| {
        let density = rng.density();
        let keys = rng.keys(LIMIT, density);
        let store = RawStore::of(&keys);
        for _ in 0..if keys.is_empty() { 0 } else { 12 } {
            let first = rng.below(keys.len());
            let last = first + rng.below(keys.len() - first);
            // From position 0, from 1, of one key, of two, to the last, any.
            for (first, last) in [(0, last), (1.min(last), last), (first, first)] {
                span_is_told(&store, first, last);
            }
            let end = keys.len() - 1;
            for (first, last) in [(first, (first + 1).min(end)), (first, end), (first, last)] {
                span_is_told(&store, first, last);
            }
        }
    });
}

/// From every position of a full store to the last and from the first to every
/// one; each key by itself.
#[test]
fn claims_of_a_full_store() {
    for_seeds(2, |rng| {
        let keys = drawn(rng, LIMIT);
        let store = RawStore::of(&keys);
        let made = |first, last| make(&store, first, last).claim;
        for at in 0..LIMIT {
            assert_eq!(made(0, at), claim_of(&keys[..=at]));
            assert_eq!(made(at, LIMIT - 1), claim_of(&keys[at..]));
            assert_eq!(made(at, at), claim_of(&keys[at..=at]));
        }
        assert_eq!(made(0, 0), c(0, 0, 0, 1));
        assert_eq!(made(LIMIT - 1, LIMIT - 1), c(MAX, MAX, MAX, 1));
    });
}

/// The claims that a beat writes: the whole one and those of each reply. Eight
/// of a table's claims at a time are pending, so that each has its reply
/// (document 02, slip 8).
#[test]
fn claims_of_a_beat() {
    for_seeds(150, |rng| {
        let node = rng.node();
        let keys = set(node.store.held());
        let mut whole = Vec::new();
        if node.store.count > 0 {
            whole.push(claim_of(node.store.held()));
        }
        beaten(RawNode::of(node.store.clone(), &[]), whole.clone());
        for eight in node.table().chunks(8) {
            let replies = eight.iter().flat_map(|claim| reply_of_set(&keys, *claim).1);
            let expected = whole.iter().copied().chain(replies).collect();
            beaten(RawNode::of(node.store.clone(), eight), expected);
        }
    });
}

/// All of a table's claims are pending, and beats follow each other.
#[test]
fn claims_of_beats() {
    for_seeds(150, |rng| {
        let mut node = rng.node();
        let keys = set(node.store.held());
        let mut table = node.table().iter().map(Claim::rank).collect();
        for _ in 0..8 {
            let (expected, _) = beat_of_set(&keys, &mut table);
            node = beaten(node, expected);
        }
    });
}

/// The node after a beat that writes these claims.
fn beaten(node: RawNode, expected: Vec<Claim>) -> RawNode {
    let mut run = vec![7; BEAT_WORDS];
    let beaten = beat(node.clone(), &mut run);
    let words = run[..4 * beaten.written].chunks(4);
    let written: Vec<Claim> = words
        .map(|it| c(it[0], it[1], it[2], it[3] as u16))
        .collect();
    assert_eq!((beaten.number, written), (0, expected));
    // "A beat adds no key" and no sum changes.
    assert_eq!(beaten.node.store, node.store);
    beaten.node
}
