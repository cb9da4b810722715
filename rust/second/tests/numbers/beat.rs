//! Pending table and beat.

use super::common::*;
use second::*;

/// 64 claims that a full store of step 1 helps with in two claims each.
pub fn helped_in_two() -> Vec<Claim> {
    (5..69).map(|hi| c(0, hi, hi, 2)).collect()
}

/// 64 claims of three that no store could make: the middle key is hi.
pub fn made_by_none() -> Vec<Claim> {
    (2..66).map(|hi| three(0, hi, hi)).collect()
}

#[test]
fn a_65th_claim_drops_the_last_in_order() {
    let table = helped_in_two();
    let node = RawNode::of(full(1), &table);
    assert!(questions::q1_node_in_order(&node));

    // Before all others.
    let first = c(3, 3, 3, 1);
    let taken = take(node.clone(), first);
    let mut expected = vec![first];
    expected.extend(&table[..63]);
    assert_eq!(taken.number, 0);
    assert_eq!(taken.node, RawNode::of(full(1), &expected));

    // In the last place of 64.
    let between = c(0, 68, 68, 2);
    let mut gap = table.clone();
    gap[63] = c(0, 70, 70, 2);
    let taken = take(RawNode::of(full(1), &gap), between);
    assert_eq!(taken.node, RawNode::of(full(1), &table));

    // After all others: it is itself the last.
    let taken = take(node.clone(), c(0, 69, 69, 2));
    assert_eq!((taken.number, taken.node), (0, node.clone()));

    // An equal one is pending.
    for claim in [table[0], table[30], table[63]] {
        let taken = take(node.clone(), claim);
        assert_eq!((taken.number, taken.node), (0, node.clone()));
    }
}

#[test]
fn a_dropped_claim_leaves_its_ends() {
    let keys: Vec<u64> = (0..100).collect();
    let node = RawNode::of(RawStore::of(&keys), &helped_in_two());
    let taken = take(node, c(200, 300, 7, 50));
    let keys: Vec<u64> = (0..100).chain([200, 300]).collect();
    assert_eq!(taken.number, 0);
    assert_eq!(
        taken.node,
        RawNode::of(RawStore::of(&keys), &helped_in_two())
    );
}

#[test]
fn pending_claims_rise_by_cnt_then_lo_hi_sum() {
    let in_order = [
        c(90, 90, 90, 1),
        c(0, 80, 3, 4),
        c(0, 80, 4, 4),
        c(0, 81, 1, 4),
        c(1, 60, 0, 4),
        c(0, 5, 0, 5),
    ];
    // Whatever order they come in.
    for rotation in 0..in_order.len() {
        let mut node = RawNode::empty();
        let mut claims = in_order;
        claims.rotate_left(rotation);
        claims[1..].reverse();
        for claim in claims {
            let taken = take(node, claim);
            assert_eq!(taken.number, 0);
            node = taken.node;
        }
        assert_eq!(node.table(), in_order);
        assert_eq!(node.store.held(), [0, 1, 5, 60, 80, 81, 90]);
    }
}

/// A node of a few keys with these claims pending.
fn node(pending: &[Claim]) -> RawNode {
    RawNode::of(RawStore::of(&[1, 2, 3, 9]), pending)
}

/// What that node can have pending.
const GOOD: [Claim; 2] = [c(1, 2, 3, 2), c(1, 9, 0, 4)];

#[test]
fn nodes_out_of_order_get_1() {
    assert!(questions::q1_node_in_order(&node(&GOOD)));
    let between = [GOOD[0], three(1, 8, 9), three(1, 2, 9), GOOD[1]];
    assert!(questions::q1_node_in_order(&node(&between)));
    for node in tables_out_of_order().into_iter().chain(counts_belied()) {
        let taken = take(node.clone(), c(9, 5, 0, 0));
        assert_eq!((taken.number, &taken.node), (1, &node));
        let beaten = beat(node.clone(), &mut []);
        assert_eq!((beaten.number, beaten.written), (1, 0));
        assert_eq!(beaten.node, node);
        let written = write_image(&node, &mut []);
        assert_eq!((written.number, written.length), (1, 0));
        assert!(!questions::q1_node_in_order(&node));
    }
}

/// Nodes whose pending claims are out of order.
fn tables_out_of_order() -> Vec<RawNode> {
    vec![
        // order, and strictly
        node(&[GOOD[1], GOOD[0]]),
        node(&[GOOD[0], GOOD[0]]),
        node(&[c(1, 9, 1, 4), c(1, 9, 0, 4)]),
        // questions 2 to 5
        node(&[c(2, 1, 3, 2)]),
        node(&[c(1, 2, 3, 0)]),
        node(&[c(1, 9, 0, MOST_CNT + 1)]),
        node(&[c(1, 2, 3, 3)]),
        node(&[c(1, 1, 0, 1)]),
        node(&[c(1, 2, 0, 2)]),
        // 16: "a node given with one gets 1" (document 02, slip 2)
        node(&[three(1, 1, 9)]),
        node(&[three(1, 9, 9)]),
        node(&[three(1, 0, 9)]),
        node(&[three(1, 10, 9)]),
        node(&[GOOD[0], three(1, 16, 9), GOOD[1]]),
        node(&[GOOD[0], three(1, 8, 9), three(1, 16, 9)]),
        RawNode::of(full(1), &made_by_none()),
        // ends in the store
        node(&[c(4, 4, 4, 1)]),
        node(&[c(0, 9, 9, 2)]),
        node(&[c(1, 8, 9, 2)]),
    ]
}

/// Nodes whose unused places, as the count tells them, aren't zeros, or whose
/// count tells of more places than there are.
fn counts_belied() -> Vec<RawNode> {
    let mut bad = Vec::new();
    for place in [2, 63] {
        let mut one = node(&GOOD);
        one.pending[place].sum = 1;
        bad.push(one);
    }
    for pending_count in [1, 3, 64, 65, 65_536, usize::MAX] {
        bad.push(RawNode {
            pending_count,
            ..node(&GOOD)
        });
    }
    // A full table whose count says 65.
    bad.push(RawNode {
        pending_count: 65,
        ..RawNode::of(full(1), &helped_in_two())
    });
    bad
}

#[test]
fn a_beat_needs_17_places_whatever_is_pending() {
    assert_eq!(BEAT_PLACES, 17);
    for node in [
        RawNode::empty(),
        RawNode::of(RawStore::of(&[5]), &[]),
        RawNode::of(full(1), &helped_in_two()),
    ] {
        for words in [0, 4, BEAT_WORDS - 4, BEAT_WORDS - 1] {
            let mut run = vec![7; words];
            let beaten = beat(node.clone(), &mut run);
            assert_eq!((beaten.number, beaten.written), (15, 0));
            assert_eq!(beaten.node, node);
            assert_eq!(run, vec![7; words]);
        }
        for words in [0, 1, 3, 4, 84, 448].map(|more| BEAT_WORDS + more) {
            let mut run = vec![7; words];
            let beaten = beat(node.clone(), &mut run);
            assert_eq!(beaten.number, 0);
            assert_eq!(
                &run[4 * beaten.written..],
                &vec![7; words - 4 * beaten.written]
            );
        }
    }
}

/// The claims a beat writes, and the node after it.
pub fn beats(node: RawNode) -> (Vec<Claim>, RawNode) {
    let mut run = vec![0; BEAT_WORDS];
    let beaten = beat(node, &mut run);
    assert_eq!(beaten.number, 0);
    let claims = run[..4 * beaten.written]
        .chunks(4)
        .map(|words| c(words[0], words[1], words[2], words[3] as u16))
        .collect();
    (claims, beaten.node)
}

#[test]
fn the_longest_beat_writes_17_claims() {
    let table = helped_in_two();
    let (claims, node) = beats(RawNode::of(full(1), &table));
    assert_eq!(claims.len(), 17);
    assert_eq!(claims[0], claim_of(full(1).held()));
    assert_eq!(claims[1], claim_of(&[1, 2, 3]));
    assert_eq!(claims[2], claim_of(&[4]));
    assert_eq!(claims[3], claim_of(&[1, 2, 3]));
    assert_eq!(claims[4], claim_of(&[4, 5]));
    assert_eq!(node, RawNode::of(full(1), &table[8..]));
}

/// Eight beats reply to a full table, all of it helped with: the 128 claims of
/// the replies come in table order, as one beat wrote them before slip 8.
#[test]
fn eight_beats_reply_to_a_full_table() {
    let mut node = RawNode::of(full(1), &helped_in_two());
    let mut replies = Vec::new();
    for _ in 0..8 {
        let (claims, beaten) = beats(node);
        assert_eq!(claims[0], claim_of(full(1).held()));
        replies.extend_from_slice(&claims[1..]);
        node = beaten;
    }
    assert_eq!(replies.len(), 128);
    for (two, hi) in replies.chunks(2).zip(5..69) {
        // Helped with all keys between 0 and hi, the first half and one more.
        let inner: Vec<u64> = (1..hi).collect();
        let (lower, upper) = inner.split_at(inner.len() / 2 + 1);
        assert_eq!(two, [claim_of(lower), claim_of(upper)]);
    }
    assert_eq!(node, RawNode::of(full(1), &[]));
    assert_eq!(beats(node).0, [claim_of(full(1).held())]);
}

#[test]
fn what_a_beat_leaves_pending() {
    let store = || RawStore::of(&[1, 2, 4, 8, 16]);
    let matched = c(2, 4, 6, 2);
    let helped = c(1, 8, 9, 2);
    let asked = c(4, 16, 3, 4);
    let asked_more = c(1, 16, 0, 9);
    let node = RawNode::of(store(), &[helped, matched, asked, asked_more]);
    let (claims, node) = beats(node);
    assert_eq!(
        claims,
        [
            c(1, 16, 31, 5),
            // helped: one claim, 2 to 4
            c(2, 4, 6, 2),
            // asked: own
            c(4, 16, 28, 3),
            c(1, 16, 31, 5),
        ]
    );
    assert_eq!(node, RawNode::of(store(), &[asked, asked_more]));
    // Asked again at the next beat.
    let (claims, again) = beats(node.clone());
    assert_eq!(claims, [c(1, 16, 31, 5), c(4, 16, 28, 3), c(1, 16, 31, 5)]);
    assert_eq!(again, node);
    // "none if empty"
    assert_eq!(beats(RawNode::empty()), (vec![], RawNode::empty()));
}
