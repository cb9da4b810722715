//! Nodes joined, as a list of events joins them: the questions are 1 of either
//! node, 8, 15; refused, the node comes back as it was given.

use super::common::*;
use super::{NEEDED, lent_bytes};
use second::*;

/// The number that a joining of two nodes is refused with.
fn refused(into: &RawNode, from: &RawNode, room: usize) -> u8 {
    let joined = join_nodes(into.clone(), from, room);
    assert_eq!(joined.node, *into);
    assert_eq!(
        questions::of_join_nodes(into, from, room),
        Err(joined.number)
    );
    joined.number
}

fn good() -> RawNode {
    RawNode::of(RawStore::of(&[1, 9]), &[c(1, 9, 8, 2), c(1, 9, 0, 5)])
}

/// Nodes out of order in one place each.
fn out_of_order() -> Vec<RawNode> {
    let mut bad = vec![good(); 8];
    bad[0].store.keys.swap(0, 1);
    bad[0].store.resum();
    bad[1].store.sums[1] = 9;
    bad[2].store.sums[2_047] = 1;
    bad[3].store.keys[2] = 10;
    bad[4].store.count = usize::MAX;
    bad[5].pending.swap(0, 1);
    bad[6].pending[63].lo = 1;
    bad[7].pending_count = 65;
    // "a node given with one gets 1" (slip 2)
    bad.push(RawNode::of(RawStore::of(&[1, 9]), &[three(1, 9, 9)]));
    // An end that isn't held.
    bad.push(RawNode::of(RawStore::of(&[1, 9]), &[c(1, 8, 9, 2)]));
    bad
}

#[test]
fn nodes_out_of_order_get_1() {
    let evens = RawNode::of(full(2), &[]);
    for bad in out_of_order() {
        for room in [0, NEEDED - 1, NEEDED] {
            for other in [&good(), &evens, &RawNode::empty(), &bad] {
                assert_eq!(refused(&bad, other, room), 1);
                assert_eq!(refused(other, &bad, room), 1);
            }
        }
    }
}

#[test]
fn then_8_then_15() {
    let evens = RawNode::of(full(2), &[]);
    let all_but_two = RawNode::of(RawStore::of(&evens.store.held()[..2_046]), &[]);
    for room in [0, NEEDED - 1, NEEDED, usize::MAX] {
        assert_eq!(refused(&evens, &good(), room), 8);
        assert_eq!(refused(&good(), &evens, room), 8);
    }
    for [into, from] in [
        [&all_but_two, &good()],
        [&good(), &all_but_two],
        [&evens, &evens],
        [&RawNode::empty(), &RawNode::empty()],
    ] {
        for room in [0, 4, NEEDED - 1] {
            assert_eq!(refused(into, from, room), 15);
        }
        for room in [NEEDED, NEEDED + 1, usize::MAX] {
            assert_eq!(join_nodes(into.clone(), from, room).number, 0);
        }
    }
}

/// The node of the joined image, with the running sums of its keys and zeros
/// in the places not in use.
#[test]
fn nodes_in_order_are_joined() {
    let ways = Ways::default();
    for_seeds(200, |rng| {
        let into = rng.node();
        let density = rng.density();
        let room = (LIMIT - into.store.count).min(rng.below(LIMIT));
        let keys = rng.keys(room, density);
        let mut from = RawNode::of(RawStore::of(&keys), &[]);
        for _ in 0..rng.below(40) {
            // Their ends are held, so that the union stays within the limit.
            let claim = rng.claim(&keys, density);
            if keys.contains(&claim.lo) && keys.contains(&claim.hi) && claim.cnt != 3 {
                from = take(from, claim).node;
            }
        }
        let joined = join_nodes(into.clone(), &from, NEEDED);
        assert_eq!(joined.number, 0);
        let node = joined.node;
        ways.saw(match (into.pending_count, from.pending_count) {
            (0, 0) => "nothing pending",
            (_, 0) | (0, _) => "pending in one",
            (one, other) if one + other > 64 => "more than 64, or equal ones",
            _ => "pending in both",
        });
        ways.saw(node.store.count > into.store.count);
        let of = RawNode::of(RawStore::of(node.store.held()), node.table());
        assert_eq!(node, of);
        assert!(questions::q1_node_in_order(&node));

        let [one, other] = [&into, &from].map(|it| image_of(it.store.held(), it.table()));
        let mut out = lent_bytes(NEEDED);
        let length = host::join(&one, &other, &mut out);
        let image = &out[..usize::try_from(length).unwrap()];
        assert_eq!(image, image_of(node.store.held(), node.table()));
        assert_eq!(join_nodes(from, &into, NEEDED).node, node);
    });
    ways.all_of(&["nothing pending", "pending in one", "pending in both"]);
    ways.all_of(&["more than 64, or equal ones", "true", "false"]);
}
