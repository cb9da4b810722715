//! Requests on a node.

use super::*;

pub fn take_case(node: RawNode, claim: Claim, noise: Noise) -> Case {
    let mut given = Card::noise(PAST_NODE, 0, noise);
    given.put_claim(CLAIMS, &claim);
    given.put_node(&node);
    let equal = node.table().contains(&claim);
    let full = node.pending_count == PENDING;
    let middle = middle::learn(&mut node.store.held().to_vec(), &claim);
    let added = middle.iter().any(|way| ADDED.contains(way));
    let by_16_alone = left_out::is_node_by_16_alone(&node);
    let sums = sums::ways_of_node(&node);
    let mut kept = false;
    let case = case(Call::Take, given, |card| {
        let taken = take(node, claim);
        kept = taken.node.table().contains(&claim);
        card.answer(taken.number, 0);
        card.put_node(&taken.node);
        taken.number
    });
    let taken = case.number == 0;
    case.on("an equal one is pending", taken && equal)
        .on("65, another dropped", taken && full && !equal && kept)
        .on("65, itself dropped", taken && full && !kept)
        .on("a pending one's middle key added", taken && equal && added)
        .on("a dropped one's middle key added", taken && !kept && added)
        .on_hearing(middle)
        .on_node(by_16_alone)
        .on_sums(sums)
}

/// `lent` words are lent, and some that are not come after them.
pub fn beat_case(node: RawNode, lent: usize, noise: Noise) -> Case {
    let mut given = Card::noise(PAST_NODE + lent + 9, 0, noise);
    given.words[SECOND] = lent as u64;
    given.put_node(&node);
    let pending = node.pending_count;
    let threes = middle::ways_of_beat(&node);
    let turns = replies::ways_of_beat(&node);
    let by_16_alone = left_out::is_node_by_16_alone(&node);
    let sums = sums::ways_of_node(&node);
    let mut rest = (0, 0);
    let case = case(Call::Beat, given, |card| {
        let end = PAST_NODE + lent;
        let beaten = beat(node, &mut card.words[PAST_NODE..end]);
        rest = (beaten.written, beaten.node.pending_count);
        card.answer(beaten.number, beaten.written);
        card.put_node(&beaten.node);
        beaten.number
    });
    let (written, left) = rest;
    let beaten = case.number == 0;
    case.on("nothing written", beaten && written == 0)
        .on(replies::MOST, beaten && written == BEAT_PLACES)
        .on("some asked, some not", beaten && 0 < left && left < pending)
        .on("a full table", beaten && pending == PENDING)
        .on_all(threes)
        .on_all(turns)
        .on_node(by_16_alone)
        .on_sums(sums)
}

pub fn ordered_case(node: &RawNode, noise: Noise) -> Case {
    let mut given = Card::noise(PAST_NODE, 0, noise);
    given.put_node(node);
    let yes = questions::q1_node_in_order(node);
    let by_16_alone = left_out::is_node_by_16_alone(node);
    let sums = sums::ways_of_node(node);
    let broken = by_16_alone || !sums.is_empty();
    assert!(!broken || !yes, "such a node is out of order");
    case(Call::Ordered, given, |card| {
        card.answer(0, usize::from(yes));
        0
    })
    .on("in order", yes)
    .on("out of order", !yes)
    .on(left_out::NODE, by_16_alone)
    .on_all(sums)
}
