//! Each public call on a store, a claim or a node of the proved libraries, made
//! by `drill`, beside the second program: same answer, same stores, same lent
//! places, for contents of any kind. Every number that a call can answer is seen
//! many times. Rounds, frames and images have files of their own.

use second::*;
use tests::card::*;
use tests::cases::{expect_wrong_sums, noise, run, run_each};
use tests::draw::{Density, Rng};
use tests::left_out;
use tests::middle::{self, OUTCOMES, REFUSED};
use tests::replies;

const LIMIT: usize = RawStore::LIMIT;

#[test]
fn enters() {
    let seen = run(4_000, &[0, 1, 6], &["held already"], |rng| {
        let density = rng.density();
        let store = rng.store(density);
        let (store, key) = match rng.below(6) {
            0 if !store.held().is_empty() => {
                let key = store.held()[rng.below(store.held().len())];
                (store, key)
            }
            1 => {
                let (keys, density) = rng.nearly_full();
                (RawStore::of(&keys), rng.key(density))
            }
            2 => (store, rng.pick(&[0, 1, u64::MAX])),
            _ => (store, rng.key(density)),
        };
        let held = store.held().contains(&key);
        let case = enter_case(store, key, &mut noise(rng));
        let entered = case.number == 0;
        case.on("held already", held && entered)
    });
    expect_wrong_sums(&seen);
}

#[test]
fn makes() {
    let seen = run(4_000, &[0, 1, 7], &["one key", "all keys"], |rng| {
        let density = rng.density();
        let store = rng.store(density);
        let count = store.held().len();
        let mut position = || match rng.below(8) {
            0 => rng.pick(&[0, LIMIT - 1, LIMIT, 65_536, 1 << 63, usize::MAX]),
            1 => count,
            2 | 3 => count.wrapping_sub(1),
            4 => 0,
            _ => rng.below(count + 1),
        };
        let (mut first, mut last) = (position(), position());
        if first > last && !rng.one_in(4) {
            (first, last) = (last, first);
        }
        let case = make_case(&store, first, last, &mut noise(rng));
        let made = case.number == 0;
        case.on("one key", made && first == last).on(
            "all keys",
            made && first == 0 && last + 1 == count && count > 2,
        )
    });
    expect_wrong_sums(&seen);
}

#[test]
fn replies() {
    let ways = [
        "match",
        "ask",
        "one",
        "two",
        "new keys to a store nearly full",
    ];
    let mut each = [OUTCOMES.concat(), REFUSED.concat()].concat();
    each.extend([middle::LAST_PLACE, middle::BEFORE_6]);
    let numbers = [0, 1, 2, 3, 4, 5, 6, 16];
    let seen = run_each(&each, 13_000, &numbers, &ways, |rng| {
        if rng.one_in(4) {
            let (keys, claim) = rng.three();
            return reply_case(RawStore::of(&keys), claim, &mut noise(rng));
        }
        if rng.one_in(6) {
            let (keys, density) = rng.nearly_full();
            let claim = rng.claim(&[], density);
            let case = reply_case(RawStore::of(&keys), claim, &mut noise(rng));
            let replied = case.number == 0;
            return case.on("new keys to a store nearly full", replied);
        }
        let density = rng.density();
        let store = rng.store(density);
        let mut claim = rng.claim(store.held(), density);
        if rng.one_in(8) {
            claim = rng.refused(claim);
        }
        reply_case(store, claim, &mut noise(rng))
    });
    expect_wrong_sums(&seen);
}

#[test]
fn judges() {
    run(20_000, &[0, 2, 3, 4, 5, 16], &[], |rng| {
        let density = rng.density();
        let keys = rng.keys_of(12, density);
        let mut claim = rng.claim(&keys, density);
        if rng.one_in(2) {
            claim = rng.refused(claim);
        }
        judge_case(claim, &mut noise(rng))
    });
}

#[test]
fn takes() {
    let ways = [
        "an equal one is pending",
        "65, another dropped",
        "65, itself dropped",
    ];
    let mut each = [OUTCOMES.concat(), REFUSED.concat()].concat();
    each.extend([
        "a pending one's middle key added",
        "a dropped one's middle key added",
        middle::LAST_PLACE,
        middle::BEFORE_6,
        left_out::NODE,
    ]);
    let numbers = [0, 1, 2, 3, 4, 5, 6, 16];
    let seen = run_each(&each, 11_000, &numbers, &ways, |rng| {
        if rng.one_in(4) {
            return take_of_three(rng);
        }
        let (node, density) = if rng.one_in(6) {
            let (keys, density) = rng.nearly_full();
            (rng.node_of(&keys), density)
        } else {
            (rng.node(), rng.density())
        };
        let claim = claim_for_table(rng, &node, density);
        take_case(node, claim, &mut noise(rng))
    });
    expect_wrong_sums(&seen);
}

/// A claim for a node: pending, beside those that are, refused, or any.
fn claim_for_table(rng: &mut Rng, node: &RawNode, density: Density) -> Claim {
    let table = node.table();
    match rng.below(8) {
        0 if !table.is_empty() => table[rng.below(table.len())],
        1 if !table.is_empty() => {
            // Next to a pending one, before or after it.
            let mut claim = table[rng.below(table.len())];
            match rng.below(4) {
                0 => claim.sum = claim.sum.wrapping_add(1),
                1 => claim.sum = claim.sum.wrapping_sub(1),
                2 => claim.cnt = claim.cnt.wrapping_add(1),
                _ => claim.hi = claim.hi.wrapping_add(1),
            }
            claim
        }
        2 => {
            let claim = rng.claim(&[], density);
            rng.refused(claim)
        }
        3 => rng.claim(&[], density),
        4 if node.store.held().len() > 1 => {
            // After all or nearly all that are pending.
            let held = node.store.held();
            let (lo, hi) = (held[0], held[held.len() - 1]);
            let most = hi.saturating_sub(lo).saturating_add(1);
            Claim::new(lo, hi, rng.next(), most.min(LIMIT as u64) as u16)
        }
        _ => rng.claim(node.store.held(), density),
    }
}

/// A claim of three, which may be pending already where its ends are held, or
/// the last in order of 65. A faulty one is pending in few nodes, for these
/// are out of order.
fn take_of_three(rng: &mut Rng) -> Case {
    let (keys, claim) = rng.three();
    let mut node = rng.node_of(&keys);
    let held = keys.contains(&claim.lo) && keys.contains(&claim.hi);
    let often = if middle::is_faulty(&claim) { 1 } else { 3 };
    if held && rng.below(4) < often {
        node = middle::with_pending(&node, claim);
    } else if rng.one_in(2) {
        node = middle::full_of_ones(&keys).unwrap_or(node);
    }
    take_case(node, claim, &mut noise(rng))
}

#[test]
fn beats() {
    let ways = [
        "nothing written",
        "some asked, some not",
        "a full table",
        middle::ASKED,
        middle::ASKED_FULL,
        middle::MATCHED,
        middle::HELPED,
        replies::MATCH_AFTER,
        replies::ASK_WAITS,
        replies::HELP_WAITS,
        left_out::NODE,
    ];
    let seen = run(6_000, &[0, 1, 15], &ways, |rng| {
        let node = rng.node();
        let lent = match rng.below(8) {
            0 => rng.below(4 * BEAT_PLACES),
            1 => 4 * BEAT_PLACES - 1,
            2 => 4 * BEAT_PLACES + rng.below(5),
            _ => 4 * BEAT_PLACES + rng.below(40),
        };
        beat_case(node, lent, &mut noise(rng))
    });
    expect_wrong_sums(&seen);
}

#[test]
fn tells_order() {
    let ways = ["in order", "out of order", left_out::NODE];
    let seen = run(6_000, &[0], &ways, |rng| {
        let mut node = rng.node_in_order();
        for _ in 0..rng.pick(&[0, 1, 1, 1, 2]) {
            rng.bend_node(&mut node);
        }
        ordered_case(&node, &mut noise(rng))
    });
    expect_wrong_sums(&seen);
}

#[test]
fn gives_the_empty_store() {
    run(100, &[0], &[], |rng| empty_case(&mut noise(rng)));
}
