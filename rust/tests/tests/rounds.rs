//! Rounds of the proved libraries, made by `drill`, beside the second program:
//! same answer, same stores, same records, for stores of any kind.

use second::*;
use tests::card::*;
use tests::cases::{expect_wrong_sums, for_seeds, noise, run_each};
use tests::draw::Rng;
use tests::drill::Drill;
use tests::{middle, sums};

const LIMIT: usize = RawStore::LIMIT;

/// The keys of two stores for a round, alike and nearly full more often than
/// others, or few keys close together.
fn pair_for_round(rng: &mut Rng) -> (Vec<u64>, Vec<u64>) {
    if rng.one_in(12) {
        return rng.pair_of_few_bits();
    }
    let (mut left, mut right) = rng.pair();
    match rng.below(16) {
        0 | 1 => {
            left = rng.nearly_full().0;
            right = left.clone();
        }
        2 => {
            left = rng.nearly_full().0;
            right = left.clone();
            let at = rng.below(right.len());
            right.remove(at);
        }
        3 => right = rng.nearly_full().0,
        _ => {}
    }
    (left, right)
}

/// Their stores, once in eight out of order: the left one, the right one, or
/// both.
fn stores_for_round(rng: &mut Rng, left: &[u64], right: &[u64]) -> [RawStore; 2] {
    let mut stores = [RawStore::of(left), RawStore::of(right)];
    if rng.one_in(8) {
        let density = rng.density();
        for &at in rng.pick(&[&[0][..], &[1], &[0, 1], &[0, 1]]) {
            rng.bend_store(&mut stores[at], density);
        }
    }
    stores
}

#[test]
fn rounds() {
    let ways = [
        "no delivery",
        "over 100 deliveries",
        FALSE_MATCH,
        "met",
        "not met yet",
        "exactly enough records",
        "two full stores alike",
    ];
    // What is claimed in a round is true of its sender: no other outcome.
    let mut each = [middle::ADDED, middle::OTHERS].concat();
    each.extend(sums::SIDES);
    let seen = run_each(&each, 7_000, &[0, 1, 8, 9], &ways, |rng| {
        let (left, right) = pair_for_round(rng);
        let union = questions::union_count(&left, &right);
        let full = left.len() == LIMIT && left == right;
        let stores = stores_for_round(rng, &left, &right);
        let records = match rng.below(6) {
            0 => (2 * union).saturating_sub(1),
            1 | 2 => 2 * union,
            3 => 2 * union + 1,
            4 => rng.below(2 * union + 1),
            _ => 2 * union + rng.below(30),
        };
        // A request of the drill has room for those of any union that fits.
        let lent = (5 * records + rng.below(5)).min(MOST_LENT);
        let [left, right] = stores;
        let case = round_case(left, right, lent, &mut noise(rng));
        let run = case.number == 0;
        case.on(
            "exactly enough records",
            run && records == 2 * union && union > 0,
        )
        .on("two full stores alike", run && full)
    });
    expect_wrong_sums(&seen);
}

/// `rounds::round_record`, which lends records to `rounds::round` and reads one
/// by `rounds::get`: the first, the last, others, and those that are none.
#[test]
fn rounds_round_record() {
    let ways = [
        "the first of many",
        "one of many",
        "the last of many",
        "just past the deliveries",
        "past the records",
    ];
    let seen = run_each(&sums::SIDES, 4_000, &[0, 1, 8], &ways, |rng| {
        let (left, right) = pair_for_round(rng);
        let [left, right] = stores_for_round(rng, &left, &right);
        let mut noise = noise(rng);
        let at = |deliveries: usize| match rng.below(8) {
            0 | 1 => 0,
            2 | 3 => deliveries.saturating_sub(1),
            4 => deliveries,
            5 => rng.pick(&[RECORDS - 1, RECORDS, RECORDS + 1, 1 << 63, usize::MAX]),
            _ => rng.below(deliveries.max(1)),
        };
        record_case(left, right, at, &mut noise)
    });
    expect_wrong_sums(&seen);
}

/// `rounds::round_record` at every place of a round of few keys, and at the
/// one after its last delivery.
#[test]
fn rounds_round_record_of_few_keys_whole() {
    let mut drill = Drill::start();
    for_seeds(300, |_, rng| {
        let (left, right) = rng.small_pair();
        let stores = stores_for_round(rng, &left, &right);
        let mut at = 0;
        let mut deliveries = 0;
        while at <= deliveries {
            let [left, right] = stores.clone();
            let place = |told| {
                deliveries = told;
                at
            };
            let case = record_case(left, right, place, &mut noise(rng));
            let reply = drill.ask(case.call, &case.given);
            assert_eq!(case.differs(&reply), None);
            at += 1;
        }
    });
}
