//! Of document 02 slip 5, "What a new kiosk costs": as a call and as a host
//! call, beside the slip's equations and beside rounds.

mod common;

use std::collections::BTreeSet;

use common::*;
use second::*;

const MAX: u64 = u64::MAX;

/// The deliveries that the call gives for so many keys. The host call gives
/// the same.
fn cost(n: usize) -> usize {
    let OpeningCost { number, deliveries } = opening_cost(n);
    assert_eq!(number, 0);
    assert_eq!(host::opening_cost(n), deliveries as i64);
    assert_eq!(questions::of_opening_cost(n), Ok(()));
    deliveries
}

// ---- the equations ----

/// Reckoned on paper, each from those above it.
#[test]
fn costs_by_hand() {
    for (n, deliveries) in [
        (0, 0), // "none for n = 0"
        (1, 1),
        (2, 1),
        (3, 1),
        (4, 3),   // 2 + E(2) = 2 + 1
        (5, 3),   // 2 + E(3) = 2 + 1
        (6, 4),   // z = 2: 2 + E(3) + E(1) = 2 + 1 + 1
        (7, 4),   // z = 2: 2 + E(3) + E(2) = 2 + 1 + 1
        (8, 6),   // z = 3: 2 + E(4) + E(2) = 2 + 3 + 1
        (9, 6),   // z = 3: 2 + E(4) + E(3) = 2 + 3 + 1
        (10, 6),  // z = 4: 2 + E(5) + E(3) = 2 + 3 + 1
        (11, 8),  // z = 4: 2 + E(5) + E(4) = 2 + 3 + 3
        (12, 9),  // z = 5: 2 + E(6) + E(4) = 2 + 4 + 3
        (13, 9),  // z = 5: 2 + E(6) + E(5) = 2 + 4 + 3
        (14, 9),  // z = 6: 2 + E(7) + E(5) = 2 + 4 + 3
        (15, 10), // z = 6: 2 + E(7) + E(6) = 2 + 4 + 4
        (16, 12), // z = 7: 2 + E(8) + E(6) = 2 + 6 + 4
        (17, 12), // z = 7: 2 + E(8) + E(7) = 2 + 6 + 4
        (18, 12), // z = 8: 2 + E(9) + E(7) = 2 + 6 + 4
        (19, 14), // z = 8: 2 + E(9) + E(8) = 2 + 6 + 6
        (20, 14), // z = 9: 2 + E(10) + E(8) = 2 + 6 + 6
        // What 100 comes down to.
        (22, 16),  // z = 10: 2 + E(11) + E(9) = 2 + 8 + 6
        (23, 16),  // z = 10: 2 + E(11) + E(10) = 2 + 8 + 6
        (24, 17),  // z = 11: 2 + E(12) + E(10) = 2 + 9 + 6
        (25, 19),  // z = 11: 2 + E(12) + E(11) = 2 + 9 + 8
        (48, 35),  // z = 23: 2 + E(24) + E(22) = 2 + 17 + 16
        (50, 37),  // z = 24: 2 + E(25) + E(23) = 2 + 19 + 16
        (100, 74), // z = 49: 2 + E(50) + E(48) = 2 + 37 + 35
    ] {
        assert_eq!(cost(n), deliveries, "of {n} keys");
    }
}

/// The slip's sentences, of the answers up to the limit.
#[test]
fn costs_by_the_equations() {
    let e: Vec<usize> = (0..=LIMIT).map(cost).collect();
    assert_eq!(e[..4], [0, 1, 1, 1]);
    for n in 4..=5 {
        assert_eq!(e[n], 2 + e[n - 2]);
    }
    for n in 6..=LIMIT {
        let z = (n - 2) / 2;
        assert_eq!(e[n], 2 + e[z + 1] + e[n - 3 - z]);
    }
}

// ---- the only question ----

/// "17, for n above the limit, the only question of this call".
#[test]
fn seventeen_above_the_limit() {
    let powers = (0..usize::BITS).map(|bit| 1 << bit);
    // Above a power are those whose low bits alone would be within the limit.
    let around = powers.flat_map(|power: usize| [power - 1, power, power + 5]);
    let edges = [LIMIT - 1, LIMIT, LIMIT + 1, LIMIT + 2, 2 * LIMIT];
    let most = [usize::MAX - LIMIT, usize::MAX - 1, usize::MAX];
    for n in around.chain(edges).chain(most) {
        let above = n > LIMIT;
        assert_eq!(questions::q17_n_in_store_limit(n), !above);
        if !above {
            cost(n);
            continue;
        }
        let refused = OpeningCost {
            number: 17,
            deliveries: 0,
        };
        assert_eq!(opening_cost(n), refused, "of {n} keys");
        assert_eq!(host::opening_cost(n), -17);
        assert_eq!(questions::of_opening_cost(n), Err(17));
    }
}

// ---- rounds ----

/// A round between an empty left store and a right one of these keys makes as
/// many deliveries as the call gives. "After it the two stores are equal."
fn opens(keys: &[u64]) {
    let untouched = Delivery {
        sender: 77,
        claim: c(4, 3, 2, 1),
    };
    let mut records = vec![untouched; 2 * keys.len()];
    let right = RawStore::of(keys);
    let rounded = round(RawStore::empty(), right.clone(), &mut records);
    let expected = (0, cost(keys.len()));
    assert_eq!((rounded.number, rounded.deliveries), expected, "{right:?}");
    assert_eq!((&rounded.left, &rounded.right), (&right, &right));
    // The records tell that there were so many.
    let written = records.iter().position(|record| *record == untouched);
    assert_eq!(written.unwrap_or(records.len()), rounded.deliveries);
    let kept = &records[rounded.deliveries..];
    assert!(kept.iter().all(|record| *record == untouched));
}

/// Openings told line by line, with one line more than there are deliveries.
#[test]
fn rehearsed_openings() {
    let lines = |keys: &[u64], lines: &[&str]| {
        let input = [image_of_keys(&[]), image_of_keys(keys)].concat();
        let expected: String = lines.iter().map(|line| format!("{line}\n")).collect();
        assert_eq!(rehearse(&input), expected);
        assert_eq!(cost(keys.len()), lines.len() - 1);
        opens(keys);
    };
    lines(&[], &["left 0 right 0 claims 0"]);
    lines(&[0], &["R 0 0 0 1", "left 1 right 1 claims 1"]);
    lines(
        &[0, MAX],
        &[
            "R 0 18446744073709551615 18446744073709551615 2",
            "left 2 right 2 claims 1",
        ],
    );
    // The middle key of three is learnt with its ends.
    lines(&[1, 2, 16], &["R 1 16 19 3", "left 3 right 3 claims 1"]);
    // A sum of 0 tells nothing here: own has fewer keys.
    lines(
        &[4, 5, 6, 7],
        &[
            "R 4 7 0 4",
            "L 4 7 3 2",
            "R 5 6 3 2",
            "left 4 right 4 claims 3",
        ],
    );
    lines(
        &[1, 2, 4, 8, 16],
        &[
            "R 1 16 31 5",
            "L 1 16 17 2",
            "R 2 8 14 3",
            "left 5 right 5 claims 3",
        ],
    );
    lines(
        &[1, 2, 4, 8, 16, 32],
        &[
            "R 1 32 63 6",
            "L 1 32 33 2",
            "R 2 8 14 3",
            "R 16 16 16 1",
            "left 6 right 6 claims 4",
        ],
    );
    lines(
        &[1, 2, 4, 8, 16, 32, 64, 128],
        &[
            "R 1 128 255 8",
            "L 1 128 129 2",
            "R 2 16 30 4",
            "R 32 64 96 2",
            "L 2 16 18 2",
            "R 4 8 12 2",
            "left 8 right 8 claims 6",
        ],
    );
}

/// So many keys, rising: the certain ones before others, then those drawn.
fn drawn(n: usize, certain: &[u64], mut draw: impl FnMut() -> u64) -> Vec<u64> {
    let mut keys: BTreeSet<u64> = certain.iter().copied().take(n).collect();
    while keys.len() < n {
        keys.insert(draw());
    }
    keys.into_iter().collect()
}

/// So many keys in runs of four from a multiple of four on, whose XOR is 0;
/// the first run without its first few.
fn runs_of_four(n: usize, without: usize, rng: &mut Rng) -> Vec<u64> {
    let runs = drawn((n + without).div_ceil(4), &[], || rng.next() >> 2);
    let keys = runs.iter().flat_map(|run| 4 * run..=4 * run + 3);
    keys.skip(without).take(n).collect()
}

/// Low bits that tell more keys apart than a store holds, by far.
const LOW_BITS: u32 = (4 * LIMIT).next_power_of_two().ilog2();

/// So many keys in each of several ways.
fn key_sets(n: usize, rng: &mut Rng) -> Vec<Vec<u64>> {
    let count = n as u64;
    let (high, step) = (rng.next() << LOW_BITS, rng.next() % 1_000_000 + 1);
    let few: Vec<u64> = (0..LOW_BITS).map(|_| rng.next()).collect();
    let mut sets = vec![
        (0..count).map(|at| at * step).collect(),
        (0..count).rev().map(|at| MAX - at).collect(),
        drawn(n, &[], || rng.next()),
        drawn(n, &[0, MAX], || rng.next()),
        drawn(n, &[MAX], || rng.next()),
        // All but the low bits shared, by all keys or by all but the ends.
        drawn(n, &[], || high + rng.next() % (1 << LOW_BITS)),
        drawn(n, &[0, MAX], || high + rng.next() % (1 << LOW_BITS)),
        // The XORs of a few keys, which have each other's XOR among them.
        drawn(n, &[0], || {
            let chosen = few.iter().filter(|_| rng.one_in(2));
            chosen.fold(0, |sum, key| sum ^ key)
        }),
    ];
    for first in 0..4 {
        sets.push((first..first + count).collect());
        sets.push(runs_of_four(n, first as usize, rng));
    }
    for keys in &sets {
        assert_eq!(keys.len(), n);
    }
    sets
}

/// "whichever keys they are"
#[test]
fn rounds_whichever_keys_they_are() {
    for_seeds(12, |rng| {
        for n in (0..=64).chain([100, 255, 256, 257, LIMIT / 2 + 1, LIMIT]) {
            for keys in key_sets(n, rng) {
                opens(&keys);
            }
        }
    });
}

/// "for each n from 0 to the store limit"
#[test]
fn rounds_of_every_number_of_keys() {
    for_seeds(1, |rng| {
        for n in 0..=LIMIT {
            let sets = key_sets(n, rng);
            opens(&sets[rng.below(sets.len())]);
        }
    });
}

#[test]
fn rounds_of_any_store() {
    for_seeds(300, |rng| {
        let density = rng.density();
        opens(&rng.keys(LIMIT, density));
    });
}

/// "an empty left store": were the right one empty, its whole claim, "made
/// then", would come on top, for the left one opens.
#[test]
fn the_other_end_costs_one_more() {
    for_seeds(20, |rng| {
        let n = 1 + rng.below(LIMIT);
        for keys in key_sets(n, rng) {
            let left = RawStore::of(&keys);
            let mut records = vec![Delivery::default(); 2 * n];
            let rounded = round(left.clone(), RawStore::empty(), &mut records);
            assert_eq!((rounded.number, rounded.deliveries), (0, cost(n) + 1));
            assert_eq!((&rounded.left, &rounded.right), (&left, &left));
        }
    });
    let rounded = round(RawStore::empty(), RawStore::empty(), &mut []);
    assert_eq!((rounded.number, rounded.deliveries), (0, cost(0)));
}
