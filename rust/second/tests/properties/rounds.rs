//! Rounds, and the rehearsal of one.

use std::collections::BTreeSet;

use super::common::*;
use super::sets::{round_of_sets, set, store_of};
use second::*;

#[test]
fn rounds_are_those_of_sets() {
    let ways = Ways::default();
    for_seeds(250, |rng| {
        let (left, right) = rng.pair();
        let union = set(&left).union(&set(&right)).count();
        ways.saw(if union == LIMIT { "full" } else { "less" });
        let untouched = Delivery {
            sender: 77,
            claim: c(4, 3, 2, 1),
        };
        let mut records = vec![untouched; 2 * union + rng.below(3)];
        let (rounded, false_matches) =
            round_watched(RawStore::of(&left), RawStore::of(&right), &mut records);
        let mut stores = [set(&left), set(&right)];
        let (told, false_told) = round_of_sets(&mut stores);
        assert_eq!((rounded.number, rounded.deliveries), (0, told.len()));
        assert_eq!(rounded.left, store_of(&stores[0]));
        assert_eq!(rounded.right, store_of(&stores[1]));
        assert_eq!(false_matches, false_told);
        let (written, kept) = records.split_at(told.len());
        for (record, (sender, claim)) in written.iter().zip(told) {
            assert_eq!(*record, Delivery { sender, claim });
        }
        assert!(kept.iter().all(|record| *record == untouched));
    });
    ways.all_of(&["full", "less"]);
}

#[test]
fn rounds_rise_within_the_union_and_meet() {
    // How often each happened, so that the property isn't idle.
    let met = std::cell::Cell::new(0);
    let misled = std::cell::Cell::new(0);
    for_seeds(500, |rng| {
        let (left, right) = rng.pair();
        let union: BTreeSet<u64> = set(&left).union(&set(&right)).copied().collect();
        let differing = set(&left).symmetric_difference(&set(&right)).count();
        let mut left = RawStore::of(&left);
        let mut right = RawStore::of(&right);
        let mut records = vec![Delivery::default(); 2 * union.len()];
        let mut truthful = true;
        for _ in 0..differing {
            let (rounded, false_matches) = round_watched(left.clone(), right.clone(), &mut records);
            assert_eq!(rounded.number, 0);
            assert!(rounded.deliveries <= 2 * union.len());
            for (before, after) in [(&left, &rounded.left), (&right, &rounded.right)] {
                assert!(questions::q1_store_in_order(after));
                assert!(set(before.held()).is_subset(&set(after.held())));
                assert!(set(after.held()).is_subset(&union));
            }
            // Watching changes nothing.
            let mut plain_records = vec![Delivery::default(); 2 * union.len()];
            let plain = round(left.clone(), right.clone(), &mut plain_records);
            assert_eq!(plain, rounded);
            assert_eq!(
                plain_records[..plain.deliveries],
                records[..plain.deliveries]
            );
            truthful &= false_matches.is_empty();
            if truthful && left != right {
                // Each truthful round leaves fewer keys that differ.
                let apart = |left: &RawStore, right: &RawStore| {
                    set(left.held())
                        .symmetric_difference(&set(right.held()))
                        .count()
                };
                assert!(apart(&rounded.left, &rounded.right) < apart(&left, &right));
            }
            (left, right) = (rounded.left, rounded.right);
            if !truthful || left == right {
                break;
            }
        }
        if truthful {
            assert_eq!(left, store_of(&union));
            assert_eq!(right, store_of(&union));
            met.set(met.get() + 1);
        } else {
            misled.set(misled.get() + 1);
        }
    });
    if std::env::var("SECOND_SEED").is_err() {
        assert!(met.get() > 100, "only {} met", met.get());
        assert!(misled.get() > 20, "only {} misled", misled.get());
    }
}

#[test]
fn rounds_too_large_or_short_of_records() {
    let ways = Ways::default();
    for_seeds(200, |rng| {
        let density = rng.density();
        let (left, right) = (rng.keys(LIMIT, density), rng.keys(LIMIT, density));
        let union = set(&left).union(&set(&right)).count();
        let records = match rng.below(3) {
            0 => (2 * union).saturating_sub(1),
            1 => rng.below(2 * LIMIT + 1),
            _ => 2 * union,
        };
        let expected = match () {
            () if union > LIMIT => 8,
            () if records < 2 * union => 9,
            () => 0,
        };
        let mut lent = vec![Delivery::default(); records];
        let (left, right) = (RawStore::of(&left), RawStore::of(&right));
        let rounded = round(left.clone(), right.clone(), &mut lent);
        assert_eq!(rounded.number, expected);
        ways.saw(expected);
        if expected != 0 {
            assert_eq!(rounded.deliveries, 0);
            assert_eq!((rounded.left, rounded.right), (left, right));
            assert!(lent.iter().all(|record| *record == Delivery::default()));
        }
    });
    ways.all_of(&[0, 8, 9]);
}

/// The rehearsal told by sets, of two images that are in order.
fn rehearsal_of_sets(left: &[u64], right: &[u64]) -> String {
    let mut stores = [set(left), set(right)];
    let union = stores[0].union(&stores[1]).count();
    if union > LIMIT {
        return "refused 8\n".into();
    }
    if REHEARSAL_RECORDS < 2 * union {
        return "refused 9\n".into();
    }
    let (told, _) = round_of_sets(&mut stores);
    let mut lines: Vec<String> = Vec::new();
    for (sender, claim) in &told {
        let sender = ["L", "R"][usize::from(*sender)];
        let Claim { lo, hi, sum, cnt } = claim;
        lines.push(format!("{sender} {lo} {hi} {sum} {cnt}\n"));
    }
    let [left, right] = stores.map(|store| store.len());
    lines.push(format!("left {left} right {right} claims {}\n", told.len()));
    lines.concat()
}

#[test]
fn rehearsals_are_rounds() {
    let ways = Ways::default();
    for_seeds(120, |rng| {
        let (left, right) = if rng.one_in(4) {
            let density = rng.density();
            (rng.keys(LIMIT, density), rng.keys(LIMIT, density))
        } else {
            rng.pair()
        };
        let input = [image_of_keys(&left), image_of_keys(&right)].concat();
        let lines = rehearse(&input);
        assert_eq!(lines, rehearsal_of_sets(&left, &right));
        ways.saw(match lines.strip_prefix("refused ") {
            Some(number) => number.trim_end(),
            None => "run",
        });
    });
    ways.all_of(&["run", "8", "9"]);
}
