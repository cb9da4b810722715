//! Long runs: positions that 16 bits hold, the last of these, and those beyond.

use std::collections::BTreeSet;

use tests::cases::Seen;
use tests::draw::Rng;

use crate::runs::{SHAPES, many_keys};
use crate::search::{LEAVES_MORE, LEAVES_WORD, PAST, Search, WORD, expect};

/// Few keys, about as many as 16 bits tell, and about as many of which one turn
/// leaves as many; all of the run and nearly all; more than it has.
fn counts(length: usize) -> BTreeSet<usize> {
    let about = [0..=5, WORD - 3..=WORD + 2, 4 * WORD - 20..=4 * WORD + 20];
    let within = about.into_iter().flatten().chain([length / 2, length - 1]);
    let within = within.filter(|count| *count < length);
    let beyond = [length, length + 1, 2 * length, usize::MAX];
    within.chain(beyond).collect()
}

fn agrees(length: usize, ways: &[&str]) {
    let mut rng = Rng(length as u64);
    let mut seen = Seen::default();
    for shape in SHAPES {
        let keys = &shape.run(length, &mut rng);
        for count in counts(length) {
            let sought = many_keys(keys, count, &mut rng);
            Search { shape, keys, count }.agrees(&sought, &mut rng, &mut seen);
        }
    }
    expect(&seen, ways);
}

#[test]
fn runs_of_65_535() {
    agrees(65_535, &[]);
}

#[test]
fn runs_of_65_536() {
    agrees(65_536, &[PAST]);
}

#[test]
fn runs_of_65_537() {
    agrees(65_537, &[PAST]);
}

#[test]
fn runs_of_300_000() {
    agrees(300_000, &[PAST, LEAVES_WORD, LEAVES_MORE]);
}
