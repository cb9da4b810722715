//! Short runs, of every length; and those about a store's limit and twice it.

use tests::cases::Seen;
use tests::draw::Rng;

use crate::runs::{SHAPES, every_key, many_keys};
use crate::search::{Search, expect};

/// Up to this length, every count too.
const EVERY_COUNT: usize = 40;

#[test]
fn every_count_of_every_run_up_to_40() {
    let mut rng = Rng(40);
    let mut seen = Seen::default();
    for length in 0..=EVERY_COUNT {
        for shape in SHAPES {
            let keys = &shape.run(length, &mut rng);
            let sought = every_key(keys);
            for count in (0..=length + 1).chain([2 * length + 2, usize::MAX]) {
                Search { shape, keys, count }.agrees(&sought, &mut rng, &mut seen);
            }
        }
    }
    expect(&seen, &[]);
}

/// Every key of the whole run, and many of a part.
fn agree(lengths: impl Iterator<Item = usize>) {
    let mut rng = Rng(300);
    let mut seen = Seen::default();
    for length in lengths {
        for shape in SHAPES {
            let keys = &shape.run(length, &mut rng);
            let whole = Search {
                shape,
                keys,
                count: length,
            };
            whole.agrees(&every_key(keys), &mut rng, &mut seen);
            for count in [0, length - 1, rng.below(length), length + 1, usize::MAX] {
                let sought = many_keys(keys, count, &mut rng);
                Search { count, ..whole }.agrees(&sought, &mut rng, &mut seen);
            }
        }
    }
    expect(&seen, &[]);
}

#[test]
fn every_length_up_to_300() {
    agree(EVERY_COUNT + 1..=300);
}

#[test]
fn lengths_about_1_024_and_2_048() {
    agree((1_023..=1_025).chain(2_047..=2_049));
}
