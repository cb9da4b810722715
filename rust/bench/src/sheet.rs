//! The wall sheet of an image.

use crate::cases::{self, Case, Pair};
use crate::timing::Compared;
use crate::{CELLS, LIMIT, RULE, as_number, beaten, in_turns, with_comma};
use second::{RawNode, RawStore};

/// How many random keys an image holds: none, some, those of a full page, all
/// that fit.
const RANDOM: [usize; 4] = [0, 16, 120, LIMIT];

/// Both programs lay out the sheets of the same images.
fn sheet(cases: &[Case]) -> Compared {
    in_turns(
        cases,
        |case, out| as_number(minutefrost::sheet(&case.image, &mut out.sheet)),
        |case, out| second::host::sheet(&case.image, &mut out.sheet),
    )
}

/// Images of so many random keys.
fn random(keys: usize) -> Vec<Case> {
    cases::all(|variant| beaten(Pair::new(keys, 0, variant).node(0)))
}

/// Images of the lowest keys that there are, all the same.
fn lowest() -> Vec<Case> {
    let keys: Vec<u64> = (0..LIMIT as u64).collect();
    cases::all(|_| beaten(RawNode::of(RawStore::of(&keys), &[])))
}

/// How long the sheet of an image is.
fn length(case: &Case) -> i64 {
    second::host::sheet(&case.image, &mut cases::Buffers::new().sheet)
}

pub fn print_sheets() {
    println!("## The wall sheet\n");
    println!(
        "Of an image with nothing pending, which is read and judged as `count` does it; then its keys are laid out. Nearly all \
         random keys have 19 or 20 digits. The lowest keys, 0 to {}, have one to four, and of them, as of no key, all 32 cases \
         are the same.\n",
        with_comma(LIMIT - 1)
    );
    println!("| Keys | Which | Bytes | {CELLS} |");
    println!("|---:|---|---:|{RULE}|");
    let row = |keys: usize, which: &str, cases: Vec<Case>| {
        let (bytes, times) = (length(&cases[0]), sheet(&cases));
        println!("| {keys} | {which} | {bytes} | {times} |");
    };
    for keys in RANDOM {
        let which = if keys == 0 { "none" } else { "random" };
        row(keys, which, random(keys));
    }
    row(LIMIT, "the lowest", lowest());
    println!();
}
