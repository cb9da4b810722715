//! What a new kiosk costs: a number of keys in, a number of deliveries out.

use std::hint::black_box;

use crate::cases::VARIANTS;
use crate::timing::{Compared, compare};
use crate::{CELLS, LIMIT, RULE, as_number};

/// How many keys the kiosk is told.
const KEYS: [usize; 3] = [64, 513, LIMIT];

fn rattle(keys: usize) -> i64 {
    as_number(minutefrost::opening_cost(keys))
}

fn second(keys: usize) -> i64 {
    second::host::opening_cost(keys)
}

/// Both programs work out the same number, anew at each call.
fn cost(keys: usize) -> Compared {
    assert_eq!(rattle(keys), second(keys), "the programs differ");
    compare(
        VARIANTS as usize,
        || {
            black_box(rattle(black_box(keys)));
        },
        || {
            black_box(second(black_box(keys)));
        },
    )
}

pub fn print_openings() {
    println!("## What a new kiosk costs\n");
    println!(
        "`opening_cost`, which takes no image: the deliveries are worked out by the request's equations, by a function that calls \
         itself, and no round is run. All {VARIANTS} cases are the same.\n"
    );
    println!("| Keys | Deliveries | {CELLS} |");
    println!("|---:|---:|{RULE}|");
    for keys in KEYS {
        let (deliveries, times) = (second(keys), cost(keys));
        println!("| {keys} | {deliveries} | {times} |");
    }
    println!();
}
