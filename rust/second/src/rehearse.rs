//! The rehearsal program (document 01, "Rehearsal program").

use std::fmt::Write;

use crate::image::{front_length, node_of_image};
use crate::questions::{self, Asked, ask};
use crate::round::{Delivery, run};

/// "lends 2,048 records": a number of its own, whatever the store's limit is.
/// It "still lends" them, so unions of more than half as many keys, within that
/// limit, "get 9 there" (document 02, slip 6).
pub const REHEARSAL_RECORDS: usize = 2_048;

/// All that `rehearse` prints for this standard input, each line ended.
pub fn rehearse(input: &[u8]) -> String {
    match try_rehearse(input) {
        Ok(lines) => lines,
        Err(number) => format!("refused {number}\n"),
    }
}

fn try_rehearse(input: &[u8]) -> Asked<String> {
    // "the first as long as its counts say, the rest is the second", and
    // "judges the first by 14 and 1 before the second".
    let (first, rest) = input.split_at(front_length(input)?);
    let left = node_of_image(first)?.store;
    let right = node_of_image(rest)?.store;

    let mut records = vec![Delivery::default(); REHEARSAL_RECORDS];
    let union = questions::union_count(left.keys(), right.keys());
    ask(8, questions::q8_union_fits(union))?;
    ask(
        9,
        questions::q9_transcript_long_enough(union, records.len()),
    )?;
    let mut stores = [left, right];
    let (deliveries, _) = run::<()>(&mut stores, &mut records);

    let mut lines = String::new();
    for Delivery { sender, claim } in &records[..deliveries] {
        let sender = if *sender == 0 { 'L' } else { 'R' };
        writeln!(
            lines,
            "{sender} {} {} {} {}",
            claim.lo, claim.hi, claim.sum, claim.cnt
        )
        .expect("a string takes every line");
    }
    let [left, right] = stores.map(|store| store.keys().len());
    writeln!(lines, "left {left} right {right} claims {deliveries}")
        .expect("a string takes every line");
    Ok(lines)
}
