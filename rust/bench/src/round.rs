//! Rounds. The daemon's archive has no call for one; the archive of
//! `rehearsal` has one for measurements alone, which rehearses two images.
//!
//! Most of a short rehearsal's time goes into reading the images. So the same
//! is done twice over: once as it is, and once with no record lent, which is
//! refused by 9 when all but the deliveries is done. What the first took
//! longer is the deliveries. The second program is timed in the same two ways.

use std::hint::black_box;

use crate::cases::{self, Pair, VARIANTS};
use crate::deliveries::{self, Deliveries};
use crate::library::{TimedRound, own};
use crate::timing::compare_beyond;
use crate::{CELLS, RULE, differences};
use second::{Delivery, RawNode, RawStore};

/// The words of a record: sender, lo, hi, sum, cnt.
pub const RECORD: usize = 5;

/// One round for every program.
pub struct Case {
    left: RawStore,
    right: RawStore,
    /// Their images, end to end.
    images: Vec<u8>,
    /// As many as 9 asks for.
    records: usize,
}

impl Case {
    fn new(union: usize, differing: usize, variant: u64) -> Case {
        let pair = Pair::new(union, differing, variant);
        let [left, right] = [&pair.speaker, &pair.hearer].map(|keys| RawStore::of(keys));
        let images = [&left, &right]
            .map(|store| cases::image(&RawNode::of(store.clone(), &[])))
            .concat();
        Case {
            left,
            right,
            images,
            records: 2 * union,
        }
    }

    /// The deliveries by a proved program, as words.
    pub fn made(&self, program: TimedRound) -> Vec<u64> {
        let mut words = vec![0; RECORD * self.records];
        let made = program.run(&self.images, &mut words);
        words.truncate(RECORD * made);
        words
    }

    /// The deliveries by the second program, as words.
    pub fn told(&self) -> Vec<u64> {
        let mut records = vec![Delivery::default(); self.records];
        let met = second::round(self.left.clone(), self.right.clone(), &mut records);
        assert_eq!(met.number, 0, "both stores are in order");
        let told = records[..met.deliveries].iter();
        told.flat_map(|Delivery { sender, claim }| {
            [
                (*sender).into(),
                claim.lo,
                claim.hi,
                claim.sum,
                claim.cnt.into(),
            ]
        })
        .collect()
    }
}

/// A round takes many turns at each of which a processor guesses which way it
/// goes on: more variants than of a host call, or it learns them by heart.
const ROUNDS: u64 = 4 * VARIANTS;

/// The rounds of one row.
pub fn row(union: usize, differing: usize) -> Vec<Case> {
    (0..ROUNDS)
        .map(|variant| Case::new(union, differing, variant))
        .collect()
}

/// A proved program's rounds, one at each call, or those refused by 9.
pub fn proved(cases: &[Case], program: TimedRound, refused: bool) -> impl FnMut() {
    let mut next = cases.iter().cycle();
    let most = cases.iter().map(|case| case.records).max().unwrap_or(0);
    let mut words = vec![0; RECORD * most];
    move || {
        let case = next.next().expect("a cycle");
        let lent = if refused { 0 } else { RECORD * case.records };
        black_box((program.run(&case.images, &mut words[..lent]), &words));
    }
}

/// The second program's.
fn plain(cases: &[Case], refused: bool) -> impl FnMut() {
    let mut next = cases.iter().cycle();
    let most = cases.iter().map(|case| case.records).max().unwrap_or(0);
    let mut records = vec![Delivery::default(); most];
    move || {
        let case = next.next().expect("a cycle");
        let lent = if refused { 0 } else { case.records };
        let met = second::round(case.left.clone(), case.right.clone(), &mut records[..lent]);
        black_box((met.deliveries, &records));
    }
}

pub fn print_rounds() {
    match TimedRound::of(&own(), 0) {
        Ok(program) => {
            print_times(program);
            deliveries::print(program);
        }
        Err(why) => println!("## Rounds\n\nNot measured: {why}."),
    }
}

fn print_times(program: TimedRound) {
    println!("## Rounds\n");
    println!(
        "The daemon's archive has no call for a round; that of the crate `rehearsal` has one for measurements alone, which \
         rehearses two images. The time is what that took longer than the same refused by 9: all deliveries, without reading the \
         images and without questions 1, 8 and 9. The second program is timed in the same way.\n"
    );
    println!("| Union | Differing | Deliveries | {CELLS} |");
    println!("|---:|---:|---:|{RULE}|");
    for (union, differing) in differences() {
        let cases = row(union, differing);
        let deliveries = Deliveries::agreed(&cases, program).mean();
        let times = compare_beyond(
            cases.len(),
            [
                proved(&cases, program, false),
                proved(&cases, program, true),
            ],
            [plain(&cases, false), plain(&cases, true)],
        );
        println!("| {union} | {differing} | {deliveries:.0} | {times} |");
    }
    println!();
}
