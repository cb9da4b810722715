//! How many deliveries rounds make: counts, which are the same on every
//! machine. They are what a radio carries.

use std::fmt;

use crate::differences;
use crate::library::TimedRound;
use crate::round::{self, Case, RECORD};

/// The columns of [`Deliveries`], and their rule.
pub const COUNTS: &str = "mean | least | most";
pub const COUNTS_RULE: &str = "---:|---:|---:";

/// How many each round of a row makes.
pub struct Deliveries(Vec<usize>);

impl Deliveries {
    pub fn of(cases: &[Case], program: TimedRound) -> Deliveries {
        let made = cases.iter().map(|case| case.made(program).len() / RECORD);
        Deliveries(made.collect())
    }

    /// Those of this checkout's program; the second one must make the same.
    pub fn agreed(cases: &[Case], program: TimedRound) -> Deliveries {
        let agreed = cases.iter().all(|case| case.made(program) == case.told());
        assert!(agreed, "the programs differ");
        Deliveries::of(cases, program)
    }

    pub fn mean(&self) -> f64 {
        self.0.iter().sum::<usize>() as f64 / self.0.len() as f64
    }
}

/// The cells of a row.
impl fmt::Display for Deliveries {
    fn fmt(&self, out: &mut fmt::Formatter<'_>) -> fmt::Result {
        let [least, most] = [self.0.iter().min(), self.0.iter().max()].map(|end| end.unwrap_or(&0));
        write!(out, "{:.2} | {least} | {most}", self.mean())
    }
}

/// Those of some rows that are told: where no key differs, each end just hears
/// the other's whole claim.
pub fn of(rows: impl Iterator<Item = (usize, usize)>) -> impl Iterator<Item = (usize, usize)> {
    rows.filter(|(_, differing)| *differing > 0)
}

pub fn print(program: TimedRound) {
    println!("## Deliveries in a round\n");
    println!(
        "Counts and no times: of the rounds timed above, the mean, the least and the most. The second program makes the same \
         deliveries.\n"
    );
    println!("| Union | Differing | {COUNTS} |");
    println!("|---:|---:|{COUNTS_RULE}|");
    for (union, differing) in of(differences()) {
        let deliveries = Deliveries::agreed(&round::row(union, differing), program);
        println!("| {union} | {differing} | {deliveries} |");
    }
    println!();
}
