//! What a new kiosk costs (document 02, slip 5): "We plan openings by
//! airtime."

use crate::questions;

/// What [`opening_cost`] returns.
#[derive(Clone, Copy, Debug, PartialEq, Eq)]
pub struct OpeningCost {
    /// The first question answered no, 0 if there is none.
    pub number: u8,
    /// How many deliveries the round makes; refused, 0.
    pub deliveries: usize,
}

/// The slip's E, of n from 1 on. Each step adds a delivery or two of its own,
/// so there are no more steps than deliveries.
fn e(n: usize) -> usize {
    debug_assert!(n >= 1);
    match n {
        // "Let E(1), E(2), E(3) be 1."
        ..=3 => 1,
        // "For n of 4 or 5, E(n) is 2 + E(n − 2)."
        4 | 5 => 2 + e(n - 2),
        // "For greater n it is 2 + E(z + 1) + E(n − 3 − z), with
        // z = (n − 2) div 2." From 6 on n − 3 − z is at least 1.
        _ => {
            let z = (n - 2) / 2;
            2 + e(z + 1) + e(n - 3 - z)
        }
    }
}

/// "The round then makes E(n) deliveries for n from 1 on and none for n = 0,
/// whichever keys they are."
pub(crate) fn deliveries(n: usize) -> usize {
    if n == 0 { 0 } else { e(n) }
}

/// "the number of deliveries in a round between an empty left store and a
/// right store of n keys". Asks 17.
///
/// No round is run for it. The tests run them, to see that they make as many
/// and that "After it the two stores are equal."
pub fn opening_cost(n: usize) -> OpeningCost {
    match questions::of_opening_cost(n) {
        Ok(()) => OpeningCost {
            number: 0,
            deliveries: deliveries(n),
        },
        Err(number) => OpeningCost {
            number,
            deliveries: 0,
        },
    }
}
