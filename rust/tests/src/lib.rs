//! What the comparisons share: the proved program behind a pipe ([`drill`]),
//! the words and bytes of its requests ([`card`]), cases drawn from a seed
//! ([`draw`]), claims of three and the ways they go ([`middle`]), images that
//! have some which no store could make ([`left_out`]), wall sheets and the keys
//! on them ([`sheet`]), what a new kiosk costs and the keys for it
//! ([`opening`]), running sums and how they can be wrong ([`sums`]), the turns
//! of pending claims in a beat ([`replies`]), what two images become
//! ([`joining`]), every call that is given a store ([`given`]), what other
//! programs print ([`program`]), and runs of many cases with what was seen in
//! them ([`cases`]).

#![forbid(unsafe_code)]

pub mod card;
pub mod cases;
pub mod draw;
pub mod drill;
pub mod given;
pub mod joining;
pub mod left_out;
pub mod middle;
pub mod opening;
pub mod program;
pub mod replies;
pub mod sheet;
pub mod sums;

/// The keys of a store that was full before slip 6 of document 02: none of the
/// cards that were written until then has more, whatever a store can hold now.
pub const OLD_LIMIT: usize = 1_024;
