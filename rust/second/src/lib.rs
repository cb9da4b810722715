//! Document 01 and slips 1, 2 and 4 to 9 of document 02 in plain Rust, written
//! from these and the paper alone; slip 3 changed nothing that is seen. Five
//! host calls are beyond document 01: [`host::enter`], [`host::count`], for the
//! wall sheet of slip 4 [`host::sheet`], with the program [`wallsheet()`], for
//! what a new kiosk costs, slip 5, [`host::opening_cost`], and for two memory
//! cards into one, slip 9, [`host::join`]. Slip 6 moved the limit, which is
//! [`RawStore::LIMIT`] throughout. Slip 7 put running sums beside the keys,
//! [`RawStore::sums`], from which claims read theirs. Slip 8 lets a [`beat()`]
//! reply to no more than [`BEAT_REPLIES`] pending claims. By slip 9 a list of
//! events may hold a joining of two kiosks, which is [`join_nodes`].
//!
//! This is the second program of document 01 ("the rest, with random stores,
//! run against a second program"): it shares no code, table or constant with
//! the proved one, so that where both agree two readings of the documents do.
//! "Replies are compared with this rule from now on", the one of the middle
//! key of three (document 02, slip 1), and "The order of serving and the claims
//! sent are compared with this text from here on", those of a beat (slip 8).
//!
//! Every public call takes stores and nodes of any content ([`RawStore`],
//! [`RawNode`]), puts the questions that concern it in the documents' order
//! ([`questions`]) and answers with the number of the first one answered no,
//! 0 if there is none. A refusal gives back the given store or node and zeros
//! for any claim or count, and leaves every lent place as it was.

#![forbid(unsafe_code)]
#![warn(missing_docs)]

mod claim;
mod frame;
pub mod host;
mod image;
mod join;
mod node;
mod opening;
pub mod questions;
mod rehearse;
mod round;
mod sheet;
mod store;
mod wallsheet;

pub use claim::Claim;
pub use frame::{CLAIM_BYTES, FRAME_MOST, FrameRead, MARK, VERSION, read_frame, write_frame};
pub use image::{IMAGE_MOST, ImageRead, Length, image_length, read_image, write_image};
pub use join::{Joined, join_nodes};
pub use node::{BEAT_PLACES, BEAT_REPLIES, Beaten, PENDING, RawNode, Taken, beat, take};
pub use opening::{OpeningCost, opening_cost};
pub use rehearse::{REHEARSAL_RECORDS, rehearse};
pub use round::{Delivery, Rounded, is_false_match, round, round_watched};
pub use sheet::{SHEET_MOST, write_sheet};
pub use store::{Entered, Made, RawStore, Replied, Reply, enter, make, reply};
pub use wallsheet::wallsheet;
