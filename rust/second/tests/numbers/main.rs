//! The sentences of document 01 that give a number, and each question of each
//! call on both sides of its edge; a file for each of its headings.

#[path = "../common/mod.rs"]
mod common;

mod beat;
mod claims;
mod frames;
mod host;
mod images;
mod rehearsal;
mod reply;
mod round;
mod store;

const MAX: u64 = u64::MAX;
