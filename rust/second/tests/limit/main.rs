//! Document 02, slip 6, "Two thousand keys": its sentences, each in a file or
//! two, and what else goes by the limit.

#[path = "../common/mod.rs"]
mod common;

mod images;
mod lists;
mod other;
mod rehearsal;
mod saved;
mod six;
mod stores;
mod unions;

use std::collections::BTreeSet;

use common::*;

const MAX: u64 = u64::MAX;

/// The limit before this slip, document 01's.
const OLD_LIMIT: usize = 1_024;

/// The longest image before this slip: "At most 9,860 bytes." (document 01)
const OLD_IMAGE_MOST: usize = 9_860;

/// So many keys of all 64 bits, rising.
fn drawn(rng: &mut Rng, count: usize) -> Vec<u64> {
    let mut keys = BTreeSet::new();
    while keys.len() < count {
        keys.insert(rng.next());
    }
    keys.into_iter().collect()
}

/// So many keys 0, 10, 20, ….
fn tens(count: usize) -> Vec<u64> {
    (0..count as u64).map(|at| 10 * at).collect()
}
