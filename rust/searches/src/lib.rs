//! The proved search of a run of keys, for tests alone: safe calls over the
//! archive of the crate `searches`, and beside them the search's definition in
//! plain Rust ([`definition`]).
//!
//! A package of its own, so that this archive is never linked together with
//! the daemon's, which has the same search inside.
//!
//! ```
//! use searches::{Place, place_in, places_in};
//!
//! let keys = [3, 5, 9];
//! assert_eq!(place_in(&keys, 3, 5), Place { at: 1, held: true });
//! assert_eq!(place_in(&keys, 3, 6), Place { at: 2, held: false });
//! let (lower, upper) = places_in(&keys, 3, 0, 9);
//! assert_eq!(lower, Place { at: 0, held: false });
//! assert_eq!(upper, Place { at: 2, held: true });
//! ```

#![warn(missing_docs)]

pub mod definition;

mod c {
    unsafe extern "C" {
        pub fn minutefrost_place_in(
            keys: *const u64,
            keys_len: usize,
            count: usize,
            key: u64,
        ) -> usize;

        pub fn minutefrost_places_in(
            keys: *const u64,
            keys_len: usize,
            count: usize,
            lo: u64,
            hi: u64,
            told: *mut usize,
            told_len: usize,
        ) -> bool;
    }
}

/// Where a key stands, or would stand.
#[derive(Clone, Copy, Debug, PartialEq, Eq)]
pub struct Place {
    /// Its position; positions begin at 0.
    pub at: usize,
    /// Whether it is there.
    pub held: bool,
}

impl Place {
    /// The place that a call tells as one number: twice the position, and one
    /// more where the key is held.
    pub fn of_told(number: usize) -> Place {
        Place {
            at: number / 2,
            held: number % 2 == 1,
        }
    }
}

/// The place of a key among the first `count` keys of any run.
pub fn place_in(keys: &[u64], count: usize, key: u64) -> Place {
    // SAFETY: the pointer comes with the length of its slice, and the call is
    // proved to read within it and to keep nothing of it.
    let told = unsafe { c::minutefrost_place_in(keys.as_ptr(), keys.len(), count, key) };
    Place::of_told(told)
}

/// The places of two keys, by one call.
pub fn places_in(keys: &[u64], count: usize, lo: u64, hi: u64) -> (Place, Place) {
    let mut told = [0; 2];
    let lent = places_told(keys, count, lo, hi, &mut told);
    assert!(lent, "two places are lent");
    (Place::of_told(told[0]), Place::of_told(told[1]))
}

/// The same call with the numbers as it tells them, in the first two of those
/// that are lent; whether so many are.
pub fn places_told(keys: &[u64], count: usize, lo: u64, hi: u64, told: &mut [usize]) -> bool {
    // SAFETY: as above, and the slice that is written overlaps none that is
    // read.
    unsafe {
        c::minutefrost_places_in(
            keys.as_ptr(),
            keys.len(),
            count,
            lo,
            hi,
            told.as_mut_ptr(),
            told.len(),
        )
    }
}
