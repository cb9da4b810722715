//! The definition of a place, step by step as crates/keys/specs/Lent.antt has
//! it, and with its names: `halved`, `quarterOf`, `quartered`, `placeAt` and
//! `placeIn`. Written from these alone and not from the code that is proved to
//! meet them, so it says what an answer on an unordered run is, where no
//! meaning does.
//!
//! Numbers there have no end; here no sum exceeds the length of the run, and no
//! difference is below zero.

use crate::Place;

/// The key at a position, 0 past the end (`getD`).
fn key_at(keys: &[u64], at: usize) -> u64 {
    keys.get(at).copied().unwrap_or(0)
}

/// Halving, n times over: of the `size` keys from `base` on, the half in which
/// the last key that is at most `key` stands.
pub fn halved(n: usize, keys: &[u64], key: u64, base: usize, size: usize) -> usize {
    if n == 0 {
        return base;
    }
    let half = size / 2;
    let up = key_at(keys, base + half) <= key;
    let next = if up { base + half } else { base };
    halved(n - 1, keys, key, next, size - half)
}

/// Which of four quarters is kept: as many of the last three as begin with a
/// key that is at most `key`.
pub fn quarter_of(keys: &[u64], key: u64, base: usize, width: usize) -> usize {
    let begins = [
        base + width,
        base + width + width,
        base + width + width + width,
    ];
    let passed = begins.into_iter().filter(|at| key_at(keys, *at) <= key);
    passed.count()
}

/// Quartering, n times over, and halving where fewer than four are left.
pub fn quartered(n: usize, keys: &[u64], key: u64, base: usize, size: usize) -> usize {
    if n == 0 || size < 4 {
        return halved(size, keys, key, base, size);
    }
    let width = size / 4;
    let next = base + width * quarter_of(keys, key, base, width);
    quartered(n - 1, keys, key, next, size - 3 * width)
}

/// Where a key stands, or would stand, from the key found by quartering.
pub fn place_at(at: usize, found: u64, key: u64) -> Place {
    if found < key {
        Place {
            at: at + 1,
            held: false,
        }
    } else {
        Place {
            at,
            held: found == key,
        }
    }
}

/// The place of a key among the first `count` keys; none are searched where
/// the run has fewer.
pub fn place_in(keys: &[u64], count: usize, key: u64) -> Place {
    if 0 < count && count <= keys.len() {
        let at = quartered(count, keys, key, 0, count);
        place_at(at, key_at(keys, at), key)
    } else {
        Place { at: 0, held: false }
    }
}
