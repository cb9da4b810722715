//! Runs of keys, ordered and not.

use tests::draw::Rng;

/// How the keys of a run follow each other.
#[derive(Clone, Copy, PartialEq)]
pub enum Shape {
    Rising,
    FromFirst,
    ToLast,
    Twice,
    Drawn,
    Few,
    Falling,
    Equal,
    Saw,
}

use Shape::*;

pub const SHAPES: [Shape; 9] = [
    Rising, FromFirst, ToLast, Twice, Drawn, Few, Falling, Equal, Saw,
];

impl Shape {
    pub fn name(self) -> &'static str {
        match self {
            Rising => "rising",
            FromFirst => "rising from 0, many neighbours",
            ToLast => "rising to the largest, no neighbours",
            Twice => "rising, each key twice",
            Drawn => "drawn",
            Few => "drawn from eight",
            Falling => "falling",
            Equal => "all equal",
            Saw => "saw-toothed",
        }
    }

    /// Strictly: then a place has a meaning beside its definition.
    pub fn rises(self) -> bool {
        [Rising, FromFirst, ToLast].contains(&self)
    }

    pub fn run(self, length: usize, rng: &mut Rng) -> Vec<u64> {
        let n = length as u64;
        match self {
            Rising => rising(length, rng),
            FromFirst => (0..n).map(|at| at + at / 3).collect(),
            ToLast => (0..n).rev().map(|at| u64::MAX - 2 * at).collect(),
            Twice => (0..n).map(|at| at / 2 * 2).collect(),
            Drawn => (0..n).map(|_| rng.next()).collect(),
            Few => (0..n).map(|_| rng.next() % 8).collect(),
            Falling => (0..n).rev().map(|at| 3 * at + 1).collect(),
            Equal => vec![rng.next(); length],
            // Five teeth, of which the last is cut off.
            Saw => (0..n).map(|at| 2 * (at % (n / 5 + 1))).collect(),
        }
    }
}

/// So many keys from anywhere to anywhere.
fn rising(length: usize, rng: &mut Rng) -> Vec<u64> {
    let most = u64::MAX / (length as u64 + 1);
    let mut last = 0;
    (0..length)
        .map(|_| {
            last += 1 + rng.next() % most;
            last
        })
        .collect()
}

/// A key and its neighbours.
fn around(key: u64) -> [u64; 3] {
    [key.wrapping_sub(1), key, key.wrapping_add(1)]
}

/// Every key of a run with its neighbours, 0 and the largest.
pub fn every_key(keys: &[u64]) -> Vec<u64> {
    let held = keys.iter().copied().flat_map(around);
    held.chain([0, u64::MAX]).collect()
}

/// Many keys, where a search of the first `count` of a run may go wrong: those
/// at both ends and where quarters begin, some from the whole run, each with
/// its neighbours; 0, the largest, and any.
pub fn many_keys(keys: &[u64], count: usize, rng: &mut Rng) -> Vec<u64> {
    let mut found = vec![0, u64::MAX];
    found.extend((0..16).map(|_| rng.next()));
    if !keys.is_empty() {
        let within = count.clamp(1, keys.len());
        let mut places = vec![0, within - 1, keys.len() - 1];
        places.extend((0..16).map(|_| rng.below(keys.len())));
        places.extend(quarters(within, || 0));
        places.extend(quarters(within, || 3));
        places.extend(quarters(within, || rng.below(4)));
        let held = places.into_iter().map(|at| keys[at]);
        found.extend(held.flat_map(around));
    }
    found
}

/// Where quarters begin on one way of a search of so many keys, and the keys
/// that are left at its end; which quarter is kept is told each time.
fn quarters(count: usize, mut kept: impl FnMut() -> usize) -> Vec<usize> {
    let (mut base, mut size) = (0, count);
    let mut found = Vec::new();
    while size > 3 {
        let width = size / 4;
        found.extend([1, 2, 3].map(|quarter| base + quarter * width));
        base += kept() * width;
        size -= 3 * width;
    }
    found.extend(base..base + size);
    found
}
