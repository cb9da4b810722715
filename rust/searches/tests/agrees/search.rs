//! Searches of one run, by the proved calls and by the definition.

use std::cmp::Ordering;
use std::fmt;

use searches::{Place, definition, place_in, places_in};
use tests::cases::Seen;
use tests::draw::Rng;

use crate::runs::{SHAPES, Shape};

/// The first `count` keys of a run, or none where it has fewer.
#[derive(Clone, Copy)]
pub struct Search<'a> {
    pub shape: Shape,
    pub keys: &'a [u64],
    pub count: usize,
}

impl fmt::Display for Search<'_> {
    fn fmt(&self, out: &mut fmt::Formatter<'_>) -> fmt::Result {
        let (shape, length) = (self.shape.name(), self.keys.len());
        write!(out, "{shape}: {length} keys, count {}", self.count)
    }
}

/// What every test must have met, beside each shape.
const WAYS: [&str; 10] = [
    "no count",
    "a part of the run",
    "the whole run",
    "a count beyond the run",
    "held",
    "missing",
    "lo below hi",
    "lo above hi",
    "lo = hi",
    BY_MEANING,
];

const BY_MEANING: &str = "as binary search tells";

/// The largest number of 16 bits, and what only longer runs meet.
pub const WORD: usize = 65_535;
pub const PAST: &str = "a position past 65,535";
pub const LEAVES_WORD: &str = "a turn leaves 65,535 keys";
pub const LEAVES_MORE: &str = "a turn leaves 65,536 keys";

/// Fails where one of these ways, or of those of every test, was gone less than
/// a hundred times.
pub fn expect(seen: &Seen, ways: &[&str]) {
    let shapes = SHAPES.iter().map(|shape| shape.name());
    let ways: Vec<&str> = shapes.chain(WAYS).chain(ways.iter().copied()).collect();
    seen.expect(&[], &ways, 100);
}

impl Search<'_> {
    /// Seeks these keys, each by itself, with itself, with the next one and
    /// with any other: all calls tell the definition's places.
    pub fn agrees(&self, sought: &[u64], rng: &mut Rng, seen: &mut Seen) {
        let Search { keys, count, .. } = *self;
        let places: Vec<Place> = sought
            .iter()
            .map(|key| definition::place_in(keys, count, *key))
            .collect();
        for (at, (key, place)) in sought.iter().zip(&places).enumerate() {
            assert_eq!(place_in(keys, count, *key), *place, "{self}, key {key}");
            seen.all(self.ways(place));
            self.has_its_meaning(*key, *place, seen);
            for other in [at, (at + 1) % sought.len(), rng.below(sought.len())] {
                let other_key = sought[other];
                let told = places_in(keys, count, *key, other_key);
                let both = (*place, places[other]);
                assert_eq!(told, both, "{self}, keys {key} and {other_key}");
                seen.way(order(*key, other_key));
            }
        }
    }

    /// The place of a key among strictly rising ones, by what that means.
    fn has_its_meaning(&self, key: u64, place: Place, seen: &mut Seen) {
        if !self.shape.rises() || self.count > self.keys.len() {
            return;
        }
        let meant = match self.keys[..self.count].binary_search(&key) {
            Ok(at) => Place { at, held: true },
            Err(at) => Place { at, held: false },
        };
        assert_eq!(place, meant, "{self}, key {key}");
        seen.way(BY_MEANING);
    }

    fn ways(&self, place: &Place) -> Vec<&'static str> {
        let standing = if place.held { "held" } else { "missing" };
        let mut ways = vec![self.shape.name(), self.extent(), standing];
        if place.at > WORD {
            ways.push(PAST);
        }
        // What one turn of quartering leaves.
        let left = self.count - 3 * (self.count / 4);
        if self.count <= self.keys.len() && left == WORD {
            ways.push(LEAVES_WORD);
        }
        if self.count <= self.keys.len() && left == WORD + 1 {
            ways.push(LEAVES_MORE);
        }
        ways
    }

    fn extent(&self) -> &'static str {
        match self.count.cmp(&self.keys.len()) {
            _ if self.count == 0 => "no count",
            Ordering::Less => "a part of the run",
            Ordering::Equal => "the whole run",
            Ordering::Greater => "a count beyond the run",
        }
    }
}

fn order(lo: u64, hi: u64) -> &'static str {
    match lo.cmp(&hi) {
        Ordering::Less => "lo below hi",
        Ordering::Greater => "lo above hi",
        Ordering::Equal => "lo = hi",
    }
}
