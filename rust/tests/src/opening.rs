//! What a new kiosk costs (document 02, slip 5): its numbers, read off the
//! slip's sentences once more, and the ways that a number of keys goes; keys of
//! several kinds to open a kiosk with; pairs of stores of which one has all the
//! keys of the other; and what the deliveries of their rounds are replied to
//! with.

use std::collections::BTreeSet;

use second::{Claim, Delivery, RawStore, Reply, reply};

use crate::draw::{Rng, claim_of};

const LIMIT: usize = RawStore::LIMIT;

// ---- numbers of keys ----

/// "the number of deliveries" for each number of keys up to the limit, each
/// from those before it: "Let E(1), E(2), E(3) be 1. For n of 4 or 5, E(n) is
/// 2 + E(n − 2). For greater n it is 2 + E(z + 1) + E(n − 3 − z), with
/// z = (n − 2) div 2." And "none for n = 0".
pub fn costs_by_the_slip() -> Vec<usize> {
    let mut e = vec![0, 1, 1, 1];
    for n in e.len()..=LIMIT {
        let z = (n - 2) / 2;
        e.push(match n {
            4 | 5 => 2 + e[n - 2],
            _ => 2 + e[z + 1] + e[n - 3 - z],
        });
    }
    e
}

/// Which of these sentences a number goes by.
pub const SENTENCES: [&str; 4] = [
    "no key",
    "one to three keys",
    "four or five keys",
    "more keys than five",
];

pub const MOST: &str = "all the keys that fit";

/// How it is above the limit, seen as a number of 64 bits.
pub const ABOVE: [&str; 4] = [
    "17, one too many",
    "17, the low 16 bits would do",
    "17, the low 32 bits would do",
    "17, no low bits would do",
];

/// The ways of a number of keys that is answered with this number.
pub fn ways(n: u64, number: u8) -> Vec<&'static str> {
    let limit = LIMIT as u64;
    let above = if n > limit { 17 } else { 0 };
    assert_eq!(number, above, "the only question of this call");
    let [none, few, four_or_five, more] = SENTENCES;
    let [one_too_many, low_16, low_32, far] = ABOVE;
    vec![match n {
        0 => none,
        1..=3 => few,
        4 | 5 => four_or_five,
        _ if n < limit => more,
        _ if n == limit => return vec![more, MOST],
        _ if n == limit + 1 => one_too_many,
        _ if n & u64::from(u32::MAX) <= limit => low_32,
        _ if n & u64::from(u16::MAX) <= limit => low_16,
        _ => far,
    }]
}

// ---- keys ----

/// So many keys that rise, of one kind.
pub type Kind = fn(&mut Rng, usize) -> Vec<u64>;

/// "whichever keys they are"
pub const KINDS: [Kind; 8] = [
    anywhere,
    with_both_ends,
    lowest,
    highest,
    neighbours,
    close,
    fours,
    sums,
];

/// So many keys: as many of the certain ones, then those drawn.
fn drawn(count: usize, certain: &[u64], mut draw: impl FnMut() -> u64) -> Vec<u64> {
    let mut keys: BTreeSet<u64> = certain.iter().copied().take(count).collect();
    while keys.len() < count {
        keys.insert(draw());
    }
    keys.into_iter().collect()
}

fn anywhere(rng: &mut Rng, count: usize) -> Vec<u64> {
    drawn(count, &[], || rng.next())
}

fn with_both_ends(rng: &mut Rng, count: usize) -> Vec<u64> {
    drawn(count, &[0, u64::MAX], || rng.next())
}

fn lowest(_: &mut Rng, count: usize) -> Vec<u64> {
    (0..count as u64).collect()
}

fn highest(_: &mut Rng, count: usize) -> Vec<u64> {
    (0..count as u64).rev().map(|key| !key).collect()
}

fn neighbours(rng: &mut Rng, count: usize) -> Vec<u64> {
    let first = rng.next() >> 1;
    (first..).take(count).collect()
}

/// So many bits tell more keys apart than fit.
const BITS: u32 = 12;

const _: () = assert!(LIMIT < 1 << BITS);

/// All but the low bits are those of every other key, but for the ends.
fn close(rng: &mut Rng, count: usize) -> Vec<u64> {
    let high = rng.next() << BITS;
    drawn(count, &[0, u64::MAX], || {
        high | rng.next() >> (u64::BITS - BITS)
    })
}

/// Runs of four from a multiple of four on, whose XOR is 0; the first run
/// without some of its keys, so that spans begin anywhere in one.
fn fours(rng: &mut Rng, count: usize) -> Vec<u64> {
    let without = rng.below(4);
    let runs = drawn((count + without).div_ceil(4), &[], || rng.next() >> 2);
    let keys = runs.iter().flat_map(|run| 4 * run..=4 * run + 3);
    keys.skip(without).take(count).collect()
}

/// The XORs of some of a few keys, so that each is that of many others.
fn sums(rng: &mut Rng, count: usize) -> Vec<u64> {
    let few: Vec<u64> = (0..BITS).map(|_| rng.next()).collect();
    drawn(count, &[], || {
        let some = few.iter().filter(|_| rng.one_in(2));
        some.fold(0, |sum, key| sum ^ key)
    })
}

// ---- stores of which one has all keys of the other ----

/// Which store is the fuller one.
pub const LEFT_FULLER: &str = "the left store is fuller";
pub const RIGHT_FULLER: &str = "the right store is fuller";
pub const EQUAL: &str = "both stores are equal";

pub const FULLER: [&str; 3] = [LEFT_FULLER, RIGHT_FULLER, EQUAL];

impl Rng {
    /// Keys below 16, or of any kind: few, some, many or all that fit.
    fn keys_for_nested(&mut self) -> Vec<u64> {
        if self.one_in(3) {
            let odds = self.pick(&[2, 4, 16]);
            return (0..16).filter(|_| !self.one_in(odds)).collect();
        }
        let count = match self.below(8) {
            0..=2 => self.below(12),
            3..=5 => self.below(65),
            6 => self.below(LIMIT + 1),
            _ => LIMIT - self.below(2),
        };
        self.pick(&KINDS)(self, count)
    }

    /// Some of these keys: none, few, half, most, all but one, all.
    fn some_of(&mut self, keys: &[u64]) -> Vec<u64> {
        let mut some = keys.to_vec();
        match self.below(8) {
            0 => some.clear(),
            1 => {}
            2 if !some.is_empty() => drop(some.remove(self.below(keys.len()))),
            _ => {
                let (odds, drawn) = (self.pick(&[2, 8]), self.one_in(2));
                some.retain(|_| self.one_in(odds) == drawn);
            }
        }
        some
    }

    /// The keys of two stores, one of which has all keys of the other.
    pub fn nested(&mut self) -> [Vec<u64>; 2] {
        let all = self.keys_for_nested();
        let some = self.some_of(&all);
        if self.one_in(2) {
            return [all, some];
        }
        [some, all]
    }
}

// ---- replies ----

/// What a delivery is replied to with.
pub const REPLIES: [&str; 4] = [
    "a match",
    "an ask",
    "a help with one claim",
    "a help with two",
];

/// Nothing but cnt tells that a claim is of other keys than those held: own has
/// the same ends and the same sum.
pub const BY_CNT_ALONE: &str = "told by cnt alone";

/// What each of a round's deliveries is replied to with, told one after the
/// other to the stores that the round was given.
pub fn replies(mut stores: [RawStore; 2], deliveries: &[Delivery]) -> Vec<&'static str> {
    let [matched, asked, one, two] = REPLIES;
    let mut told = Vec::new();
    for Delivery { sender, claim } in deliveries {
        let store = &mut stores[1 - usize::from(*sender)];
        let replied = reply(store.clone(), *claim);
        *store = replied.store;
        told.push(match replied.reply {
            Some(Reply::Match) => matched,
            Some(Reply::Ask(_)) => asked,
            Some(Reply::One(_)) => one,
            Some(Reply::Two(..)) => two,
            None => panic!("refused {}: {claim:?}", replied.number),
        });
        let own = own_claim(store, claim);
        if own != *claim && own.sum == claim.sum {
            told.push(BY_CNT_ALONE);
        }
    }
    told
}

/// The claim of a store from lo to hi, both of which it holds.
fn own_claim(store: &RawStore, Claim { lo, hi, .. }: &Claim) -> Claim {
    let ends = lo..=hi;
    let own = store.held().iter().copied();
    claim_of(&own.filter(|key| ends.contains(&key)).collect::<Vec<u64>>())
}
