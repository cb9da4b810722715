//! The places of a request's words (crates/drill/src/main.rt tells them). In
//! files by what a call is about: for each call a request beside the reply that
//! the second program expects, the answer in its places, and every other word
//! and byte as it was given.

use second::*;

use crate::draw::claims_in;
use crate::drill::{Call, Card, MOST_BYTES, MOST_WORDS};
use crate::left_out;
use crate::middle::{self, ADDED};
use crate::opening;
use crate::replies;
use crate::sheet;
use crate::sums;

mod nodes;
mod requests;
mod rounds;
mod stores;
mod wire;

pub use nodes::*;
pub use requests::*;
pub use rounds::*;
pub use stores::*;
pub use wire::*;

const LIMIT: usize = RawStore::LIMIT;

/// The words of a store: its count, then its keys, then as many sums.
const STORE: usize = 1 + 2 * LIMIT;

const NUMBER: usize = 0;
const COUNT: usize = 1;
const FIRST: usize = 2;
const SECOND: usize = 3;
const CLAIMS: usize = 4;
const SENDER: usize = 8;
const LEFT: usize = 20;
const RIGHT: usize = LEFT + STORE;
const TABLE: usize = RIGHT + 1;
pub const PAST_STORE: usize = RIGHT;
pub const PAST_NODE: usize = TABLE + 4 * PENDING;
pub const PAST_BOTH: usize = RIGHT + STORE;

/// The words of a record.
const RECORD: usize = 5;

/// A request, the reply expected, and what it shows.
pub struct Case {
    pub call: Call,
    pub given: Card,
    pub expected: Card,
    /// The first question answered no, 0 if there is none.
    pub number: u8,
    /// Ways of the rule that this case goes, to be counted.
    pub ways: Vec<&'static str>,
}

impl Case {
    /// Remembers that the case goes some way.
    pub fn on(mut self, way: &'static str, goes: bool) -> Case {
        if goes {
            self.ways.push(way);
        }
        self
    }

    /// Remembers the ways that a case goes if it isn't refused.
    fn on_all(mut self, ways: Vec<&'static str>) -> Case {
        if self.number == 0 {
            self.ways.extend(ways);
        }
        self
    }

    /// Remembers the ways of a claim that a store or node in order hears: 16
    /// refuses it if they say so, and only then.
    fn on_hearing(mut self, ways: Vec<&'static str>) -> Case {
        if self.number != 1 {
            let refused = middle::is_refused(&ways);
            assert_eq!(self.number == 16, refused, "16 by {ways:?}");
        }
        if self.number == 0 || self.number == 16 {
            self.ways.extend(ways);
        }
        self
    }

    /// Remembers if a node is refused by claims that fail 16 alone.
    fn on_node(self, by_16_alone: bool) -> Case {
        assert!(!by_16_alone || self.number == 1, "such a node gets 1");
        self.on(left_out::NODE, by_16_alone)
    }

    /// Remembers how sums are wrong, where nothing else given is out of order.
    fn on_sums(mut self, ways: Vec<&'static str>) -> Case {
        assert!(ways.is_empty() || self.number == 1, "1 where {ways:?}");
        self.ways.extend(ways);
        self
    }

    /// The reply to a call that is refused: "A refusal returns its number, the
    /// given store or node, and zeros for any claim or count." What is lent
    /// stays as it is.
    pub fn refused_by(&self, number: u8) -> Card {
        let mut card = self.given.clone();
        card.answer(number, 0);
        let told = match self.call {
            Call::Make => CLAIMS..CLAIMS + 4,
            Call::Reply => CLAIMS + 4..CLAIMS + 12,
            Call::RoundRecord => CLAIMS..SENDER + 1,
            Call::ReadFrame => CLAIMS..CLAIMS + 16,
            _ => CLAIMS..CLAIMS,
        };
        card.words[told].fill(0);
        card
    }
}

fn words_of(claim: &Claim) -> [u64; 4] {
    [claim.lo, claim.hi, claim.sum, u64::from(claim.cnt)]
}

fn claim_of(words: &[u64]) -> Claim {
    Claim::new(words[0], words[1], words[2], words[3] as u16)
}

impl Card {
    /// So many words and bytes that mean nothing: all that a call doesn't
    /// write must come back so.
    pub fn noise(words: usize, bytes: usize, mut noise: impl FnMut() -> u64) -> Card {
        Card {
            words: (0..words).map(|_| noise()).collect(),
            bytes: (0..bytes).map(|_| noise() as u8).collect(),
        }
    }

    pub fn put_claim(&mut self, at: usize, claim: &Claim) {
        self.words[at..at + 4].copy_from_slice(&words_of(claim));
    }

    fn put_store(&mut self, at: usize, store: &RawStore) {
        let (count, places) = self.words[at..at + STORE].split_at_mut(1);
        let (keys, sums) = places.split_at_mut(LIMIT);
        count[0] = store.count as u64;
        keys.copy_from_slice(&store.keys[..]);
        sums.copy_from_slice(&store.sums[..]);
    }

    fn store(&self, at: usize) -> RawStore {
        let places = |from: usize| {
            let places = self.words[from..from + LIMIT].to_vec();
            places.try_into().expect("as many places")
        };
        RawStore {
            keys: places(at + 1),
            sums: places(at + 1 + LIMIT),
            count: self.words[at] as usize,
        }
    }

    fn put_node(&mut self, node: &RawNode) {
        self.put_store(LEFT, &node.store);
        self.words[RIGHT] = node.pending_count as u64;
        for (at, claim) in node.pending.iter().enumerate() {
            self.put_claim(TABLE + 4 * at, claim);
        }
    }

    /// The node of a reply.
    pub fn node(&self) -> RawNode {
        let places = self.words[TABLE..PAST_NODE].chunks_exact(4);
        let pending: Vec<Claim> = places.map(claim_of).collect();
        RawNode {
            store: self.store(LEFT),
            pending: pending.try_into().expect("64 places"),
            pending_count: self.words[RIGHT] as usize,
        }
    }

    /// The store, or a round's left one, of a reply.
    pub fn left(&self) -> RawStore {
        self.store(LEFT)
    }

    /// A round's right store of a reply.
    pub fn right(&self) -> RawStore {
        self.store(RIGHT)
    }

    pub fn number(&self) -> u8 {
        self.words[NUMBER] as u8
    }

    pub fn count(&self) -> usize {
        self.words[COUNT] as usize
    }

    /// The claim at one of the four places.
    pub fn claim(&self, at: usize) -> Claim {
        claim_of(&self.words[CLAIMS + 4 * at..])
    }

    /// The claims that a beat wrote.
    pub fn beat_claims(&self) -> Vec<Claim> {
        let places = self.words[PAST_NODE..].chunks_exact(4);
        places.take(self.count()).map(claim_of).collect()
    }

    /// The deliveries that a round wrote.
    pub fn deliveries(&self) -> Vec<Delivery> {
        let records = self.words[PAST_BOTH..].chunks_exact(RECORD);
        let delivery = |record: &[u64]| Delivery {
            sender: record[0] as u8,
            claim: claim_of(&record[1..]),
        };
        records.take(self.count()).map(delivery).collect()
    }

    fn answer(&mut self, number: u8, count: usize) {
        self.words[NUMBER] = u64::from(number);
        self.words[COUNT] = count as u64;
    }
}

/// A case whose arguments stand in the given card, and whose expected one is
/// written by `answer`, which returns the number.
fn case(call: Call, given: Card, answer: impl FnOnce(&mut Card) -> u8) -> Case {
    let mut expected = given.clone();
    let number = answer(&mut expected);
    Case {
        call,
        given,
        expected,
        number,
        ways: Vec::new(),
    }
}

type Noise<'a> = &'a mut dyn FnMut() -> u64;
