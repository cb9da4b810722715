//! Kiosks and their events (document 01, "Lists of events"): each call gives its
//! number, and keeps what it made.

use std::collections::BTreeSet;

use super::{BEAT_WORDS, LIMIT, c};
use second::*;

/// The kiosks, the claims made so far and the keys entered.
pub struct List {
    pub kiosks: Vec<RawNode>,
    pub made: Vec<Claim>,
    pub entered: BTreeSet<u64>,
}

impl List {
    pub fn of_kiosks(count: usize) -> List {
        List {
            kiosks: vec![RawNode::empty(); count],
            made: Vec::new(),
            entered: BTreeSet::new(),
        }
    }

    /// "a key entered into one kiosk's store". "A key is entered when a call to
    /// enter it wasn't refused".
    pub fn enter(&mut self, at: usize, key: u64) -> u8 {
        let entered = enter(self.kiosks[at].store.clone(), key);
        self.kiosks[at].store = entered.store;
        if entered.number == 0 {
            self.entered.insert(key);
        }
        entered.number
    }

    /// "a claim made of positions i to j of one kiosk's store".
    pub fn make(&mut self, at: usize, first: usize, last: usize) -> u8 {
        let made = make(&self.kiosks[at].store, first, last);
        if made.number == 0 {
            self.made.push(made.claim);
        }
        made.number
    }

    /// "a claim delivered to one kiosk, either to the reply, which changes its
    /// store, or to the table".
    pub fn deliver(&mut self, at: usize, claim: Claim, to_reply: bool) -> u8 {
        if !to_reply {
            let taken = take(self.kiosks[at].clone(), claim);
            self.kiosks[at] = taken.node;
            return taken.number;
        }
        let replied = reply(self.kiosks[at].store.clone(), claim);
        let (count, claims) = replied.claims();
        self.made.extend(&claims[..count]);
        self.kiosks[at].store = replied.store;
        replied.number
    }

    /// "a beat of one kiosk".
    pub fn beat(&mut self, at: usize) -> u8 {
        let mut run = vec![0; BEAT_WORDS];
        let beaten = beat(self.kiosks[at].clone(), &mut run);
        let claims = run[..4 * beaten.written].chunks(4);
        self.made
            .extend(claims.map(|it| c(it[0], it[1], it[2], it[3] as u16)));
        self.kiosks[at] = beaten.node;
        beaten.number
    }

    /// "a round of two different kiosks"; and whether no match was false.
    pub fn round(&mut self, left: usize, right: usize) -> (u8, bool) {
        let [one, other] = [left, right].map(|at| self.kiosks[at].store.clone());
        let mut records = vec![Delivery::default(); 2 * LIMIT];
        let (rounded, false_matches) = round_watched(one, other, &mut records);
        let delivered = &records[..rounded.deliveries];
        self.made
            .extend(delivered.iter().map(|record| record.claim));
        self.kiosks[left].store = rounded.left;
        self.kiosks[right].store = rounded.right;
        (rounded.number, false_matches.is_empty())
    }
}
