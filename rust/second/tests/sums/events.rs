//! "Claims, replies and lists of events give what they gave before": told by
//! sets of keys, which have no sums.

use std::collections::BTreeSet;

use super::common::*;
use super::holds;
use super::sets::{Table, beat_of_set, learn_of_set, reply_of_set, round_of_sets};
use second::*;

/// A kiosk, and the same told by sets: keys, and claims by rank.
#[derive(Default)]
struct Told {
    keys: BTreeSet<u64>,
    table: Table,
}

impl Told {
    fn held(&self) -> Vec<u64> {
        self.keys.iter().copied().collect()
    }

    fn take(&mut self, claim: Claim) {
        learn_of_set(&mut self.keys, claim);
        self.table.insert(claim.rank());
        if self.table.len() > 64 {
            self.table.pop_last();
        }
    }

    /// The claims written, and how many pending ones wait (document 02, slip
    /// 8).
    fn beat(&mut self) -> (Vec<Claim>, usize) {
        beat_of_set(&self.keys, &mut self.table)
    }
}

/// Some kiosks, the same told by sets, and the claims made so far.
struct List {
    kiosks: Vec<RawNode>,
    told: Vec<Told>,
    made: Vec<Claim>,
}

impl List {
    fn of_kiosks(count: usize) -> List {
        List {
            kiosks: vec![RawNode::empty(); count],
            told: (0..count).map(|_| Told::default()).collect(),
            made: Vec::new(),
        }
    }

    fn enter(&mut self, at: usize, key: u64) {
        let entered = enter(self.kiosks[at].store.clone(), key);
        assert_eq!(entered.number, 0);
        self.kiosks[at].store = entered.store;
        self.told[at].keys.insert(key);
    }

    fn make(&mut self, at: usize, rng: &mut Rng) {
        let held = self.told[at].held();
        if !held.is_empty() {
            let first = rng.below(held.len());
            let last = first + rng.below(held.len() - first);
            let made = make(&self.kiosks[at].store, first, last);
            assert_eq!(made.claim, claim_of(&held[first..=last]));
            self.made.push(made.claim);
        }
    }

    fn deliver(&mut self, at: usize, claim: Claim, to_reply: bool) {
        if to_reply {
            let replied = reply(self.kiosks[at].store.clone(), claim);
            let keys = &mut self.told[at].keys;
            learn_of_set(keys, claim);
            let (asks, expected) = reply_of_set(keys, claim);
            let (count, claims) = replied.claims();
            assert_eq!((replied.number, &claims[..count]), (0, &expected[..]));
            assert_eq!(matches!(replied.reply, Some(Reply::Ask(_))), asks);
            self.made.extend(expected);
            self.kiosks[at].store = replied.store;
        } else {
            let taken = take(self.kiosks[at].clone(), claim);
            assert_eq!(taken.number, 0);
            self.kiosks[at] = taken.node;
            self.told[at].take(claim);
        }
    }

    /// So many claims delivered to one table.
    fn flood(&mut self, at: usize, claims: usize, rng: &mut Rng) {
        for _ in 0..claims {
            let claim = *rng.pick(&self.made);
            self.deliver(at, claim, false);
        }
    }

    fn beat(&mut self, at: usize, ways: &Ways) {
        let mut run = vec![7; BEAT_WORDS];
        let beaten = beat(self.kiosks[at].clone(), &mut run);
        let words = run[..4 * beaten.written].chunks(4);
        let claims: Vec<Claim> = words
            .map(|it| c(it[0], it[1], it[2], it[3] as u16))
            .collect();
        let (expected, waiting) = self.told[at].beat();
        assert_eq!((beaten.number, &claims), (0, &expected));
        ways.saw(if waiting > 0 {
            "some wait"
        } else {
            "none waits"
        });
        self.made.extend(claims);
        self.kiosks[at] = beaten.node;
    }

    fn round(&mut self, left: usize, right: usize) {
        let [one, other] = [left, right].map(|at| self.kiosks[at].store.clone());
        let mut records = vec![Delivery::default(); 2 * LIMIT];
        let (rounded, false_matches) = round_watched(one, other, &mut records);
        let mut stores = [left, right].map(|at| self.told[at].keys.clone());
        let (expected, false_told) = round_of_sets(&mut stores);
        let delivered = records[..rounded.deliveries].iter();
        let delivered: Vec<(u8, Claim)> = delivered.map(|it| (it.sender, it.claim)).collect();
        assert_eq!((rounded.number, delivered), (0, expected));
        assert_eq!(false_matches, false_told);
        let claims = records[..rounded.deliveries].iter().map(|it| it.claim);
        self.made.extend(claims);
        self.kiosks[left].store = rounded.left;
        self.kiosks[right].store = rounded.right;
        [self.told[left].keys, self.told[right].keys] = stores;
    }

    /// Each kiosk is what sets tell of it, with the sums of its keys.
    fn agree(&self) {
        for (kiosk, told) in self.kiosks.iter().zip(&self.told) {
            holds(&kiosk.store, &told.held());
            let table: Vec<_> = kiosk.table().iter().map(Claim::rank).collect();
            assert!(table.iter().eq(&told.table));
            assert!(questions::q1_node_in_order(kiosk));
        }
    }
}

#[test]
fn lists_of_events() {
    let ways = Ways::default();
    for_seeds(60, |rng| {
        let density = rng.density();
        let mut list = List::of_kiosks(3);
        for _ in 0..150 {
            let at = rng.below(3);
            match rng.below(12) {
                0..4 => list.enter(at, rng.key(density)),
                4 => list.make(at, rng),
                5..9 if !list.made.is_empty() => {
                    let claim = *rng.pick(&list.made);
                    list.deliver(at, claim, rng.one_in(2));
                }
                9 => list.beat(at, &ways),
                10 => list.round(at, (at + 1 + rng.below(2)) % 3),
                11 if !list.made.is_empty() && rng.one_in(3) => {
                    list.flood(at, 24, rng);
                    list.beat(at, &ways);
                }
                _ => list.enter(at, rng.next()),
            }
            list.agree();
        }
    });
    ways.all_of(&["some wait", "none waits"]);
}
