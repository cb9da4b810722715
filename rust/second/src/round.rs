//! A round of two stores (document 01, "A round").

use std::collections::VecDeque;

use crate::claim::Claim;
use crate::questions;
use crate::store::{RawStore, Reply, Store};

/// One transcript record: a claim delivered, and by whom it was sent.
#[derive(Clone, Copy, Debug, Default, PartialEq, Eq)]
pub struct Delivery {
    /// 0 left, 1 right.
    pub sender: u8,
    /// The claim, as it was made.
    pub claim: Claim,
}

/// What [`round`] returns.
#[derive(Clone, Debug, PartialEq, Eq)]
pub struct Rounded {
    /// The first question answered no, 0 if there is none.
    pub number: u8,
    /// The left store after the round; refused, the given one.
    pub left: RawStore,
    /// The right store after the round; refused, the given one.
    pub right: RawStore,
    /// How many deliveries there were; refused, 0.
    pub deliveries: usize,
}

/// Runs a round, writing each delivery to the next lent record. Asks 1, 8, 9.
pub fn round(left: RawStore, right: RawStore, records: &mut [Delivery]) -> Rounded {
    judge_and_run::<()>(left, right, records).0
}

/// A round, and the positions of those records whose claim was matched
/// falsely, in rising order; refused, none.
pub fn round_watched(
    left: RawStore,
    right: RawStore,
    records: &mut [Delivery],
) -> (Rounded, Vec<usize>) {
    judge_and_run::<Vec<u64>>(left, right, records)
}

/// Whether a match of a claim is false: "when the claim was made, its sender
/// held other keys from lo to hi than the receiver holds at the match, what
/// the reply added counted in".
///
/// Both stores are in order and the match happened, so that both hold the
/// claim's ends.
pub fn is_false_match(claim: &Claim, sender_then: &RawStore, receiver_after: &RawStore) -> bool {
    fn within<'a>(store: &'a RawStore, claim: &Claim) -> impl Iterator<Item = &'a u64> {
        let ends = claim.lo..=claim.hi;
        store.held().iter().filter(move |key| ends.contains(key))
    }
    !within(sender_then, claim).eq(within(receiver_after, claim))
}

/// What is kept of the sender's span with each claim that waits.
///
/// Nothing (the unit) where nobody asks for false matches, so that a round
/// costs no copies for them.
pub(crate) trait Memory {
    fn of(store: &Store, claim: &Claim) -> Self;
    fn same(&self, store: &Store, claim: &Claim) -> bool;
}

impl Memory for () {
    fn of(_: &Store, _: &Claim) -> Self {}

    fn same(&self, _: &Store, _: &Claim) -> bool {
        true
    }
}

impl Memory for Vec<u64> {
    fn of(store: &Store, claim: &Claim) -> Self {
        store.span(claim.lo, claim.hi).to_vec()
    }

    fn same(&self, store: &Store, claim: &Claim) -> bool {
        self == store.span(claim.lo, claim.hi)
    }
}

fn judge_and_run<M: Memory>(
    left: RawStore,
    right: RawStore,
    records: &mut [Delivery],
) -> (Rounded, Vec<usize>) {
    if let Err(number) = questions::of_round(&left, &right, records.len()) {
        let refused = Rounded {
            number,
            left,
            right,
            deliveries: 0,
        };
        return (refused, Vec::new());
    }
    let mut stores = [Store::from_raw(left), Store::from_raw(right)];
    let (deliveries, false_matches) = run::<M>(&mut stores, records);
    let [left, right] = stores.map(Store::into_raw);
    let rounded = Rounded {
        number: 0,
        left,
        right,
        deliveries,
    };
    (rounded, false_matches)
}

/// The round itself, questions 1, 8 and 9 answered yes.
///
/// No store outgrows its places: both stay within the union, for the middle
/// key of a claim of three is one that its sender held. Nor do the records
/// run out: within either half of a round no key is an end of two claims of
/// help or opening, and a claim with two ends is asked about at most once,
/// one with a single end never; so each half has at most as many deliveries
/// as the union has keys.
pub(crate) fn run<M: Memory>(
    stores: &mut [Store; 2],
    records: &mut [Delivery],
) -> (usize, Vec<usize>) {
    let mut deliveries = 0;
    let mut false_matches = Vec::new();
    let mut waiting = VecDeque::new();
    // "First the left one's whole claim …. When none waits, the right one's
    // whole claim, made then, goes to the left one likewise."
    for opener in [0, 1] {
        let store = &stores[opener];
        if let Some(claim) = store.whole() {
            waiting.push_back((opener, claim, M::of(store, &claim)));
        }
        while let Some((sender, claim, memory)) = waiting.pop_front() {
            records[deliveries] = Delivery {
                sender: sender as u8,
                claim,
            };
            let receiver = 1 - sender;
            let store = &mut stores[receiver];
            let reply = store.reply(&claim);
            if reply == Reply::Match && !memory.same(store, &claim) {
                false_matches.push(deliveries);
            }
            let (count, claims) = reply.claims();
            for claim in &claims[..count] {
                waiting.push_back((receiver, *claim, M::of(store, claim)));
            }
            deliveries += 1;
        }
    }
    (deliveries, false_matches)
}
