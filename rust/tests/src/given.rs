//! Every call of `drill` that is given a store, or a node or a pair of stores
//! with it: with arguments that all other questions let pass, and for each of
//! these questions with some that it doesn't. So it is seen which of them a
//! store is asked before.

use second::*;

use crate::card::*;
use crate::draw::claim_of;
use crate::drill::Call;
use crate::middle::three;
use crate::sheet;

const LIMIT: usize = RawStore::LIMIT;

/// A key that the store isn't thought to have.
const NEW: u64 = 0x0123_4567_89AB_CDEF;

/// The calls, in the order of their numbers.
pub const CALLS: [Call; 10] = [
    Call::Enter,
    Call::Make,
    Call::Reply,
    Call::Take,
    Call::Beat,
    Call::Round,
    Call::WriteImage,
    Call::Ordered,
    Call::RoundRecord,
    Call::WriteSheet,
];

/// All calls on a store whose count is at most the limit, each several times.
pub fn calls_on(store: &RawStore) -> Vec<Case> {
    let mut cases = calls_on_store(store);
    for pending in [None, whole(store)] {
        let node = RawNode::of(store.clone(), pending.as_slice());
        cases.extend(calls_on_node(&node));
    }
    cases.extend(rounds_with(store));
    cases
}

/// Fills the places that mean nothing to a call.
pub fn noise() -> u64 {
    0x5A5A_0101_F0F0_3C3C
}

fn whole(store: &RawStore) -> Option<Claim> {
    (store.count > 0).then(|| claim_of(store.held()))
}

/// Claims of all keys and of a new one, for which a full store has no room; and
/// one that each of the questions 2 to 5 and 16 refuses.
fn claims_for(store: &RawStore) -> Vec<Claim> {
    let mut claims = vec![
        claim_of(&[NEW]),
        Claim::new(9, 5, 12, 2),
        Claim::new(5, 9, 12, 0),
        Claim::new(5, 6, 3, 3),
        Claim::new(5, 5, 0, 1),
        three(4, 4, 8),
    ];
    claims.extend(whole(store));
    claims
}

/// A key is held or new, positions are its own or not, a buffer is long enough
/// or too short.
fn calls_on_store(store: &RawStore) -> Vec<Case> {
    let (count, last) = (store.count, store.count.saturating_sub(1));
    let mut cases = Vec::new();
    for key in [store.keys[last / 2], NEW] {
        cases.push(enter_case(store.clone(), key, &mut noise));
    }
    for (first, last) in [(0, last), (last / 2, last), (0, count), (1, 0)] {
        cases.push(make_case(store, first, last, &mut noise));
    }
    for claim in claims_for(store) {
        cases.push(reply_case(store.clone(), claim, &mut noise));
    }
    for lent in [SHEET_MOST, sheet::length(count), 0] {
        cases.push(write_sheet_case(store, lent, &mut noise));
    }
    cases
}

fn calls_on_node(node: &RawNode) -> Vec<Case> {
    let mut cases = vec![ordered_case(node, &mut noise)];
    for claim in claims_for(&node.store) {
        cases.push(take_case(node.clone(), claim, &mut noise));
    }
    for lent in [4 * BEAT_PLACES, 4 * BEAT_PLACES - 1, 0] {
        cases.push(beat_case(node.clone(), lent, &mut noise));
    }
    for lent in [IMAGE_MOST, 0] {
        cases.push(write_image_case(node, lent, &mut noise));
    }
    cases
}

/// Rounds with the store on the left, on the right and on both sides. Another
/// one is empty, or has the same keys, or so many others that the union is too
/// large; there are as many records as it takes, or none.
fn rounds_with(store: &RawStore) -> Vec<Case> {
    let others: Vec<u64> = (0..LIMIT as u64).map(|at| (1 << 20) + 3 * at).collect();
    let [empty, equal, full] = [&[], store.held(), &others].map(RawStore::of);
    // Of five words, two for each key.
    let enough = 10 * store.count;
    let mut cases = Vec::new();
    for (other, lent) in [(&empty, enough), (&equal, 0), (&full, 0)] {
        for sides in [[store, other], [other, store], [store, store]] {
            let [left, right] = sides.map(RawStore::clone);
            cases.push(round_case(left, right, lent, &mut noise));
            let [left, right] = sides.map(RawStore::clone);
            cases.push(record_case(left, right, |made| made / 2, &mut noise));
        }
    }
    cases
}
