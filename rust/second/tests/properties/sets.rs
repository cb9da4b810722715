//! Replies, beats and rounds told by sets of keys.

use std::collections::BTreeSet;

use super::common::*;
use second::*;

pub fn set(keys: &[u64]) -> BTreeSet<u64> {
    keys.iter().copied().collect()
}

pub fn store_of(keys: &BTreeSet<u64>) -> RawStore {
    RawStore::of(&keys.iter().copied().collect::<Vec<_>>())
}

/// The keys that a claim gives away, put into a set word by word; whether the
/// middle one of three came with them.
pub fn learn_of_set(keys: &mut BTreeSet<u64>, claim: Claim) -> bool {
    keys.extend([claim.lo, claim.hi]);
    let own: Vec<u64> = keys.range(claim.lo..=claim.hi).copied().collect();
    let middle = claim.sum ^ claim.lo ^ claim.hi;
    claim.cnt == 3
        && own == [claim.lo, claim.hi]
        && claim.lo < middle
        && middle < claim.hi
        && keys.len() < LIMIT
        && keys.insert(middle)
}

/// The reply read off a set of keys that has lo and hi, word by word: whether
/// it asks, and its claims.
pub fn reply_of_set(keys: &BTreeSet<u64>, claim: Claim) -> (bool, Vec<Claim>) {
    let span: Vec<u64> = keys.range(claim.lo..=claim.hi).copied().collect();
    let own = claim_of(&span);
    if own == claim {
        return (false, vec![]);
    }
    if claim.cnt > own.cnt {
        return (true, vec![own]);
    }
    let inner = &span[1..span.len() - 1];
    if inner.len() <= 3 {
        return (false, vec![claim_of(inner)]);
    }
    // a to a + z are z + 1 keys.
    let (lower, upper) = inner.split_at(inner.len() / 2 + 1);
    (false, vec![claim_of(lower), claim_of(upper)])
}

/// Pending claims as sets have them, by rank.
pub type Table = BTreeSet<(u16, u64, u64, u64)>;

/// What a beat of these keys and this table writes, word by word, and how many
/// claims wait for a later one, "After eight asked or helped" (document 02,
/// slip 8).
pub fn beat_of_set(keys: &BTreeSet<u64>, table: &mut Table) -> (Vec<Claim>, usize) {
    let mut claims = Vec::new();
    if !keys.is_empty() {
        claims.push(claim_of(&keys.iter().copied().collect::<Vec<_>>()));
    }
    let (mut replies, mut waiting) = (0, 0);
    for rank in table.clone() {
        let (cnt, lo, hi, sum) = rank;
        let (asks, reply) = reply_of_set(keys, c(lo, hi, sum, cnt));
        if reply.is_empty() {
            table.remove(&rank);
        } else if replies < 8 {
            replies += 1;
            claims.extend(reply);
            if !asks {
                table.remove(&rank);
            }
        } else {
            waiting += 1;
        }
    }
    (claims, waiting)
}

/// The transcript of a round told by sets, with the places of its false
/// matches.
pub fn round_of_sets(stores: &mut [BTreeSet<u64>; 2]) -> (Vec<(u8, Claim)>, Vec<usize>) {
    let mut told = Vec::new();
    let mut false_matches = Vec::new();
    for opener in 0..2 {
        if stores[opener].is_empty() {
            continue;
        }
        let all: Vec<u64> = stores[opener].iter().copied().collect();
        // Claims wait in one list that is never cut, each with what its
        // sender held when it was made.
        let mut waiting = vec![(opener, claim_of(&all), stores[opener].clone())];
        let mut next = 0;
        while next < waiting.len() {
            let (sender, claim, then) = waiting[next].clone();
            next += 1;
            let receiver = 1 - sender;
            learn_of_set(&mut stores[receiver], claim);
            let (_, claims) = reply_of_set(&stores[receiver], claim);
            let ends = claim.lo..=claim.hi;
            if claims.is_empty() && !then.range(ends.clone()).eq(stores[receiver].range(ends)) {
                false_matches.push(told.len());
            }
            told.push((sender as u8, claim));
            for claim in claims {
                waiting.push((receiver, claim, stores[receiver].clone()));
            }
        }
    }
    (told, false_matches)
}
