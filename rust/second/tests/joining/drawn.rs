//! Pairs of images, drawn so that keys and claims are in one or in both.

use std::collections::BTreeSet;

use super::common::*;
use second::*;

/// Two images in order, which may have claims to leave out and, one time in
/// five, a union of any number of keys.
pub fn pair(rng: &mut Rng) -> [Vec<u8>; 2] {
    let (first, second) = if rng.one_in(5) {
        let density = rng.density();
        (rng.keys(LIMIT, density), rng.keys(LIMIT, density))
    } else {
        rng.pair()
    };
    let second_keys: BTreeSet<&u64> = second.iter().collect();
    let both = first.iter().filter(|key| second_keys.contains(key));
    let both: Vec<u64> = both.copied().collect();
    let shared = some_table(rng, &both);
    [first, second].map(|keys| {
        let own = some_table(rng, &keys);
        let table = mixed(rng, own, &shared);
        image_of(&keys, &table)
    })
}

/// Claims with ends among these keys, which pass 2 to 5: of three mostly, or
/// of every cnt.
fn some_table(rng: &mut Rng, keys: &[u64]) -> Vec<Claim> {
    if rng.one_in(2) || keys.is_empty() {
        return rng.saved_table(keys);
    }
    let mut table = BTreeSet::new();
    let wanted = *rng.pick(&[1, 20, 32, 33, 64]);
    for _ in 0..3 * wanted {
        if table.len() == wanted {
            break;
        }
        let first = rng.below(keys.len());
        let last = first + rng.below(keys.len() - first);
        let mut claim = claim_of(&keys[first..=last]);
        // A few claims differ in the last field alone.
        if claim.cnt > 3 && rng.one_in(2) {
            claim.sum ^= rng.next() % 3;
        }
        table.insert(claim.rank());
    }
    claims_of(table)
}

/// Claims by their ranks.
pub fn claims_of(ranks: BTreeSet<(u16, u64, u64, u64)>) -> Vec<Claim> {
    let claim = |(cnt, lo, hi, sum)| c(lo, hi, sum, cnt);
    ranks.into_iter().map(claim).collect()
}

/// Own claims with none, some or all of the shared ones, 64 of them at most.
fn mixed(rng: &mut Rng, own: Vec<Claim>, shared: &[Claim]) -> Vec<Claim> {
    let odds = *rng.pick(&[0, 1, 3, 4, 4]);
    let own = if rng.one_in(4) { vec![] } else { own };
    let mut ranks: BTreeSet<_> = own.iter().map(Claim::rank).collect();
    for claim in shared {
        if rng.below(4) < odds {
            ranks.insert(claim.rank());
        }
    }
    let mut table = claims_of(ranks);
    while table.len() > 64 {
        table.remove(rng.below(table.len()));
    }
    table
}
