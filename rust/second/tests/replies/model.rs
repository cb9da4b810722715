//! Random tables, beaten until nothing changes, against the text told another
//! way: what matches is struck out, and of the rest the first eight are served.

use std::collections::BTreeSet;

use super::beaten;
use super::common::*;
use second::*;

/// What the text says of one claim.
#[derive(Clone, Debug, PartialEq)]
enum Told {
    Match,
    Ask(Claim),
    Help(Vec<Claim>),
}

/// "The reply to one claim" (document 01) whose ends are held, with no key
/// added: own is looked for among all keys, one by one.
fn told(keys: &[u64], claim: &Claim) -> Told {
    let mut own = Vec::new();
    for &key in keys {
        if claim.lo <= key && key <= claim.hi {
            own.push(key);
        }
    }
    if claim_of(&own) == *claim {
        return Told::Match;
    }
    if usize::from(claim.cnt) > own.len() {
        return Told::Ask(claim_of(&own));
    }
    let (a, b) = (1, own.len() - 2);
    if b - a < 3 {
        return Told::Help(vec![claim_of(&own[a..=b])]);
    }
    let z = (b + 1 - a) / 2;
    Told::Help(vec![
        claim_of(&own[a..=a + z]),
        claim_of(&own[a + z + 1..=b]),
    ])
}

/// The claims sent by a beat, and the table after it.
fn beat_told(keys: &[u64], table: &[Claim]) -> (Vec<Claim>, Vec<Claim>) {
    let mut left: Vec<(Claim, Told)> = Vec::new();
    for claim in table {
        left.push((*claim, told(keys, claim)));
    }
    left.retain(|(_, told)| *told != Told::Match);
    let waiting = left.split_off(left.len().min(8));

    let mut sent = Vec::new();
    if !keys.is_empty() {
        sent.push(claim_of(keys));
    }
    let mut after = Vec::new();
    for (claim, told) in left {
        match told {
            Told::Ask(own) => {
                sent.push(own);
                after.push(claim);
            }
            Told::Help(claims) => sent.extend(claims),
            Told::Match => unreachable!("struck out"),
        }
    }
    after.extend(waiting.into_iter().map(|(claim, _)| claim));
    (sent, after)
}

/// Notes for each claim of a table which way it goes.
fn saw_ways(ways: &Ways, keys: &[u64], table: &[Claim]) {
    let mut replies = 0;
    for claim in table {
        let told = told(keys, claim);
        let way = match (&told, replies) {
            (Told::Match, 0) => "match before the first reply",
            (Told::Match, 1..8) => "match among the eight",
            (Told::Match, _) => "match after the eighth",
            (_, 8) => "waits",
            (Told::Ask(own), _) if (claim.cnt, own.cnt) == (3, 2) => "asked for a middle key",
            (Told::Ask(_), _) => "asked",
            (Told::Help(claims), _) if claims.len() == 1 => "helped with one",
            (Told::Help(_), _) => "helped with two",
        };
        replies += usize::from(told != Told::Match && replies < 8);
        ways.saw(way);
    }
    ways.saw(format!("{replies} replies"));
    ways.saw(format!("{} pending", table.len()));
}

const ALL_WAYS: [&str; 7] = [
    "match before the first reply",
    "match among the eight",
    "match after the eighth",
    "asked",
    "helped with one",
    "helped with two",
    "waits",
];

/// Beats a node until it stays as it is; each beat is the one told.
fn beats_are_told(mut node: RawNode, ways: &Ways) -> usize {
    for beats in 1.. {
        let keys = node.store.held().to_vec();
        let table = node.table().to_vec();
        saw_ways(ways, &keys, &table);
        let (sent, after) = beat_told(&keys, &table);
        let (claims, next) = beaten(node);
        assert_eq!(claims, sent);
        assert_eq!(next, RawNode::of(RawStore::of(&keys), &after));
        if after == table {
            return beats;
        }
        node = next;
    }
    unreachable!("each beat but the last makes the table shorter")
}

/// A claim of three whose ends are neighbours among these keys, if there is
/// one: a reply would learn its middle key, a beat asks about it.
fn beside_just_the_ends(rng: &mut Rng, keys: &[u64]) -> Claim {
    let first = rng.below(keys.len());
    let (lo, hi) = (keys[first], keys[(first + 1).min(keys.len() - 1)]);
    three(lo, lo + rng.next() % (hi - lo).max(1), hi)
}

/// Up to 64 claims with their ends among these keys: true of them, or with
/// another cnt or sum.
fn table(rng: &mut Rng, keys: &[u64]) -> Vec<Claim> {
    let mut table = BTreeSet::new();
    let wanted = *rng.pick(&[1, 7, 8, 9, 20, 64, 64]);
    let true_ones = *rng.pick(&[0, 1, 2, 4, 7]);
    let reach = *rng.pick(&[3, 5, 7, 12, keys.len()]);
    // Few tables have them: once eight are asked about, all others wait.
    let threes = rng.one_in(4);
    for _ in 0..20 * wanted {
        if table.len() == wanted {
            break;
        }
        let first = rng.below(keys.len());
        let last = (first + rng.below(reach)).min(keys.len() - 1);
        let mut claim = claim_of(&keys[first..=last]);
        if rng.below(8) >= true_ones {
            match rng.below(3) {
                0 => claim.cnt = claim.cnt.saturating_add(rng.below(9) as u16),
                1 => claim.cnt = claim.cnt.saturating_sub(rng.below(9) as u16),
                _ => claim.sum ^= 1 << rng.below(64),
            }
            if claim.cnt == 2 {
                claim.sum = claim.lo ^ claim.hi;
            }
        }
        if threes && rng.one_in(12) {
            claim = beside_just_the_ends(rng, keys);
        }
        if questions::of_claim(&claim).is_ok() {
            table.insert(claim.rank());
        }
    }
    let claim = |(cnt, lo, hi, sum)| c(lo, hi, sum, cnt);
    table.into_iter().map(claim).collect()
}

#[test]
fn random_tables() {
    let ways = Ways::default();
    for_seeds(300, |rng| {
        let density = rng.density();
        let mut keys = rng.keys(200, density);
        if keys.is_empty() {
            keys.push(rng.key(density));
        }
        let node = RawNode::of(RawStore::of(&keys), &table(rng, &keys));
        assert!(questions::q1_node_in_order(&node));
        let beats = beats_are_told(node, &ways);
        ways.saw(format!("{beats} beats"));
    });
    ways.all_of(&ALL_WAYS);
    ways.all_of(&["asked for a middle key"]);
    ways.all_of(&["0 replies", "1 replies", "7 replies", "8 replies"]);
    ways.all_of(&["0 pending", "8 pending", "9 pending", "64 pending"]);
    ways.all_of(&["1 beats", "2 beats", "3 beats", "5 beats"]);
}

/// Tables that came about by taking claims, in stores up to the limit.
#[test]
fn tables_of_claims_taken() {
    let ways = Ways::default();
    for_seeds(120, |rng| {
        beats_are_told(rng.node(), &ways);
    });
    ways.all_of(&ALL_WAYS);
}

/// The model itself, on a table told by hand.
#[test]
fn the_model_by_hand() {
    let keys: Vec<u64> = (0..20).collect();
    let nine: Vec<Claim> = (0..9).map(|lo| c(lo, lo + 2, 77, 3)).collect();
    let matched = c(15, 15, 15, 1);
    let table = [&[matched], &nine[..], &[c(3, 9, 0, 16)]].concat();
    let mut sent = vec![claim_of(&keys)];
    sent.extend((1..9).map(|key| c(key, key, key, 1)));
    assert_eq!(beat_told(&keys, &table), (sent, table[9..].to_vec()));
}
