//! Claims of three and what becomes of their middle key (document 02, slip 1),
//! or why they are refused (slip 2): the ways that such a claim can go, read
//! off the slips' sentences once more, and cases drawn so that all of them are
//! gone.

use second::*;

use crate::draw::{Rng, claim_of};
use crate::replies;

/// What becomes of a claim where both ends are held, where one of them is
/// missing and where both are.
pub type Outcome = [&'static str; 3];

macro_rules! outcome {
    ($told:literal) => {
        [
            concat!($told, ", both ends held"),
            concat!($told, ", one end missing"),
            concat!($told, ", both ends missing"),
        ]
    };
}

pub const ADDED: Outcome = outcome!("a middle key added");
pub const NO_SPACE: Outcome = outcome!("a middle key without space");
pub const OTHERS: Outcome = outcome!("a middle key beside others");

/// What becomes of a middle key that lies between the ends.
pub const OUTCOMES: [Outcome; 3] = [ADDED, NO_SPACE, OTHERS];

pub const AT_LO: Outcome = outcome!("16, a middle key at lo");
pub const AT_HI: Outcome = outcome!("16, a middle key at hi");
pub const OUTSIDE: Outcome = outcome!("16, a middle key outside");
pub const ELSEWHERE: Outcome = outcome!("16, a middle key held elsewhere");

/// Where it lies otherwise, so that 16 refuses the claim.
pub const REFUSED: [Outcome; 4] = [AT_LO, AT_HI, OUTSIDE, ELSEWHERE];

/// The ends of a claim that 16 refuses wouldn't fit either.
pub const BEFORE_6: &str = "16 before 6";

/// A middle key was the last that fits.
pub const LAST_PLACE: &str = "a middle key in the last place";

/// A beat's claims of three: beside just their ends, where the key between
/// them would have space and where it wouldn't, and the two that leave.
pub const ASKED: &str = "three asked about, with space";
pub const ASKED_FULL: &str = "three asked about, without space";
pub const MATCHED: &str = "three matched";
pub const HELPED: &str = "three helped";

pub fn middle_of(claim: &Claim) -> u64 {
    claim.sum ^ claim.lo ^ claim.hi
}

fn is_between(claim: &Claim) -> bool {
    claim.lo < middle_of(claim) && middle_of(claim) < claim.hi
}

/// Whether a claim that passes 2 to 5 is one of three "that no store could
/// make" (document 02, slip 2).
pub fn is_faulty(claim: &Claim) -> bool {
    claim.cnt == 3 && !is_between(claim)
}

/// The claim of three with this key in the middle.
pub fn three(lo: u64, middle: u64, hi: u64) -> Claim {
    Claim::new(lo, hi, lo ^ middle ^ hi, 3)
}

pub fn holds(keys: &[u64], key: u64) -> bool {
    keys.binary_search(&key).is_ok()
}

/// The way that a claim of three goes with the keys of a store in order. None
/// if another question than 16 refuses it, or if its middle key is kept out by
/// more than one reason: a case counts for the one that decides.
fn way(held: &[u64], claim: &Claim) -> Option<&'static str> {
    let Claim { lo, hi, .. } = *claim;
    let middle = middle_of(claim);
    let missing = missing_ends(held, claim);
    let others = held.iter().any(|&key| lo < key && key < hi);
    let space = RawStore::LIMIT.checked_sub(held.len() + missing);
    let outcome = match (others, space) {
        _ if middle == lo => AT_LO,
        _ if middle == hi => AT_HI,
        _ if !is_between(claim) && holds(held, middle) => ELSEWHERE,
        _ if !is_between(claim) => OUTSIDE,
        (true, Some(1..)) if !holds(held, middle) => OTHERS,
        (false, Some(0)) => NO_SPACE,
        (false, Some(1..)) => ADDED,
        _ => return None,
    };
    Some(outcome[missing])
}

fn missing_ends(held: &[u64], claim: &Claim) -> usize {
    let missing = |end: &&u64| !holds(held, **end);
    [claim.lo, claim.hi].iter().filter(missing).count()
}

/// Adds to keys in order those that a claim gives away, if it isn't refused;
/// the ways it went.
pub fn learn(keys: &mut Vec<u64>, claim: &Claim) -> Vec<&'static str> {
    let mut ways = Vec::new();
    if claim.cnt == 3 && questions::of_saved_claim(claim).is_ok() {
        ways.extend(way(keys, claim));
    }
    let room = RawStore::LIMIT - keys.len().min(RawStore::LIMIT);
    if is_refused(&ways) {
        if missing_ends(keys, claim) > room {
            ways.push(BEFORE_6);
        }
        return ways;
    }
    let added = ways.iter().any(|way| ADDED.contains(way));
    let middle = added.then(|| middle_of(claim));
    for key in [claim.lo, claim.hi].into_iter().chain(middle) {
        if let Err(at) = keys.binary_search(&key) {
            keys.insert(at, key);
        }
    }
    if added && keys.len() == RawStore::LIMIT {
        ways.push(LAST_PLACE);
    }
    ways
}

/// Whether these are ways of a claim that 16 refuses.
pub fn is_refused(ways: &[&'static str]) -> bool {
    let refused = |way| REFUSED.iter().any(|outcome| outcome.contains(way));
    ways.iter().any(refused)
}

/// The ways of a round's claims of three, told by its deliveries to the keys
/// that both stores had before it; these are what it left then.
pub fn ways_of_round(keys: &mut [Vec<u64>; 2], deliveries: &[Delivery]) -> Vec<&'static str> {
    deliveries
        .iter()
        .flat_map(|Delivery { sender, claim }| learn(&mut keys[1 - usize::from(*sender)], claim))
        .collect()
}

/// The ways of a beat's claims of three, but for those that wait.
pub fn ways_of_beat(node: &RawNode) -> Vec<&'static str> {
    let held = node.store.held();
    let way = |claim: &Claim| {
        let ends = claim.lo..=claim.hi;
        let own = held.iter().copied().filter(|key| ends.contains(key));
        let own: Vec<u64> = own.collect();
        match own.len() {
            2 if held.len() < RawStore::LIMIT => ASKED,
            2 => ASKED_FULL,
            _ if claim_of(&own) == *claim => MATCHED,
            _ => HELPED,
        }
    };
    let served = replies::served(node);
    let threes = served.iter().filter(|claim| claim.cnt == 3);
    threes.map(way).collect()
}

impl Rng {
    /// Two of some keys in order, with so many of them between and room for
    /// one more there; none if few draws find none.
    fn ends(&mut self, keys: &[u64], others: usize) -> Option<(u64, u64)> {
        let starts = keys.len().checked_sub(others + 1).filter(|&n| n > 0)?;
        let mut drawn = (0..16).map(|_| {
            let at = self.below(starts);
            (keys[at], keys[at + others + 1])
        });
        // Keys out of order, of a store that was bent, are no ends.
        drawn.find(|(lo, hi)| hi.saturating_sub(*lo) > 1 + others as u64)
    }

    /// A key strictly between two that aren't neighbours, those next to them
    /// more often than others.
    pub fn key_between(&mut self, lo: u64, hi: u64) -> u64 {
        match self.below(8) {
            0 => lo + 1,
            1 => hi - 1,
            _ => lo + 1 + self.next() % (hi - lo - 1),
        }
    }

    /// A claim of three with two of some keys in order as its ends, and few
    /// or none of them between. Its middle key is between them.
    pub fn claim_of_three(&mut self, keys: &[u64]) -> Option<Claim> {
        let others = self.pick(&[0, 0, 0, 1, 2]);
        let (lo, hi) = self.ends(keys, others)?;
        let mut middle = self.key_between(lo, hi);
        let held = keys.iter().find(|&&key| lo < key && key < hi);
        if let Some(&held) = held
            && self.one_in(4)
        {
            middle = held;
        }
        Some(three(lo, middle, hi))
    }

    /// A claim of three with the same ends that no store could make: its
    /// middle key is at one of them, beside it, another of some keys, or any.
    pub fn faulty(&mut self, claim: Claim, keys: &[u64]) -> Claim {
        let Claim { lo, hi, .. } = claim;
        let middle = match self.below(7) {
            0 => lo,
            1 => hi,
            2 => lo.wrapping_sub(1),
            3 => hi.wrapping_add(1),
            4 | 5 if !keys.is_empty() => self.pick(keys),
            _ => self.next(),
        };
        match three(lo, middle, hi) {
            faulty if is_faulty(&faulty) => faulty,
            // By chance between them.
            _ => three(lo, self.pick(&[lo, hi]), hi),
        }
    }

    /// The keys of a store and so many claims of three for it, none of them
    /// faulty, some of whose ends are missing there. With these added the store is full, or nearly,
    /// or far from it.
    pub fn threes(&mut self, claims: usize) -> (Vec<u64>, Vec<Claim>) {
        loop {
            let mut keys = self.keys_at_the_limit_or_not();
            let drawn: Option<Vec<Claim>> =
                (0..claims).map(|_| self.claim_of_three(&keys)).collect();
            let Some(drawn) = drawn else {
                continue;
            };
            for claim in &drawn {
                let missing = match self.below(6) {
                    0 | 1 => [None, None],
                    2 => [Some(claim.lo), None],
                    3 => [None, Some(claim.hi)],
                    _ => [Some(claim.lo), Some(claim.hi)],
                };
                keys.retain(|key| !missing.contains(&Some(*key)));
            }
            return (keys, drawn);
        }
    }

    /// One such claim, or a faulty one with its ends, for which there may be no
    /// room then.
    pub fn three(&mut self) -> (Vec<u64>, Claim) {
        let (mut keys, claims) = self.threes(1);
        if self.one_in(2) {
            return (keys, claims[0]);
        }
        let claim = self.faulty(claims[0], &keys);
        if self.one_in(8) {
            self.fill(&mut keys, RawStore::LIMIT);
        }
        (keys, claim)
    }

    /// The keys of a store and a frame's claims of three for it, seldom a
    /// faulty one among them.
    pub fn frame_of_threes(&mut self) -> (Vec<u64>, Vec<Claim>) {
        let n = 1 + self.below(4);
        let (keys, mut claims) = self.threes(n);
        if self.one_in(6) {
            let at = self.below(n);
            claims[at] = self.faulty(claims[at], &keys);
        }
        (keys, claims)
    }

    /// The keys of a store in order: full, with room for one more, or as many
    /// as any has.
    fn keys_at_the_limit_or_not(&mut self) -> Vec<u64> {
        if self.one_in(2) {
            let density = self.density();
            return self.keys(density);
        }
        let (mut keys, _) = self.nearly_full();
        let count = self.pick(&[RawStore::LIMIT - 1, RawStore::LIMIT, RawStore::LIMIT]);
        while keys.len() > count {
            let at = self.below(keys.len());
            keys.remove(at);
        }
        self.fill(&mut keys, count);
        keys
    }

    /// Adds any keys up to so many, each in its place.
    fn fill(&mut self, keys: &mut Vec<u64>, count: usize) {
        while keys.len() < count {
            let key = self.next();
            if let Err(at) = keys.binary_search(&key) {
                keys.insert(at, key);
            }
        }
    }
}

/// The node of these keys with a full table of claims that come before any of
/// three, one key in each; none if there are too few.
pub fn full_of_ones(keys: &[u64]) -> Option<RawNode> {
    let ones = keys.first_chunk::<PENDING>()?.map(|key| claim_of(&[key]));
    Some(RawNode::of(RawStore::of(keys), &ones))
}

/// The node with this claim in its table too, in the place of the last in
/// order if there is no other. Its ends are held.
pub fn with_pending(node: &RawNode, claim: Claim) -> RawNode {
    let mut pending = node.table().to_vec();
    pending.truncate(PENDING - 1);
    pending.push(claim);
    pending.sort_by_key(Claim::rank);
    pending.dedup();
    RawNode::of(node.store.clone(), &pending)
}
