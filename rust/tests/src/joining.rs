//! What two images become (document 02, slip 9), read off the slip's sentences
//! once more, by plain sets: the image itself, and the ways that the keys and
//! the claims of both come together. And pairs drawn so that all ways are gone.

use std::collections::BTreeSet;

use second::*;

use crate::draw::{Density, Rng, image_of};
use crate::left_out::{contents, kept};

const LIMIT: usize = RawStore::LIMIT;

/// Which keys both have.
pub const KEYS: [&str; 8] = [
    "both without a key",
    "the first without a key",
    "the second without a key",
    "no key in both",
    "the same keys",
    "all keys of the first in the second",
    "all keys of the second in the first",
    "some keys in both",
];

/// How many keys they have together, where that is close to the limit.
pub const UNIONS: [&str; 3] = ["one key less than fit", "all that fit", "one key too many"];

/// "Its pending claims are those of both, equal ones once"
pub const EQUAL: [&str; 3] = ["no equal claims", "some equal claims", "all claims equal"];

/// "in table order, the first 64 kept"
pub const KEPT: [&str; 4] = [
    "nothing pending",
    "fewer than 64 claims",
    "just 64 claims",
    "more than 64 claims",
];

/// Whose claims are dropped of more than 64.
pub const DROPPED: [&str; 3] = [
    "one of the first dropped",
    "one of the second dropped",
    "one of both dropped",
];

/// Which of them have something that slip 2 leaves out.
pub const LEFT_OUT: [&str; 4] = [
    "nothing left out",
    "something of the first left out",
    "something of the second left out",
    "something of each left out",
];

/// The claims kept would be others if it were left out of the joined table.
pub const LEFT_OUT_FIRST: &str = "left out before 64 are kept";

/// A claim of three is kept beside just its ends: hearing it would add a key,
/// joining doesn't.
pub const NO_MIDDLE: &str = "a middle key that isn't added";

/// What the bytes of an image say, the claims by their ranks.
struct Said {
    keys: BTreeSet<u64>,
    claims: BTreeSet<Rank>,
    /// The claims without those that are left out.
    used: BTreeSet<Rank>,
}

type Rank = (u16, u64, u64, u64);

fn ranks(claims: &[Claim]) -> BTreeSet<Rank> {
    claims.iter().map(Claim::rank).collect()
}

impl Said {
    fn by(image: &[u8]) -> Said {
        let (keys, pending) = contents(image).expect("an image that is read");
        Said {
            keys: keys.into_iter().collect(),
            claims: ranks(&pending),
            used: ranks(&kept(&pending)),
        }
    }

    fn leaves_out(&self) -> bool {
        self.used.len() < self.claims.len()
    }
}

/// The first claims of these in table order.
fn first_64(claims: &BTreeSet<Rank>) -> Vec<Claim> {
    let claim = |&(cnt, lo, hi, sum): &Rank| Claim::new(lo, hi, sum, cnt);
    claims.iter().take(PENDING).map(claim).collect()
}

/// How many keys two images have together.
pub fn union_of(first: &[u8], second: &[u8]) -> usize {
    let [first, second] = [first, second].map(Said::by);
    first.keys.union(&second.keys).count()
}

/// The image that two images become which are read: "Its keys are the union. Its
/// pending claims are those of both, equal ones once, in table order, the first
/// 64 kept."
pub fn joined(first: &[u8], second: &[u8]) -> Vec<u8> {
    let [first, second] = [first, second].map(Said::by);
    let keys: Vec<u64> = first.keys.union(&second.keys).copied().collect();
    image_of(&keys, &first_64(&(&first.used | &second.used)))
}

/// The ways of two images that are read and become one.
pub fn ways(first: &[u8], second: &[u8]) -> Vec<&'static str> {
    let [first, second] = [first, second].map(Said::by);
    let union = &first.keys | &second.keys;
    let mut ways = vec![way_of_keys(&first.keys, &second.keys)];
    ways.extend(way_of_union(union.len()));
    ways.extend(ways_of_claims(&first.used, &second.used));
    ways.push(match (first.leaves_out(), second.leaves_out()) {
        (false, false) => LEFT_OUT[0],
        (true, false) => LEFT_OUT[1],
        (false, true) => LEFT_OUT[2],
        (true, true) => LEFT_OUT[3],
    });
    let used = first_64(&(&first.used | &second.used));
    let all = first_64(&(&first.claims | &second.claims));
    if kept(&all) != used {
        ways.push(LEFT_OUT_FIRST);
    }
    let no_middle = |claim: &Claim| {
        let own = union.range(claim.lo..=claim.hi);
        claim.cnt == 3 && own.count() == 2
    };
    if used.iter().any(no_middle) {
        ways.push(NO_MIDDLE);
    }
    ways
}

fn way_of_keys(first: &BTreeSet<u64>, second: &BTreeSet<u64>) -> &'static str {
    let both = first.intersection(second).count();
    let at = match (first.len(), second.len()) {
        (0, 0) => 0,
        (0, _) => 1,
        (_, 0) => 2,
        _ if both == 0 => 3,
        (one, other) if one == both && other == both => 4,
        (one, _) if one == both => 5,
        (_, other) if other == both => 6,
        _ => 7,
    };
    KEYS[at]
}

/// Where the number of keys together is close to the limit.
pub fn way_of_union(keys: usize) -> Option<&'static str> {
    let at = (keys + 1).checked_sub(LIMIT)?;
    UNIONS.get(at).copied()
}

fn ways_of_claims(first: &BTreeSet<Rank>, second: &BTreeSet<Rank>) -> Vec<&'static str> {
    let all = first | second;
    let equal = first.intersection(second).count();
    let mut ways = vec![match all.len() {
        0 => KEPT[0],
        1..64 => KEPT[1],
        64 => KEPT[2],
        _ => KEPT[3],
    }];
    if !all.is_empty() {
        ways.push(match equal {
            0 => EQUAL[0],
            _ if equal < all.len() => EQUAL[1],
            _ => EQUAL[2],
        });
    }
    for dropped in all.iter().skip(PENDING) {
        ways.push(match (first.contains(dropped), second.contains(dropped)) {
            (true, false) => DROPPED[0],
            (false, true) => DROPPED[1],
            _ => DROPPED[2],
        });
    }
    ways
}

impl Rng {
    /// Two images that are read, with keys and claims that one or both have, and
    /// with claims to leave out; seldom too many keys together.
    pub fn images_to_join(&mut self) -> [Vec<u8>; 2] {
        let (first, second) = self.keys_to_join();
        let held: BTreeSet<u64> = second.iter().copied().collect();
        let both = first.iter().copied().filter(|key| held.contains(key));
        let both: Vec<u64> = both.collect();
        let shared = self.table_to_join(&both);
        [first, second].map(|keys| {
            let own = self.table_to_join(&keys);
            let pending = self.mixed(own, &shared);
            image_of(&keys, &pending)
        })
    }

    /// The keys of two stores, often with a full union or just none.
    fn keys_to_join(&mut self) -> (Vec<u64>, Vec<u64>) {
        match self.below(12) {
            0..3 => {
                let mut all = self.nearly_full().0;
                let more = self.below(4);
                all.extend(self.keys_of(more, Density::WIDE));
                all.sort_unstable();
                all.dedup();
                self.dealt(all)
            }
            3 => {
                let density = self.density();
                let (first, second) = (self.keys(density), self.keys(density));
                match self.below(4) {
                    0 => (first.clone(), first),
                    1 => (first, Vec::new()),
                    2 => (Vec::new(), second),
                    _ => (first, second),
                }
            }
            4 | 5 => self.pair_of_few_bits(),
            6 | 7 => self.small_pair(),
            _ => self.pair(),
        }
    }

    /// Claims of these keys, of which some may be left out.
    fn table_to_join(&mut self, keys: &[u64]) -> Vec<Claim> {
        if self.one_in(2) {
            return self.saved_table(keys);
        }
        let wanted = self.pick(&[0, 1, 20, 33, PENDING]);
        self.table_of(keys, wanted, Rng::pending_claim)
    }

    /// Own claims, or none, with none, some or all of the shared ones; no more
    /// than a table has.
    fn mixed(&mut self, own: Vec<Claim>, shared: &[Claim]) -> Vec<Claim> {
        let odds = self.pick(&[0, 1, 3, 4, 4]);
        let mut pending = if self.one_in(4) { Vec::new() } else { own };
        pending.extend(shared.iter().filter(|_| self.below(4) < odds));
        pending.sort_by_key(Claim::rank);
        pending.dedup();
        while pending.len() > PENDING {
            let at = self.below(pending.len());
            pending.remove(at);
        }
        pending
    }
}
