//! The key store, and the calls that enter, make and reply.

use std::fmt;

use crate::claim::Claim;
use crate::questions;

/// A store as it is given to a call: as many places as the limit says, with a
/// running sum beside each, and a count, of any content.
#[derive(Clone, PartialEq, Eq)]
pub struct RawStore {
    /// The places. Boxed, so that a store passes from call to call without
    /// their bytes being copied.
    pub keys: Box<[u64; RawStore::LIMIT]>,
    /// "one number for each place: the XOR of all keys up to and with that
    /// place, and 0 in unused places" (document 02, slip 7), if the store is in
    /// order.
    pub sums: Box<[u64; RawStore::LIMIT]>,
    /// How many places are in use, if the store is in order.
    pub count: usize,
}

// A claim's cnt and an image's key count tell the limit in 16 bits.
const _: () = assert!(RawStore::LIMIT <= u16::MAX as usize);

impl RawStore {
    /// The limit: the most keys of a store, which has as many places. It
    /// belongs "to the store type", and all else that is said of it follows
    /// from this one number, "in stores, in cnt and in unions" (document 02,
    /// slip 6).
    pub const LIMIT: usize = 2_048;

    /// "The empty store is" as many "zeros with count 0". No place of it is in
    /// use, so its sums are zeros as well.
    pub fn empty() -> RawStore {
        RawStore {
            keys: Box::new([0; RawStore::LIMIT]),
            sums: Box::new([0; RawStore::LIMIT]),
            count: 0,
        }
    }

    /// These keys as they stand, not sorted, in the first places, zeros after,
    /// and their running sums: in order exactly when the keys rise strictly.
    ///
    /// # Panics
    /// If there are more keys than places.
    pub fn of(keys: &[u64]) -> RawStore {
        let mut store = RawStore::empty();
        store.keys[..keys.len()].copy_from_slice(keys);
        store.count = keys.len();
        store.resum();
        store
    }

    /// The keys below the count; all places if the count exceeds them.
    pub fn held(&self) -> &[u64] {
        &self.keys[..self.count.min(RawStore::LIMIT)]
    }

    /// The sums that are right beside these keys and this count, whether or not
    /// the keys are in order: those of the keys held, zeros after (document 02,
    /// slip 7).
    pub fn right_sums(&self) -> Box<[u64; RawStore::LIMIT]> {
        let mut sums = Box::new([0; RawStore::LIMIT]);
        for (place, sum) in sums.iter_mut().zip(running_sums(self.held())) {
            *place = sum;
        }
        sums
    }

    /// Makes the sums right for these keys and this count.
    pub fn resum(&mut self) {
        self.sums = self.right_sums();
    }

    /// The places whose sum isn't the right one, each with what is there.
    fn wrong_sums(&self) -> Vec<(usize, u64)> {
        let right = self.right_sums();
        let sums = self.sums.iter().copied().enumerate();
        sums.filter(|&(place, sum)| sum != right[place]).collect()
    }
}

/// The places up to the last that is in use or isn't zero, since the zeros
/// behind it tell a reader nothing. Of the sums those that aren't right, since
/// the others follow from the keys.
impl fmt::Debug for RawStore {
    fn fmt(&self, out: &mut fmt::Formatter<'_>) -> fmt::Result {
        let told = self.keys.iter().rposition(|&key| key != 0);
        let told = told.map_or(0, |last| last + 1).max(self.held().len());
        let mut store = out.debug_struct("RawStore");
        store
            .field("count", &self.count)
            .field("keys", &&self.keys[..told]);
        let wrong_sums = self.wrong_sums();
        if !wrong_sums.is_empty() {
            store.field("wrong_sums", &wrong_sums);
        }
        store.finish()
    }
}

/// For each of these keys in turn "the XOR of all keys up to and with that
/// place" (document 02, slip 7).
fn running_sums(keys: &[u64]) -> impl Iterator<Item = u64> {
    keys.iter().scan(0, |sum, key| {
        *sum ^= key;
        Some(*sum)
    })
}

/// A store in order: its keys, rising strictly, and as many running sums.
#[derive(Clone, Debug)]
pub(crate) struct Store {
    keys: Vec<u64>,
    sums: Vec<u64>,
}

impl Store {
    /// The store of a raw one that question 1 was answered yes for.
    pub(crate) fn from_raw(raw: RawStore) -> Store {
        // The places cut off are zeros, so nothing is lost by this.
        let in_use = |places: Box<[u64]>| {
            let mut places = places.into_vec();
            places.truncate(raw.count);
            places
        };
        Store {
            keys: in_use(raw.keys),
            sums: in_use(raw.sums),
        }
    }

    /// Keys that rise strictly, no more of them than the limit, from where no
    /// sums come with them: of an image "reading works them out" (document 02,
    /// slip 7), and of a union they are other ones than either store had (slip
    /// 9).
    pub(crate) fn from_keys(keys: Vec<u64>) -> Store {
        debug_assert!(questions::keys_in_order(&keys));
        // All the places there can be, so that nothing is moved when more come.
        let mut sums = Vec::with_capacity(RawStore::LIMIT);
        sums.extend(running_sums(&keys));
        Store { keys, sums }
    }

    pub(crate) fn into_raw(self) -> RawStore {
        let count = self.keys.len();
        let all_places = |mut places: Vec<u64>| {
            places.resize(RawStore::LIMIT, 0);
            places.try_into().expect("resized to as many places")
        };
        RawStore {
            keys: all_places(self.keys),
            sums: all_places(self.sums),
            count,
        }
    }

    pub(crate) fn keys(&self) -> &[u64] {
        &self.keys
    }

    /// Enters the key in its sorted place and returns that position; "a key
    /// already held changes nothing".
    pub(crate) fn enter(&mut self, key: u64) -> usize {
        match self.keys.binary_search(&key) {
            Ok(at) => at,
            Err(at) => {
                self.keys.insert(at, key);
                self.sum_up(at, key);
                at
            }
        }
    }

    /// Brings the sums up to date with a key entered at this position: one more
    /// there, and the key in all after it.
    fn sum_up(&mut self, at: usize, key: u64) {
        let before = at.checked_sub(1).map_or(0, |before| self.sums[before]);
        self.sums.insert(at, before);
        // None of these waits for another, so that several are done at once.
        for sum in &mut self.sums[at..] {
            *sum ^= key;
        }
    }

    fn position(&self, key: u64) -> usize {
        self.keys
            .binary_search(&key)
            .expect("the ends of the claim are held")
    }

    /// The keys from lo to hi, both of which are held.
    pub(crate) fn span(&self, lo: u64, hi: u64) -> &[u64] {
        &self.keys[self.position(lo)..=self.position(hi)]
    }

    /// The claim for positions first to last.
    pub(crate) fn claim(&self, first: usize, last: usize) -> Claim {
        Claim::of_positions(&self.keys, &self.sums, first, last)
    }

    /// "whole claim (position 0 to the last; none if empty)"
    pub(crate) fn whole(&self) -> Option<Claim> {
        let last = self.keys.len().checked_sub(1)?;
        Some(self.claim(0, last))
    }

    /// Adds the keys that a claim gives away, and returns the positions of lo
    /// and hi then.
    ///
    /// "Add lo and hi where missing." "When a claim has cnt 3 and own is just
    /// lo and hi after they were added, the key sum XOR lo XOR hi is added as
    /// well (the paper, 5.2). It is added only if it lies strictly between lo
    /// and hi and the store has space." (document 02, slip 1) Between them it
    /// lies by question 16, which was answered yes.
    pub(crate) fn learn(&mut self, claim: &Claim) -> (usize, usize) {
        debug_assert!(questions::q16_middle_between(claim));
        let first = self.enter(claim.lo);
        // hi isn't below lo, so entering it leaves lo where it is.
        let last = self.enter(claim.hi);
        let just_the_ends = last - first == 1;
        let space = self.keys.len() < RawStore::LIMIT;
        if claim.cnt == 3 && just_the_ends && space {
            self.enter(claim.middle());
            return (first, last + 1);
        }
        (first, last)
    }

    /// Learns the claim's keys, then replies: "Own is then worked out again
    /// and the reply goes by it." (document 02, slip 1)
    pub(crate) fn reply(&mut self, claim: &Claim) -> Reply {
        let (first, last) = self.learn(claim);
        self.answer_span(claim, first, last)
    }

    /// The reply to a claim whose ends are held already, by the keys as they
    /// are.
    pub(crate) fn answer(&self, claim: &Claim) -> Reply {
        self.answer_span(claim, self.position(claim.lo), self.position(claim.hi))
    }

    /// The paper's lines 21 to 35, the ends of the claim at first and last.
    fn answer_span(&self, claim: &Claim, first: usize, last: usize) -> Reply {
        let own = self.claim(first, last);
        if own == *claim {
            return Reply::Match;
        }
        if claim.cnt > own.cnt {
            return Reply::Ask(own);
        }
        // A span of one or two keys says all of itself by its ends, so past
        // questions 2 to 5 a helper's has at least three, and a ≤ b.
        let (a, b) = (first + 1, last - 1);
        if b - a < 3 {
            Reply::One(self.claim(a, b))
        } else {
            let z = (b + 1 - a) / 2;
            Reply::Two(self.claim(a, a + z), self.claim(a + z + 1, b))
        }
    }
}

/// What a store replies to a claim.
#[derive(Clone, Copy, Debug, PartialEq, Eq)]
pub enum Reply {
    /// Own equals the claim in all four fields.
    Match,
    /// The claim counts more keys; this carries own.
    Ask(Claim),
    /// Help in one claim.
    One(Claim),
    /// Help in two claims, in this order.
    Two(Claim, Claim),
}

impl Reply {
    /// How many claims the reply has and which, zeros in the unused places.
    pub fn claims(&self) -> (usize, [Claim; 2]) {
        match *self {
            Reply::Match => (0, [Claim::ZERO; 2]),
            Reply::Ask(own) => (1, [own, Claim::ZERO]),
            Reply::One(only) => (1, [only, Claim::ZERO]),
            Reply::Two(lower, upper) => (2, [lower, upper]),
        }
    }
}

/// What [`enter`] returns.
#[derive(Clone, Debug, PartialEq, Eq)]
pub struct Entered {
    /// The first question answered no, 0 if there is none.
    pub number: u8,
    /// The store with the key in it; refused, the given one.
    pub store: RawStore,
}

/// Enters a key into a store. Asks 1 and 6.
pub fn enter(store: RawStore, key: u64) -> Entered {
    if let Err(number) = questions::of_enter(&store, key) {
        return Entered { number, store };
    }
    let mut store = Store::from_raw(store);
    store.enter(key);
    Entered {
        number: 0,
        store: store.into_raw(),
    }
}

/// What [`make`] returns.
#[derive(Clone, Copy, Debug, PartialEq, Eq)]
pub struct Made {
    /// The first question answered no, 0 if there is none.
    pub number: u8,
    /// The claim; refused, zeros.
    pub claim: Claim,
}

/// Makes the claim for positions first to last of a store. Asks 1 and 7.
pub fn make(store: &RawStore, first: usize, last: usize) -> Made {
    match questions::of_make(store, first, last) {
        Ok(()) => Made {
            number: 0,
            claim: Claim::of_positions(&store.keys[..], &store.sums[..], first, last),
        },
        Err(number) => Made {
            number,
            claim: Claim::ZERO,
        },
    }
}

/// What [`reply`] returns.
#[derive(Clone, Debug, PartialEq, Eq)]
pub struct Replied {
    /// The first question answered no, 0 if there is none.
    pub number: u8,
    /// The store with lo and hi in it, and with the middle key of three where
    /// that was added; refused, the given one.
    pub store: RawStore,
    /// The reply; none if refused.
    pub reply: Option<Reply>,
}

impl Replied {
    /// How many claims the reply has and which; refused, zeros.
    pub fn claims(&self) -> (usize, [Claim; 2]) {
        self.reply
            .as_ref()
            .map_or((0, [Claim::ZERO; 2]), Reply::claims)
    }
}

/// Replies to one claim. Asks 1, 2 to 5, 16 and 6.
pub fn reply(store: RawStore, claim: Claim) -> Replied {
    if let Err(number) = questions::of_reply(&store, &claim) {
        return Replied {
            number,
            store,
            reply: None,
        };
    }
    let mut store = Store::from_raw(store);
    let reply = store.reply(&claim);
    Replied {
        number: 0,
        store: store.into_raw(),
        reply: Some(reply),
    }
}
