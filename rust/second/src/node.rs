//! A node: a store and its pending table, and the calls take and beat.

use std::fmt;

use crate::claim::Claim;
use crate::questions;
use crate::store::{RawStore, Reply, Store};

/// "A node is a store and up to 64 pending claims."
pub const PENDING: usize = 64;

/// "a kiosk its whole claim and the replies to eight pending claims each beat"
/// (document 02, slip 8).
pub const BEAT_REPLIES: usize = 8;

/// "A beat needs 17 places" (document 02, slip 8): one for the whole claim and
/// two for each reply, "whatever is pending".
pub const BEAT_PLACES: usize = 1 + 2 * BEAT_REPLIES;

/// The flat words of one place of a beat's lent run: lo, hi, sum, cnt.
const WORDS: usize = 4;

/// A node as it is given to a call, of any content.
#[derive(Clone, PartialEq, Eq)]
pub struct RawNode {
    /// The store.
    pub store: RawStore,
    /// The 64 places of the pending table.
    pub pending: Box<[Claim; 64]>,
    /// How many of them are in use, if the node is in order.
    pub pending_count: usize,
}

impl RawNode {
    /// "a node with the empty store and nothing pending"
    pub fn empty() -> RawNode {
        RawNode::of(RawStore::empty(), &[])
    }

    /// This store and these claims as they stand, zeros in the other places.
    ///
    /// # Panics
    /// If there are more claims than places.
    pub fn of(store: RawStore, pending: &[Claim]) -> RawNode {
        let mut places = Box::new([Claim::ZERO; PENDING]);
        places[..pending.len()].copy_from_slice(pending);
        RawNode {
            store,
            pending: places,
            pending_count: pending.len(),
        }
    }

    /// The claims below the pending count; all places if it exceeds them.
    pub fn table(&self) -> &[Claim] {
        &self.pending[..self.pending_count.min(PENDING)]
    }
}

/// The places up to the last that is in use or isn't zeros.
impl fmt::Debug for RawNode {
    fn fmt(&self, out: &mut fmt::Formatter<'_>) -> fmt::Result {
        let told = self.pending.iter().rposition(|place| *place != Claim::ZERO);
        let told = told.map_or(0, |last| last + 1).max(self.table().len());
        out.debug_struct("RawNode")
            .field("store", &self.store)
            .field("pending_count", &self.pending_count)
            .field("pending", &&self.pending[..told])
            .finish()
    }
}

/// A node in order.
#[derive(Clone, Debug)]
pub(crate) struct Node {
    pub(crate) store: Store,
    pub(crate) pending: Vec<Claim>,
}

impl Node {
    /// The node of a raw one that question 1 was answered yes for.
    pub(crate) fn from_raw(raw: RawNode) -> Node {
        let mut pending = (raw.pending as Box<[Claim]>).into_vec();
        pending.truncate(raw.pending_count);
        Node {
            store: Store::from_raw(raw.store),
            pending,
        }
    }

    pub(crate) fn into_raw(self) -> RawNode {
        let pending_count = self.pending.len();
        let mut pending = self.pending;
        pending.resize(PENDING, Claim::ZERO);
        RawNode {
            store: self.store.into_raw(),
            pending: pending.try_into().expect("resized to as many places"),
            pending_count,
        }
    }

    /// "Taking a claim adds lo and hi, then the claim unless an equal one is
    /// pending; of 65 the last in order is dropped." With the middle key of
    /// three, "Taking a claim into the table does the same" as replying to it
    /// (document 02, slip 1), whatever becomes of the claim.
    pub(crate) fn take(&mut self, claim: &Claim) {
        self.store.learn(claim);
        let found = self
            .pending
            .binary_search_by(|pending| pending.rank().cmp(&claim.rank()));
        if let Err(at) = found
            && at < PENDING
        {
            // Room is made first, so that the table never has 65; a claim
            // that would itself be the 65th isn't put in at all.
            self.pending.truncate(PENDING - 1);
            self.pending.insert(at, *claim);
        }
    }

    /// Beats and returns the claims in the order they are written: "the whole
    /// claim (none if empty), then in table order" the replies to the first
    /// eight that don't match. The table is gone through to its end, since a
    /// match leaves it after the eighth reply as well (document 02, slip 8).
    pub(crate) fn beat(&mut self) -> Vec<Claim> {
        let Node { store, pending } = self;
        let mut claims = Vec::with_capacity(BEAT_PLACES);
        claims.extend(store.whole());
        let mut replies = 0;
        pending.retain(|claim| {
            // By the keys as they are: "a beat still adds no key" (document
            // 02, slip 1), so three keys beside just the ends are asked about.
            let reply = store.answer(claim);
            // "a match leaves the table and doesn't count" (slip 8)
            if reply == Reply::Match {
                return false;
            }
            // "After eight asked or helped, each remaining claim that doesn't
            // match stays pending and sends nothing." (slip 8)
            if replies == BEAT_REPLIES {
                return true;
            }
            replies += 1;
            let (count, reply_claims) = reply.claims();
            claims.extend_from_slice(&reply_claims[..count]);
            // "Matched and helped claims leave the table; asked ones remain."
            matches!(reply, Reply::Ask(_))
        });
        claims
    }
}

/// What [`take`] returns.
#[derive(Clone, Debug, PartialEq, Eq)]
pub struct Taken {
    /// The first question answered no, 0 if there is none.
    pub number: u8,
    /// The node that took the claim; refused, the given one.
    pub node: RawNode,
}

/// Takes one claim into the pending table. Asks 1, 2 to 5, 16 and 6.
pub fn take(node: RawNode, claim: Claim) -> Taken {
    if let Err(number) = questions::of_take(&node, &claim) {
        return Taken { number, node };
    }
    let mut node = Node::from_raw(node);
    node.take(&claim);
    Taken {
        number: 0,
        node: node.into_raw(),
    }
}

/// What [`beat`] returns.
#[derive(Clone, Debug, PartialEq, Eq)]
pub struct Beaten {
    /// The first question answered no, 0 if there is none.
    pub number: u8,
    /// The node after the beat; refused, the given one.
    pub node: RawNode,
    /// How many claims were written; refused, 0.
    pub written: usize,
}

/// Beats a node, writing claims to a lent run of flat words, four to a place.
///
/// A run has as many places as whole fours of words. Asks 1 and 15.
pub fn beat(node: RawNode, run: &mut [u64]) -> Beaten {
    if let Err(number) = questions::of_beat(&node, run.len() / WORDS) {
        return Beaten {
            number,
            node,
            written: 0,
        };
    }
    let mut node = Node::from_raw(node);
    let claims = node.beat();
    for (place, claim) in run.chunks_exact_mut(WORDS).zip(&claims) {
        place.copy_from_slice(&[claim.lo, claim.hi, claim.sum, u64::from(claim.cnt)]);
    }
    Beaten {
        number: 0,
        node: node.into_raw(),
        written: claims.len(),
    }
}
