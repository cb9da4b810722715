//! Two nodes joined into one (document 02, slip 9): "When a branch closes, its
//! kiosk's image goes to another kiosk."

use crate::claim::Claim;
use crate::node::{Node, PENDING, RawNode};
use crate::questions;
use crate::store::Store;

/// All of two runs that rise strictly by this rank, in one that does, "equal
/// ones once".
///
/// Each step takes the lower of two first ones, or both where they are equal,
/// so that there are no more steps than both runs are long.
fn merged<T: Copy, R: Ord>(mut first: &[T], mut second: &[T], rank: impl Fn(&T) -> R) -> Vec<T> {
    let mut all = Vec::with_capacity(first.len() + second.len());
    while let ([one, ones_after @ ..], [other, others_after @ ..]) = (first, second) {
        let order = rank(one).cmp(&rank(other));
        all.push(if order.is_le() { *one } else { *other });
        if order.is_le() {
            first = ones_after;
        }
        if order.is_ge() {
            second = others_after;
        }
    }
    // One of them is through, and the rest of the other is above all before.
    all.extend_from_slice(first);
    all.extend_from_slice(second);
    all
}

impl Node {
    /// Joins another node into this one, question 8 answered yes.
    ///
    /// "Its keys are the union. Its pending claims are those of both, equal
    /// ones once, in table order, the first 64 kept." (document 02, slip 9) No
    /// claim is taken by this, so no middle key of three comes with one: the
    /// ends of each are held by the node that it was pending in, and the union
    /// has no key that neither held.
    pub(crate) fn join(&mut self, other: &Node) {
        let keys = merged(self.store.keys(), other.store.keys(), |key| *key);
        self.store = Store::from_keys(keys);
        self.pending = merged(&self.pending, &other.pending, Claim::rank);
        self.pending.truncate(PENDING);
    }
}

/// What [`join_nodes`] returns.
#[derive(Clone, Debug, PartialEq, Eq)]
pub struct Joined {
    /// The first question answered no, 0 if there is none.
    pub number: u8,
    /// The node that the other one was joined into; refused, the given one.
    pub node: RawNode,
}

/// Joins two nodes "into one of them; the other stays as it is" (document 02,
/// slip 9), as a list of events does it. So many bytes are lent for the image
/// of the new node, which isn't written here. Asks 1 of each node, 8 and 15.
pub fn join_nodes(into: RawNode, from: &RawNode, room: usize) -> Joined {
    if let Err(number) = questions::of_join_nodes(&into, from, room) {
        return Joined { number, node: into };
    }
    let mut node = Node::from_raw(into);
    node.join(&Node::from_raw(from.clone()));
    Joined {
        number: 0,
        node: node.into_raw(),
    }
}
