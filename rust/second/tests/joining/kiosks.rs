//! Joinings among the events of kiosks (document 02, slip 9).

use std::collections::BTreeSet;

use super::answered;
use super::common::list::List;
use super::common::*;
use super::{NEEDED, lent_bytes};
use second::*;

/// Pending claims by rank.
type Table = BTreeSet<(u16, u64, u64, u64)>;

/// What a kiosk holds and has pending, by sets.
fn sets_of(node: &RawNode) -> (BTreeSet<u64>, Table) {
    let keys = node.store.held().iter().copied().collect();
    (keys, node.table().iter().map(Claim::rank).collect())
}

impl List {
    /// "such a joining of two of its kiosks, as they then stand, into one of
    /// them; the other stays as it is", and so does every third one. No claim
    /// is made by it.
    pub fn join(&mut self, into: usize, from: usize, room: usize, ways: &Ways) -> u8 {
        let before = self.kiosks.clone();
        let joined = join_nodes(before[into].clone(), &before[from], room);
        self.kiosks[into] = joined.node;
        for (at, kiosk) in before.iter().enumerate() {
            assert!(at == into || self.kiosks[at] == *kiosk);
        }
        by_images(&before[into], &before[from], &self.kiosks[into], room);
        if joined.number != 0 {
            assert_eq!(self.kiosks[into], before[into]);
            return joined.number;
        }
        let (keys, table) = sets_of(&before[into]);
        let (other_keys, other_table) = sets_of(&before[from]);
        let all = &table | &other_table;
        let kept = all.iter().take(64).copied().collect();
        let now = sets_of(&self.kiosks[into]);
        assert_eq!(now, (&keys | &other_keys, kept));
        let came = now.0.len() > keys.len();
        ways.saw(if came { "keys came" } else { "no key came" });
        match (all.len(), (&table & &other_table).len()) {
            (65.., _) => ways.saw("claims fell"),
            (_, 1..) => ways.saw("equal claims"),
            (1.., 0) if table.len() < all.len() => ways.saw("claims came"),
            _ => ways.saw("no claim came"),
        }
        joined.number
    }

    /// The kiosks are in order, and "the stores together still hold exactly the
    /// keys entered".
    pub fn check(&self) {
        let mut held = BTreeSet::new();
        for kiosk in &self.kiosks {
            assert!(questions::q1_node_in_order(kiosk));
            held.extend(kiosk.store.held());
        }
        assert_eq!(held, self.entered);
    }

    /// Nothing is pending but claims made.
    pub fn check_pending(&self) {
        let made: BTreeSet<_> = self.made.iter().map(Claim::rank).collect();
        let mut pending = self.kiosks.iter().flat_map(RawNode::table);
        assert!(pending.all(|claim| made.contains(&claim.rank())));
    }
}

/// The host call tells the same of the images of the kiosks: what one becomes,
/// or that it stays as it was.
fn by_images(into: &RawNode, from: &RawNode, after: &RawNode, room: usize) {
    let [first, second, after] =
        [into, from, after].map(|node| image_of(node.store.held(), node.table()));
    let room = room.min(NEEDED);
    let (answer, out) = answered(&first, &second, room);
    let written = usize::try_from(answer).unwrap_or(0);
    assert_eq!(out[written..], lent_bytes(room)[written..]);
    let left = if answer < 0 { &first } else { &out[..written] };
    assert_eq!(left, after);
}
