//! "and so does the premise on how many keys a list enters": lists of events
//! (document 01).

use std::collections::BTreeSet;

use super::common::list::List;
use super::common::*;
use super::drawn;

impl List {
    /// An event other than entering; its name and number.
    fn any_event(&mut self, rng: &mut Rng) -> (&'static str, u8) {
        let at = rng.below(self.kiosks.len());
        let held = self.kiosks[at].store.count;
        match rng.below(5) {
            0 if held > 0 => {
                let first = rng.below(held);
                let last = first + rng.below(held - first);
                ("make", self.make(at, first, last))
            }
            1 | 2 if !self.made.is_empty() => {
                let (claim, to_reply) = (*rng.pick(&self.made), rng.one_in(2));
                let name = if to_reply { "reply" } else { "take" };
                (name, self.deliver(at, claim, to_reply))
            }
            3 => ("beat", self.beat(at)),
            _ => {
                let other = (at + 1 + rng.below(self.kiosks.len() - 1)) % self.kiosks.len();
                ("round", self.round(at, other).0)
            }
        }
    }

    /// All keys that a kiosk holds.
    fn held(&self) -> BTreeSet<u64> {
        let keys = self.kiosks.iter().flat_map(|node| node.store.held());
        keys.copied().collect()
    }

    /// Rounds of each two of three kiosks, none refused and no match false,
    /// until every kiosk holds as many keys as were entered.
    fn meet(&mut self) {
        let counts = |list: &List| list.kiosks.iter().map(|node| node.store.count).sum();
        let mut held: usize = counts(self);
        while held < 3 * self.entered.len() {
            for (left, right) in [(0, 1), (1, 2), (2, 0)] {
                assert_eq!(self.round(left, right), (0, true));
            }
            let before = std::mem::replace(&mut held, counts(self));
            assert!(before < held, "no kiosk learnt a key");
        }
    }
}

/// A list that enters as many keys as the limit: nothing in it is refused,
/// whatever goes where, the kiosks hold what was entered and come to hold it
/// all. Then they are full.
#[test]
fn lists_that_enter_as_many_keys_as_the_limit() {
    let ways = Ways::default();
    for_seeds(3, |rng| {
        let mut list = List::of_kiosks(3);
        let mut keys = drawn(rng, LIMIT);
        for at in 0..LIMIT {
            keys.swap(at, rng.below(at + 1));
        }
        for key in keys {
            assert_eq!(list.enter(rng.below(3), key), 0);
            if rng.one_in(4) {
                let (event, number) = list.any_event(rng);
                ways.saw(event);
                assert_eq!(number, 0, "{event}");
                assert_eq!(list.held(), list.entered);
            }
        }
        assert_eq!(list.entered.len(), LIMIT);
        list.meet();
        for at in 0..3 {
            assert!(list.kiosks[at].store.held().iter().eq(&list.entered));
            assert_eq!(list.enter(at, 1), 6);
            assert_eq!(list.beat(at), 0);
        }
    });
    ways.all_of(&["make", "reply", "take", "beat", "round"]);
}

/// One key more is beyond the premise: each kiosk has room, but two together
/// have too many.
#[test]
fn a_list_that_enters_one_key_more() {
    for_seeds(1, |rng| {
        let mut list = List::of_kiosks(2);
        for (at, key) in drawn(rng, LIMIT + 1).into_iter().enumerate() {
            assert_eq!(list.enter(at % 2, key), 0);
        }
        let before = list.kiosks.clone();
        assert_eq!(list.round(0, 1), (8, true));
        assert_eq!((list.kiosks, list.made), (before, vec![]));
    });
}
