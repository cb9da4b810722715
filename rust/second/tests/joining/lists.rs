//! "A list of events may hold such a joining of two of its kiosks, as they then
//! stand, into one of them; the other stays as it is, and the stores together
//! still hold exactly the keys entered."

use std::collections::BTreeSet;

use super::NEEDED;
use super::common::list::List;
use super::common::*;

/// An event other than entering; its name and its number.
fn any_event(list: &mut List, rng: &mut Rng, ways: &Ways) -> (&'static str, u8) {
    let at = rng.below(list.kiosks.len());
    let other = (at + 1 + rng.below(list.kiosks.len() - 1)) % list.kiosks.len();
    let held = list.kiosks[at].store.count;
    match rng.below(9) {
        0..3 if held > 0 => {
            let first = rng.below(held);
            let last = first + rng.below((held - first).min(9));
            ("make", list.make(at, first, last))
        }
        3 | 4 if !list.made.is_empty() => {
            let claim = *rng.pick(&list.made);
            ("reply", list.deliver(at, claim, true))
        }
        5 if !list.made.is_empty() => {
            let mut number = 0;
            for _ in 0..*rng.pick(&[1, 1, 1, 30, 60]) {
                let claim = *rng.pick(&list.made);
                number = number.max(list.deliver(at, claim, false));
            }
            ("take", number)
        }
        6 => ("beat", list.beat(at)),
        7 => ("round", list.round(at, other).0),
        _ => {
            let room = *rng.pick(&[NEEDED, NEEDED, NEEDED + 5, NEEDED - 1]);
            ("join", list.join(at, other, room, ways))
        }
    }
}

const EVENTS: [&str; 6] = ["make 0", "reply 0", "take 0", "beat 0", "round 0", "join 0"];

const JOININGS: [&str; 5] = [
    "keys came",
    "no key came",
    "claims came",
    "equal claims",
    "no claim came",
];

/// Short lists: nothing is refused but joinings with a byte too few lent.
#[test]
fn lists_of_events() {
    let ways = Ways::default();
    for_seeds(120, |rng| {
        let density = rng.density();
        let mut list = List::of_kiosks(2 + rng.below(3));
        for _ in 0..200 {
            if rng.one_in(4) {
                let at = rng.below(list.kiosks.len());
                assert_eq!(list.enter(at, rng.key(density)), 0);
            }
            let (event, number) = any_event(&mut list, rng, &ways);
            ways.saw(format!("{event} {number}"));
            assert!(number == 0 || (event, number) == ("join", 15));
            list.check();
        }
        list.check_pending();
    });
    ways.all_of(&EVENTS);
    ways.all_of(&JOININGS);
    ways.all_of(&["claims fell", "join 15"]);
}

/// So many keys of all 64 bits, in any order.
fn drawn(rng: &mut Rng, count: usize) -> Vec<u64> {
    let mut keys = BTreeSet::new();
    while keys.len() < count {
        keys.insert(rng.next());
    }
    let mut keys: Vec<u64> = keys.into_iter().collect();
    for at in 0..count {
        keys.swap(at, rng.below(at + 1));
    }
    keys
}

/// Lists that enter just as many keys as the limit: no joining is refused by 8.
#[test]
fn lists_that_enter_as_many_keys_as_the_limit() {
    let ways = Ways::default();
    for_seeds(2, |rng| {
        let mut list = List::of_kiosks(3);
        for key in drawn(rng, LIMIT) {
            assert_eq!(list.enter(rng.below(3), key), 0);
            if rng.one_in(6) {
                let (event, number) = any_event(&mut list, rng, &ways);
                ways.saw(format!("{event} {number}"));
                assert!(number == 0 || (event, number) == ("join", 15));
                list.check();
            }
        }
        for (into, from) in [(1, 2), (0, 1), (2, 0)] {
            assert_eq!(list.join(into, from, NEEDED, &ways), 0);
            list.check();
        }
        assert_eq!(list.kiosks[0].store.count, LIMIT);
        assert_eq!(list.kiosks[0].store, list.kiosks[2].store);
        assert_eq!(list.enter(0, 1), 6);
        list.check_pending();
    });
    ways.all_of(&EVENTS);
    ways.all_of(&["keys came"]);
}

/// Beyond it, what is refused changes no kiosk, and the stores together hold
/// the keys entered still.
#[test]
fn lists_that_enter_more_keys() {
    let ways = Ways::default();
    for_seeds(2, |rng| {
        let mut list = List::of_kiosks(3);
        for key in drawn(rng, 2 * LIMIT) {
            list.enter(rng.below(3), key);
            if rng.one_in(8) {
                let before = list.kiosks.clone();
                let (event, number) = any_event(&mut list, rng, &ways);
                ways.saw(format!("{event} {number}"));
                assert!(number == 0 || event == "take" || list.kiosks == before);
                list.check();
            }
        }
        list.check_pending();
    });
    ways.all_of(&["join 0", "join 8", "join 15", "round 8"]);
}

/// "When a branch closes, its kiosk's image goes to another kiosk": then the
/// others hold all keys entered without it, and serve what it had pending.
#[test]
fn branches_that_close() {
    let ways = Ways::default();
    for_seeds(40, |rng| {
        let density = rng.density();
        let mut list = List::of_kiosks(4);
        while list.kiosks.len() > 1 {
            for _ in 0..40 {
                let at = rng.below(list.kiosks.len());
                list.enter(at, rng.key(density));
                any_event(&mut list, rng, &ways);
            }
            let closed = list.kiosks.len() - 1;
            let to = rng.below(closed);
            assert_eq!(list.join(to, closed, NEEDED, &ways), 0);
            let pending = list.kiosks.pop().unwrap().pending_count;
            assert!(list.kiosks[to].pending_count >= pending);
            ways.saw(if pending > 0 { "some pending" } else { "none" });
            list.check();
        }
        assert!(list.kiosks[0].store.held().iter().eq(&list.entered));
        list.check_pending();
        assert_eq!(list.beat(0), 0);
    });
    ways.all_of(&["some pending", "none"]);
}
