//! Lists of events at random (document 01, "Lists of events"): several
//! kiosks, and a radio that loses, repeats, delays and reorders. Each event
//! runs through `drill` and through the second program, and leaves the same
//! state. On each list the clauses of demand 3 are checked in plain sets:
//! stores rise and nodes are in order; a key is in some store exactly when it
//! was entered, also with claims of three among the deliveries ("what a list
//! of deliveries leaves is still made only of keys entered", document 02, slip
//! 1); a round has at most twice as many deliveries as the union has
//! keys; and as many further rounds of two kiosks as there are keys that just
//! one of them holds, none refused and no match false, leave both with the
//! union. Two kiosks may be joined into one of them (document 02, slip 9), in
//! `joinings`.

#[path = "../archive/mod.rs"]
mod archive;

mod joinings;

use std::collections::{BTreeMap, BTreeSet};

use second::*;
use tests::card::*;
use tests::cases::{for_seeds, one_seed};
use tests::draw::{Density, Rng};
use tests::drill::{Card, Drill};
use tests::joining::{EQUAL, KEPT, KEYS};
use tests::middle::{ADDED, ASKED_FULL, HELPED, LAST_PLACE, MATCHED, NO_SPACE, OTHERS};
use tests::replies::{ASK_WAITS, HELP_WAITS};
use tests::sums;

const LIMIT: usize = RawStore::LIMIT;

/// The kiosks, what was entered, and what is in the air.
struct World {
    kiosks: Vec<RawNode>,
    entered: BTreeSet<u64>,
    /// Claims made and not lost, in no order: each may be heard often.
    air: Vec<Claim>,
    density: Density,
}

/// What happened in all lists of a run.
#[derive(Default)]
struct Told {
    events: BTreeMap<(&'static str, u8), usize>,
    /// Rounds that meeting took, by how many keys differed.
    met: BTreeMap<(usize, usize), usize>,
    /// Pairs with a false match that met all the same, and that did not.
    fooled_met: usize,
    fooled_apart: usize,
    refused: usize,
    /// Ways of the rule that calls went.
    ways: BTreeMap<(&'static str, &'static str), usize>,
}

/// Makes the call of a case by the drill, and demands the expected reply.
fn ask(drill: &mut Drill, case: &Case) -> Card {
    let reply = drill.ask(case.call, &case.given);
    if let Some(told) = case.differs(&reply) {
        panic!("{told}");
    }
    reply
}

impl World {
    fn new(rng: &mut Rng) -> World {
        World {
            kiosks: vec![RawNode::empty(); 2 + rng.below(4)],
            entered: BTreeSet::new(),
            air: Vec::new(),
            density: rng.density(),
        }
    }

    /// Sends a claim that was made; the radio loses one in four.
    fn send(&mut self, rng: &mut Rng, claim: Claim) {
        if !rng.one_in(4) {
            self.air.push(claim);
        }
        if self.air.len() > 300 {
            let lost = rng.below(200);
            self.air.swap_remove(lost);
        }
    }

    /// A claim from the air, mostly a late one and often one of three; half
    /// the time it stays there.
    fn hear(&mut self, rng: &mut Rng) -> Option<Claim> {
        let recent = if rng.one_in(2) { 16 } else { 300 };
        let recent = recent.min(self.air.len());
        if recent == 0 {
            return None;
        }
        let mut at = self.air.len() - 1 - rng.below(recent);
        if rng.one_in(3) {
            let three = self.air[..at].iter().rposition(|claim| claim.cnt == 3);
            at = three.unwrap_or(at);
        }
        Some(if rng.one_in(2) {
            self.air[at]
        } else {
            self.air.remove(at)
        })
    }

    fn enter(&mut self, rng: &mut Rng, drill: &mut Drill, told: &mut Told) {
        let at = rng.below(self.kiosks.len());
        let key = rng.key(self.density);
        let store = self.kiosks[at].store.clone();
        let case = enter_case(store, key, &mut || 0);
        let reply = ask(drill, &case);
        if reply.number() == 0 {
            self.entered.insert(key);
        } else {
            assert!(self.entered.len() >= LIMIT, "refused with space to spare");
        }
        self.kiosks[at].store = reply.left();
        told.event("enter", reply.number());
    }

    fn make(&mut self, rng: &mut Rng, drill: &mut Drill, told: &mut Told) {
        let at = rng.below(self.kiosks.len());
        let store = &self.kiosks[at].store;
        let (mut one, mut other) = (rng.below(store.count + 1), rng.below(store.count + 1));
        if store.count > 2 && rng.one_in(2) {
            one = rng.below(store.count - 2);
            other = one + 2;
        }
        let case = make_case(store, one.min(other), one.max(other), &mut || 0);
        let reply = ask(drill, &case);
        if reply.number() == 0 {
            self.send(rng, reply.claim(0));
        }
        told.event("make", reply.number());
    }

    /// Delivers a claim of the air, or one that the call refuses.
    fn deliver(&mut self, rng: &mut Rng, drill: &mut Drill, told: &mut Told) {
        let at = rng.below(self.kiosks.len());
        let Some(mut claim) = self.hear(rng) else {
            return;
        };
        let mut made = true;
        if rng.one_in(8) {
            let bent = rng.refused(claim);
            if questions::of_reply(&self.kiosks[at].store, &bent).is_err() {
                (claim, made) = (bent, false);
            }
        }
        if rng.one_in(2) {
            let store = self.kiosks[at].store.clone();
            let case = reply_case(store, claim, &mut || 0);
            let reply = ask(drill, &case);
            told.ways("reply", &case);
            self.kiosks[at].store = reply.left();
            // Match, ask, one and two.
            for place in 1..=[0, 1, 1, 2][reply.count()] {
                self.send(rng, reply.claim(place));
            }
            self.delivered("reply", made, reply.number(), told);
        } else {
            let node = self.kiosks[at].clone();
            let case = take_case(node, claim, &mut || 0);
            let reply = ask(drill, &case);
            told.ways("take", &case);
            self.kiosks[at] = reply.node();
            self.delivered("take", made, reply.number(), told);
        }
    }

    /// A claim made is refused only for want of space, when there is none.
    fn delivered(&self, call: &'static str, made: bool, number: u8, told: &mut Told) {
        if made && number != 0 {
            assert!(
                number == 6 && self.entered.len() > LIMIT,
                "{call} refused {number}"
            );
        }
        told.event(call, number);
    }

    fn beat(&mut self, rng: &mut Rng, drill: &mut Drill, told: &mut Told) {
        let at = rng.below(self.kiosks.len());
        let lent = 4 * BEAT_PLACES - usize::from(rng.one_in(12));
        let keys = self.kiosks[at].store.clone();
        let case = beat_case(self.kiosks[at].clone(), lent, &mut || 0);
        let reply = ask(drill, &case);
        told.ways("beat", &case);
        self.kiosks[at] = reply.node();
        assert_eq!(self.kiosks[at].store, keys, "a beat adds no key");
        for claim in reply.beat_claims() {
            self.send(rng, claim);
        }
        told.event("beat", reply.number());
    }

    /// A round of two kiosks; its number, and whether a match was false.
    fn round(
        &mut self,
        left: usize,
        right: usize,
        records: Option<usize>,
        drill: &mut Drill,
        told: &mut Told,
    ) -> (Card, bool) {
        let stores = [left, right].map(|at| self.kiosks[at].store.clone());
        let union = keys_of(&stores[0]).union(&keys_of(&stores[1])).count();
        // As many as it needs, or as any round can that isn't refused by 8.
        let records = records.unwrap_or((2 * union).min(RECORDS));
        let [one, other] = stores;
        let case = round_case(one, other, 5 * records, &mut || 0);
        let reply = ask(drill, &case);
        told.ways("round", &case);
        assert!(reply.count() <= 2 * union, "too many deliveries");
        self.kiosks[left].store = reply.left();
        self.kiosks[right].store = reply.right();
        told.event("round", reply.number());
        if reply.number() == 8 {
            assert!(self.entered.len() > LIMIT, "refused with space to spare");
        }
        let false_match = case.ways.contains(&FALSE_MATCH);
        (reply, false_match)
    }

    /// A round of any two kiosks, whose deliveries others hear too.
    fn round_on_air(
        &mut self,
        records: Option<usize>,
        rng: &mut Rng,
        drill: &mut Drill,
        told: &mut Told,
    ) {
        let (left, right) = self.two(rng);
        let (reply, _) = self.round(left, right, records, drill, told);
        for delivery in reply.deliveries() {
            self.send(rng, delivery.claim);
        }
    }

    fn two(&self, rng: &mut Rng) -> (usize, usize) {
        let left = rng.below(self.kiosks.len());
        let right = rng.below(self.kiosks.len() - 1);
        (left, right + usize::from(right >= left))
    }

    /// The first two clauses of demand 3.
    fn check(&self) {
        let mut held = BTreeSet::new();
        for kiosk in &self.kiosks {
            let keys = &kiosk.store.keys[..kiosk.store.count];
            assert!(keys.windows(2).all(|two| two[0] < two[1]), "a store rises");
            assert!(questions::q1_node_in_order(kiosk), "a node is in order");
            assert!(sums::are_right(&kiosk.store), "its sums are right");
            held.extend(keys.iter().copied());
        }
        assert_eq!(held, self.entered, "held exactly when entered");
    }

    /// Further rounds of each two kiosks, the left one drawn each time.
    fn meet(&self, rng: &mut Rng, drill: &mut Drill, told: &mut Told) {
        for one in 0..self.kiosks.len() {
            for other in one + 1..self.kiosks.len() {
                // Each pair begins with the kiosks as the list left them.
                let mut world = World {
                    kiosks: self.kiosks.clone(),
                    entered: self.entered.clone(),
                    air: Vec::new(),
                    density: self.density,
                };
                meet(&mut world, one, other, rng, drill, told);
            }
        }
    }
}

/// The last clause of demand 3.
fn meet(
    world: &mut World,
    one: usize,
    other: usize,
    rng: &mut Rng,
    drill: &mut Drill,
    told: &mut Told,
) {
    let held = [one, other].map(|at| keys_of(&world.kiosks[at].store));
    let differ = held[0].symmetric_difference(&held[1]).count();
    let union: BTreeSet<u64> = held[0].union(&held[1]).copied().collect();
    let mut rounds = 0;
    let mut fooled = false;
    let mut idle = 0;
    while world.kiosks[one].store != world.kiosks[other].store {
        let (left, right) = if rng.one_in(2) {
            (one, other)
        } else {
            (other, one)
        };
        let before = world.kiosks.clone();
        let (reply, false_match) = world.round(left, right, None, drill, told);
        rounds += 1;
        if reply.number() != 0 {
            told.refused += 1;
            return;
        }
        fooled |= false_match;
        assert!(
            fooled || rounds <= differ,
            "{differ} keys differed, and {rounds} rounds were too few"
        );
        let grew = world.kiosks != before;
        assert!(
            grew || false_match,
            "no match was false, and no key came across"
        );
        // With a match that is false two kiosks can stay apart for ever.
        idle += usize::from(!grew);
        if idle == 6 {
            told.fooled_apart += 1;
            return;
        }
    }
    for at in [one, other] {
        assert_eq!(
            keys_of(&world.kiosks[at].store),
            union,
            "both hold the union"
        );
    }
    // Meeting lasts: as many rounds as differed leave them so.
    if rounds < differ {
        let (reply, _) = world.round(other, one, None, drill, told);
        assert_eq!(reply.number(), 0);
        assert_eq!(keys_of(&world.kiosks[one].store), union, "both still do");
        assert_eq!(world.kiosks[one].store, world.kiosks[other].store);
    }
    if fooled {
        told.fooled_met += 1;
        return;
    }
    *told.met.entry((differ_class(differ), rounds)).or_default() += 1;
}

fn keys_of(store: &RawStore) -> BTreeSet<u64> {
    store.held().iter().copied().collect()
}

/// The largest number of a class of differences; two stores that have no key in
/// common differ by all that both hold.
const CLASSES: [usize; 7] = [0, 1, 4, 24, 100, 400, 2 * LIMIT];

fn differ_class(differ: usize) -> usize {
    CLASSES
        .into_iter()
        .find(|&most| differ <= most)
        .expect("at most the keys of two full stores")
}

impl Told {
    fn event(&mut self, event: &'static str, number: u8) {
        *self.events.entry((event, number)).or_default() += 1;
    }

    fn ways(&mut self, event: &'static str, case: &Case) {
        self.all_ways(event, case.ways.clone());
    }

    fn all_ways(&mut self, event: &'static str, ways: Vec<&'static str>) {
        for way in ways {
            *self.ways.entry((event, way)).or_default() += 1;
        }
    }

    fn print(&self, title: &str) {
        println!("{title}");
        println!("    events by call and number: {:?}", self.events);
        println!("    by call and way: {:?}", self.ways);
        let pairs: usize = self.met.values().sum();
        println!("    pairs that met, no match being false: {pairs}; rounds that it took:");
        let most = self
            .met
            .keys()
            .map(|(_, rounds)| *rounds)
            .max()
            .unwrap_or(0);
        print!("    {:>22}", "keys that differed");
        (0..=most).for_each(|rounds| print!("{rounds:>7}"));
        println!();
        let mut least = 0;
        for class in CLASSES {
            print!("    {:>22}", format!("{least} to {class}"));
            for rounds in 0..=most {
                print!("{:>7}", self.met.get(&(class, rounds)).unwrap_or(&0));
            }
            println!();
            least = class + 1;
        }
        println!(
            "    pairs with a false match: {} met all the same, {} did not; refused: {}",
            self.fooled_met, self.fooled_apart, self.refused
        );
    }

    fn expect(&self, events: &[(&'static str, u8)], often: usize) {
        for event in events {
            let seen = self.events.get(event).copied().unwrap_or(0);
            assert!(seen >= often, "{event:?} was seen only {seen} times");
        }
    }

    /// Fails unless each of these calls went all of these ways often enough.
    fn expect_ways(&self, calls: &[&'static str], ways: &[&'static str], often: usize) {
        for call in calls {
            for way in ways {
                let seen = self.ways.get(&(call, way)).copied().unwrap_or(0);
                assert!(seen >= often, "{call}, {way}: only {seen} times");
            }
        }
    }
}

/// One list; `enters` of a hundred events enter a key.
fn list(rng: &mut Rng, events: usize, enters: usize, drill: &mut Drill, told: &mut Told) {
    let mut world = World::new(rng);
    for event in 0..events {
        match rng.below(100) {
            draw if draw < enters => world.enter(rng, drill, told),
            _ => match rng.below(40) {
                0..6 => world.make(rng, drill, told),
                6..26 => world.deliver(rng, drill, told),
                26..35 => world.beat(rng, drill, told),
                35 => world.join(rng, drill, told),
                _ => {
                    let few = rng.one_in(6).then(|| rng.below(40));
                    world.round_on_air(few, rng, drill, told);
                }
            },
        }
        if event % 16 == 0 {
            world.check();
        }
    }
    world.check();
    world.meet(rng, drill, told);
}

/// The events of lists, and the number of each.
const EVENTS: [(&str, u8); 21] = [
    ("enter", 0),
    ("make", 0),
    ("make", 7),
    ("reply", 0),
    ("reply", 2),
    ("reply", 3),
    ("reply", 4),
    ("reply", 5),
    ("reply", 16),
    ("take", 0),
    ("take", 2),
    ("take", 3),
    ("take", 4),
    ("take", 5),
    ("take", 16),
    ("beat", 0),
    ("beat", 15),
    ("round", 0),
    ("round", 9),
    ("join", 0),
    ("join", 15),
];

#[test]
fn lists_of_events() {
    let mut drill = Drill::start();
    let mut told = Told::default();
    for_seeds(240, |_, rng| {
        let enters = rng.pick(&[10, 25, 40]);
        list(rng, 160, enters, &mut drill, &mut told);
    });
    told.print("lists of 160 events, 2 to 5 kiosks");
    if !one_seed() {
        told.expect(&EVENTS, 40);
        // A claim made is true of its sender, and there is space here.
        let threes = [ADDED, OTHERS].concat();
        told.expect_ways(&["reply", "take", "round"], &threes, 10);
        told.expect_ways(&["beat"], &[MATCHED, HELPED], 40);
        let [none_equal, some_equal, _] = EQUAL;
        told.expect_ways(&["join"], &[KEPT[0], KEPT[1], none_equal], 40);
        told.expect_ways(&["join"], &KEYS, 10);
        told.expect_ways(&["join"], &[some_equal], 20);
    }
}

/// The first events of a long list, of which nine in sixteen enter a key: more
/// keys than a kiosk can hold.
const FILLING: usize = 2 * LIMIT;

/// The events of lists that enter so many, and the number of each.
const EVENTS_PAST: [(&str, u8); 7] = [
    ("enter", 6),
    ("reply", 6),
    ("take", 6),
    ("round", 8),
    ("round", 0),
    ("join", 8),
    ("join", 0),
];

/// Long lists with more keys than the kiosks can hold: 6 and 8 come, and never
/// before as many different keys are entered as one can hold.
#[test]
fn lists_past_the_limit() {
    let mut drill = Drill::start();
    let mut told = Told::default();
    for_seeds(6, |_, rng| {
        let mut world = World::new(rng);
        world.kiosks.truncate(3);
        world.density = Density::WIDE;
        for event in 0..FILLING + 1_600 {
            // Once the kiosks are full, mostly what they say to each other.
            let least = if event < FILLING { 0 } else { 7 };
            match least + rng.below(16 - least) {
                // Seldom: it leaves fewer keys for the others to tell.
                _ if rng.one_in(120) => world.join(rng, &mut drill, &mut told),
                0..9 => world.enter(rng, &mut drill, &mut told),
                9..11 => world.make(rng, &mut drill, &mut told),
                11..14 => world.deliver(rng, &mut drill, &mut told),
                14 => world.beat(rng, &mut drill, &mut told),
                _ => world.round_on_air(None, rng, &mut drill, &mut told),
            }
            if event % 64 == 0 {
                world.check();
            }
        }
        world.check();
        world.meet(rng, &mut drill, &mut told);
    });
    told.print("lists past the limit");
    if !one_seed() {
        told.expect(&EVENTS_PAST, 20);
        let [ends_held, ..] = NO_SPACE;
        told.expect_ways(&["reply", "take"], &[ends_held], 1);
        told.expect_ways(&["beat"], &[ASKED_FULL, ASK_WAITS, HELP_WAITS], 20);
    }
}

/// Two kiosks with any stores in order, as lists of events can leave them.
#[test]
fn pairs_meet() {
    let mut drill = Drill::start();
    let mut told = Told::default();
    for_seeds(2_500, |_, rng| {
        let (left, right) = if rng.one_in(8) {
            rng.pair_of_few_bits()
        } else {
            rng.pair()
        };
        let mut world = World {
            kiosks: [left, right]
                .map(|keys| RawNode::of(RawStore::of(&keys), &[]))
                .to_vec(),
            entered: (0..=LIMIT as u64).collect(),
            air: Vec::new(),
            density: Density::WIDE,
        };
        meet(&mut world, 0, 1, rng, &mut drill, &mut told);
    });
    told.print("pairs of stores");
    if !one_seed() {
        told.expect(&[("round", 0), ("round", 8)], 40);
        told.expect_ways(&["round"], &[ADDED, OTHERS].concat(), 40);
        told.expect_ways(&["round"], &[LAST_PLACE], 20);
    }
}
