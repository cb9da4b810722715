//! Running sums beside the keys (document 02, slip 7), by `drill` and by the
//! second program: each call that is given a store asks for them with question
//! 1, before all other questions; each that gives one back has made them right;
//! and the sum of a claim is the one of its span, from wherever it is read.
//!
//! Wrong sums that are drawn come with the other calls, in `calls` and `sheet`;
//! those of kiosks in lists of events are looked at in `events`.

use std::collections::{BTreeMap, BTreeSet};

use second::*;
use tests::card::*;
use tests::cases::{Seen, compare, digit, for_seeds, one_seed};
use tests::draw::{Rng, claim_of, image_of};
use tests::drill::{Call, Card, Drill};
use tests::given::{CALLS, calls_on, noise};
use tests::opening;
use tests::sums::*;

const LIMIT: usize = RawStore::LIMIT;

/// How often each way must have been gone.
const OFTEN: usize = 10;

/// How often where each of many stores is given to many calls.
const OFTEN_GIVEN: usize = 100;

/// Makes calls by the drill: its replies are what the second program expects.
fn ask_all(drill: &mut Drill, cases: &[Case]) -> Vec<Card> {
    let cards: Vec<_> = cases.iter().map(|case| (case.call, &case.given)).collect();
    let replies = drill.ask_all(&cards);
    for (case, reply) in cases.iter().zip(&replies) {
        assert_eq!(case.differs(reply), None);
    }
    replies
}

// ---- what right sums are ----

/// What these tests hold sums against: each place by a loop of its own over
/// "all keys up to and with that place", and some by hand.
#[test]
fn right_sums_by_loops() {
    for kind in opening::KINDS {
        let keys = kind(&mut Rng(7), LIMIT - 9);
        let sums = right_beside(&keys);
        for (at, sum) in sums.iter().enumerate() {
            let up_to = if at < keys.len() { &keys[..=at] } else { &[] };
            assert_eq!(*sum, up_to.iter().fold(0, |sum, key| sum ^ key));
        }
    }
    let by_hand = |keys: &[u64]| right_beside(keys)[..4].to_vec();
    assert_eq!(by_hand(&[0, 5, 6]), [0, 5, 3, 0]);
    assert_eq!(by_hand(&[1, 2, 3]), [1, 3, 0, 0]);
    assert_eq!(by_hand(&[5, u64::MAX]), [5, u64::MAX - 5, 0, 0]);
}

// ---- stores with wrong sums ----

/// How many keys a store has.
const COUNTS: [usize; 7] = [0, 1, 2, 3, 17, LIMIT - 1, LIMIT];

/// Which keys: from anywhere, with the first and the last of all among them,
/// the lowest, the highest.
const KEYS_OF_STORES: &[opening::Kind] = opening::KINDS.first_chunk::<4>().unwrap();

/// A store of so many keys whose sums are wrong in one way, if it can have such.
fn wrong_store(count: usize, keys: opening::Kind, damage: (&str, Damage)) -> Option<RawStore> {
    let (way, damage) = damage;
    (0..8).find_map(|seed| {
        let mut rng = Rng(seed);
        let mut store = RawStore::of(&keys(&mut rng, count));
        damage(&mut rng, &mut store);
        ways(&store).contains(&way).then_some(store)
    })
}

/// All of these stores.
fn wrong_stores() -> impl Iterator<Item = RawStore> {
    let keys = |count| KEYS_OF_STORES.iter().map(move |keys| (count, *keys));
    let stores = COUNTS.into_iter().flat_map(keys);
    stores.flat_map(|(count, keys)| {
        let damages = DAMAGES.into_iter();
        damages.filter_map(move |damage| wrong_store(count, keys, damage))
    })
}

/// Stores of each number of keys go every way that there is room for.
#[test]
fn sums_are_wrong_in_every_way() {
    let mut seen: BTreeMap<usize, BTreeSet<&str>> = BTreeMap::new();
    for store in wrong_stores() {
        assert!(!questions::q1_store_in_order(&store));
        assert!(questions::q1_store_in_order(&RawStore::of(store.held())));
        seen.entry(store.count).or_default().extend(ways(&store));
    }
    let past = [BEHIND, LAST_PLACE];
    let of_two_keys = [NEIGHBOUR, TWO, FROM_ONE_ON, KEYS];
    for count in COUNTS {
        let expected = KINDS.into_iter().filter(|way| match count {
            0 => past.contains(way) || *way == ANOTHER,
            1 => !of_two_keys.contains(way),
            LIMIT => !past.contains(way),
            _ => true,
        });
        let expected: BTreeSet<&str> = expected.chain([ALONE]).collect();
        assert_eq!(seen[&count], expected, "of {count} keys");
    }
}

// ---- every call that is given a store ----

/// Every call on a store whose sums are wrong gets 1, or is told that it isn't
/// in order, and gives back what it was given. Returned are the ways, and the
/// numbers that are answered where the sums are right.
fn expect_1(drill: &mut Drill, store: &RawStore) -> (Vec<&'static str>, Vec<u8>) {
    let cases = calls_on(store);
    ask_all(drill, &cases);
    let called: BTreeSet<Call> = cases.iter().map(|case| case.call).collect();
    assert!(called.into_iter().eq(CALLS));
    for case in &cases {
        let number = u8::from(case.call != Call::Ordered);
        assert_eq!(case.number, number, "{:?} of {store:?}", case.call);
        assert!(case.expected == case.refused_by(number), "{:?}", case.call);
    }
    let with_right_sums = calls_on(&RawStore::of(store.held()));
    let numbers = with_right_sums.iter().map(|case| case.number);
    let ways = cases.into_iter().flat_map(|case| case.ways);
    (ways.collect(), numbers.collect())
}

/// "A store is in order only if these numbers are right too, which question 1
/// covers": each of the others that is put after it would be answered no by
/// some of these calls.
#[test]
fn wrong_sums_get_1_from_every_call() {
    let mut drill = Drill::start();
    let [mut seen, mut otherwise] = [Seen::default(), Seen::default()];
    for store in wrong_stores() {
        let (ways, numbers) = expect_1(&mut drill, &store);
        seen.all(ways);
        numbers.iter().for_each(|number| otherwise.number(*number));
    }
    seen.expect_ways(&KINDS, OFTEN_GIVEN);
    seen.expect_ways(&SIDES, OFTEN_GIVEN);
    let numbers = [0, 2, 3, 4, 5, 6, 7, 8, 9, 15, 16];
    otherwise.expect(&numbers, &[], OFTEN_GIVEN);
}

/// A bit of a single sum: at every place in use and at every other, and each of
/// the 64.
#[test]
fn no_place_and_no_bit_is_passed_over() {
    let stores = [0, LIMIT / 2, LIMIT].map(|count| {
        let [_, with_both_ends, ..] = opening::KINDS;
        RawStore::of(&with_both_ends(&mut Rng(1), count))
    });
    let stores: Vec<&RawStore> = stores.iter().collect();
    let places: Vec<usize> = (0..LIMIT).collect();
    let seen = compare((stores.len() * LIMIT) as u64, |rng| {
        let mut number = rng.0;
        let mut store = digit(&mut number, &stores).clone();
        let place = digit(&mut number, &places);
        store.sums[place] ^= 1 << (place % 64);
        make_case(&store, 0, 0, &mut noise)
    });
    if !one_seed() {
        seen.expect(&[1], &[ONE_BIT], LIMIT);
        seen.expect_ways(&[FIRST, LAST, BEHIND, LAST_PLACE], 1);
    }
}

/// These keys with sums that are all zero.
fn beside_zeros(keys: &[u64]) -> RawStore {
    RawStore {
        sums: Box::new([0; LIMIT]),
        ..RawStore::of(keys)
    }
}

/// The sum of key 0 alone is 0, as is that of a place not in use.
#[test]
fn zeros_are_the_sums_of_no_key_and_of_key_0_alone() {
    let mut drill = Drill::start();
    for keys in [&[][..], &[0]] {
        let cases = calls_on(&beside_zeros(keys));
        let replies = ask_all(&mut drill, &cases);
        let mut accepted = BTreeSet::new();
        for (case, reply) in cases.iter().zip(replies) {
            let ordered = case.call == Call::Ordered;
            assert!(reply.number() != 1 && (!ordered || reply.count() == 1));
            accepted.extend((reply.number() == 0).then_some(case.call));
        }
        // No store without keys has a claim to make.
        let made = |call: &Call| !keys.is_empty() || *call != Call::Make;
        assert!(accepted.into_iter().eq(CALLS.into_iter().filter(made)));
    }
    // Of the last two a sum is 0 in a place in use, where it is right.
    for keys in [&[1][..], &[u64::MAX], &[0, 1], &[1, 2, 3]] {
        let (ways, _) = expect_1(&mut drill, &beside_zeros(keys));
        assert!(ways.contains(&ZEROS), "{keys:?}");
    }
}

// ---- every call that gives a store back ----

/// Where keys are that a store has and hadn't before.
const NEW_KEYS: [&str; 4] = [
    "the first key is new",
    "a key between is new",
    "the last key is new",
    "no key is new",
];

fn ways_of_growing(before: &RawStore, after: &RawStore) -> Vec<&'static str> {
    let is_new = |key: &u64| before.held().binary_search(key).is_err();
    let new: Vec<bool> = after.held().iter().map(is_new).collect();
    let between = new.get(1..new.len().max(2) - 1).unwrap_or_default();
    let gone = [
        new.first() == Some(&true),
        between.contains(&true),
        new.last() == Some(&true),
        !new.contains(&true),
    ];
    let ways = NEW_KEYS.into_iter().zip(gone);
    ways.filter_map(|(way, gone)| gone.then_some(way)).collect()
}

/// A call that changes stores in order, or reads one.
fn changing(rng: &mut Rng) -> Case {
    let density = rng.density();
    let keys = rng.keys(density);
    let key = rng.key(density);
    match rng.below(7) {
        0 | 1 => enter_case(RawStore::of(&keys), key, &mut noise),
        2 => {
            let (keys, claim) = rng.three();
            reply_case(RawStore::of(&keys), claim, &mut noise)
        }
        3 => reply_case(RawStore::of(&keys), rng.claim(&keys, density), &mut noise),
        4 => take_case(rng.node_of(&keys), rng.claim(&keys, density), &mut noise),
        5 => {
            let (left, right) = rng.pair();
            let [left, right] = [left, right].map(|keys| RawStore::of(&keys));
            round_case(left, right, 5 * RECORDS, &mut noise)
        }
        _ => {
            let image = image_of(&keys, &rng.saved_table(&keys));
            let length = image.len();
            read_image_case(image, length, &mut noise)
        }
    }
}

/// "The image doesn't hold them; reading works them out." And what a key comes
/// into has them renewed, wherever its place is.
#[test]
fn stores_come_back_with_right_sums() {
    let mut drill = Drill::start();
    let mut seen: BTreeMap<Call, Seen> = BTreeMap::new();
    for_seeds(3_000, |_, rng| {
        let case = changing(rng);
        let reply = drill.ask(case.call, &case.given);
        assert_eq!(case.differs(&reply), None);
        let seen = seen.entry(case.call).or_default();
        let [left, right]: [fn(&Card) -> RawStore; 2] = [Card::left, Card::right];
        let round = case.call == Call::Round;
        for store in [Some(left), round.then_some(right)].into_iter().flatten() {
            let (before, after) = (store(&case.given), store(&reply));
            assert!(after.count <= LIMIT);
            assert!(are_right(&after), "{:?} leaves {after:?}", case.call);
            if case.number == 0 && case.call != Call::ReadImage {
                seen.all(ways_of_growing(&before, &after));
            }
            seen.number(case.number);
        }
    });
    if !one_seed() {
        for call in [Call::Enter, Call::Reply, Call::Take, Call::Round] {
            seen[&call].expect_ways(&NEW_KEYS, OFTEN);
        }
        seen[&Call::ReadImage].expect(&[0], &[], OFTEN);
    }
}

// ---- the sums of claims ----

/// Where the span of a claim lies, and what its sum is.
const SPANS: [&str; 5] = [
    "from position 0",
    "from another",
    "one key",
    "all keys",
    "a sum of 0",
];

/// The claim of positions of a store, its sum worked out by a loop over its
/// keys: "read from two of them, or from one where the span begins at position
/// 0", it is the same.
fn made(store: &RawStore, first: usize, last: usize) -> Case {
    let claim = claim_of(&store.held()[first..=last]);
    let case = make_case(store, first, last, &mut noise);
    assert_eq!((case.number, case.expected.claim(0)), (0, claim));
    let [from_0, from_another, one, all, zero] = SPANS;
    case.on(from_0, first == 0)
        .on(from_another, first > 0)
        .on(one, first == last)
        .on(all, first == 0 && last + 1 == store.count)
        .on(zero, claim.sum == 0)
}

#[test]
fn claims_of_all_spans_of_few_keys() {
    let counts = [1, 2, 3, 4, 17];
    let stores = opening::KINDS.map(|kind| {
        let store = |count| RawStore::of(&kind(&mut Rng(count as u64), count));
        counts.map(store)
    });
    let mut spans = Vec::new();
    for store in stores.as_flattened() {
        for last in 0..store.count {
            spans.extend((0..=last).map(|first| (store, first, last)));
        }
    }
    let seen = compare(spans.len() as u64, |rng| {
        let mut number = rng.0;
        let (store, first, last) = digit(&mut number, &spans);
        made(store, first, last)
    });
    if !one_seed() {
        seen.expect(&[0], &SPANS, OFTEN);
    }
}

/// Of full stores, from the first position and to the last one more often.
#[test]
fn claims_of_any_spans_of_full_stores() {
    let stores = opening::KINDS.map(|kind| RawStore::of(&kind(&mut Rng(3), LIMIT)));
    let seen = compare(2_000, |rng| {
        let store = &stores[rng.below(stores.len())];
        let ends = [0, 1, LIMIT - 2, LIMIT - 1];
        let mut position = || match rng.one_in(2) {
            true => rng.pick(&ends),
            false => rng.below(LIMIT),
        };
        let (one, other) = (position(), position());
        made(store, one.min(other), one.max(other))
    });
    if !one_seed() {
        seen.expect(&[0], &SPANS, OFTEN);
    }
}
