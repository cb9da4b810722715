//! What a new kiosk costs (document 02, slip 5), by `drill`, the archive and
//! the second program; and rounds by `drill`, `rehearse` and the second program
//! that make so many deliveries and leave both stores equal.
//!
//! There is more behind it: where one store has all the keys of the other, no
//! match is false, and a round leaves both with these keys. That is tried too,
//! with either store as the fuller one.

mod rehearse;

use second::{REHEARSAL_RECORDS, RawStore, opening_cost, questions};
use tests::card::{Case, FALSE_MATCH, opening_cost_case, record_case, round_case};
use tests::cases::{compare, digit, noise, one_seed};
use tests::draw::{Rng, image_of};
use tests::drill::Drill;
use tests::opening::*;

const LIMIT: usize = RawStore::LIMIT;

/// How often each number and each way must have been seen.
const OFTEN: usize = 40;

/// How often where cases aren't drawn but told one by one.
const OFTEN_TOLD: usize = 10;

// ---- the call ----

/// What n keys cost, asked of `drill`. The archive answers as the second
/// program does.
fn case_of(n: u64, rng: &mut Rng) -> Case {
    let case = opening_cost_case(n, &mut noise(rng));
    let archive = match minutefrost::opening_cost(n as usize) {
        Ok(deliveries) => (0, deliveries),
        Err(refusal) => (refusal.number(), 0),
    };
    assert_eq!(archive, (case.number, case.expected.count()), "of {n} keys");
    case
}

/// "for each n from 0 to the store limit", each with other noise around it.
#[test]
fn costs_of_every_number() {
    const TIMES: usize = 3;
    let numbers: Vec<u64> = (0..=LIMIT as u64).collect();
    let seen = compare((TIMES * numbers.len()) as u64, |rng| {
        let mut number = rng.0;
        let n = digit(&mut number, &numbers);
        case_of(n, rng)
    });
    if !one_seed() {
        seen.expect(&[0], &SENTENCES, TIMES);
        seen.expect_ways(&[MOST], TIMES);
    }
}

/// Around each power of two, and the limit above it: the low bits alone would
/// be within the limit. Then around the limit, and the last of all.
fn numbers_told() -> Vec<u64> {
    let limit = LIMIT as u64;
    let powers = (0..u64::BITS).map(|bit| 1 << bit);
    let around = |power: u64| [power - 1, power, power + 1, power + limit];
    let mut numbers: Vec<u64> = powers.flat_map(around).collect();
    numbers.extend(limit - 3..=limit + 3);
    numbers.extend([2 * limit, u64::MAX - limit, u64::MAX - 1, u64::MAX]);
    numbers
}

/// "17, for n above the limit, the only question of this call".
#[test]
fn refuses_numbers_above_the_limit() {
    let numbers = numbers_told();
    let seen = compare(numbers.len() as u64, |rng| {
        let mut number = rng.0;
        let n = digit(&mut number, &numbers);
        case_of(n, rng)
    });
    if !one_seed() {
        seen.expect(&[0, 17], &[], OFTEN_TOLD);
        seen.expect_ways(&SENTENCES, 1);
        seen.expect_ways(&ABOVE, 1);
        seen.expect_ways(&[MOST], 1);
    }
}

/// Any number of keys, of any number of bits.
#[test]
fn costs_of_any_number() {
    let limit = LIMIT as u64;
    let seen = compare(6_000, |rng| {
        let n = match rng.below(5) {
            0 => rng.next() % 8,
            1 => rng.next() % (2 * limit),
            2 => limit + rng.next() % 3 - 1,
            3 => (rng.next() << rng.pick(&[16, 32])) | (rng.next() % (2 * limit)),
            _ => rng.next() >> rng.below(64),
        };
        case_of(n, rng)
    });
    if !one_seed() {
        seen.expect(&[0, 17], &SENTENCES, OFTEN);
        seen.expect_ways(&ABOVE, OFTEN);
        seen.expect_ways(&[MOST], OFTEN);
    }
}

/// The deliveries for each number of keys, as `drill` tells them; the second
/// program and the slip's sentences tell the same.
fn costs_told() -> Vec<usize> {
    let case = |n| opening_cost_case(n, &mut || n);
    let cases: Vec<Case> = (0..=LIMIT as u64).map(case).collect();
    let cards: Vec<_> = cases.iter().map(|case| (case.call, &case.given)).collect();
    let replies = Drill::start().ask_all(&cards);
    let costs: Vec<usize> = replies.iter().map(|reply| reply.count()).collect();
    let by_second = (0..=LIMIT).map(|n| opening_cost(n).deliveries);
    assert!(by_second.eq(costs.iter().copied()));
    assert_eq!(costs, costs_by_the_slip());
    costs
}

// ---- rounds ----

/// What is told of a round, beside both stores and how many deliveries it made.
#[derive(Clone, Copy)]
enum Told {
    /// Every delivery (`round_words`).
    All,
    /// The last delivery, or the place after it (`round_record`).
    Last,
    PastLast,
}

const TOLD: [Told; 4] = [Told::All, Told::Last, Told::All, Told::PastLast];

/// A round of two stores, one of which has all keys of the other. It leaves
/// both with these keys, in every place, and no match is false.
fn round_of(keys: [&[u64]; 2], told: Told, rng: &mut Rng) -> Case {
    let [left, right] = keys;
    let fuller = if left.len() < right.len() {
        right
    } else {
        left
    };
    assert_eq!(questions::union_count(left, right), fuller.len(), "nested");
    let stores = keys.map(RawStore::of);
    let [one, other] = stores.clone();
    // As many records as question 9 asks for, of five words.
    let lent = 10 * fuller.len();
    let noise = &mut noise(rng);
    let mut case = match told {
        Told::All => round_case(one, other, lent, noise),
        Told::Last => record_case(one, other, |made| made.saturating_sub(1), noise),
        Told::PastLast => record_case(one, other, |made| made, noise),
    };
    let equal = RawStore::of(fuller);
    assert_eq!(case.number, 0);
    assert_eq!(case.expected.left(), equal);
    assert_eq!(case.expected.right(), equal);
    assert!(!case.ways.contains(&FALSE_MATCH));
    if let Told::All = told {
        let deliveries = case.expected.deliveries();
        case.ways.extend(replies(stores, &deliveries));
    }
    case.on(LEFT_FULLER, left.len() > right.len())
        .on(RIGHT_FULLER, left.len() < right.len())
        .on(EQUAL, left == right)
}

/// How many keys a kiosk is opened with.
fn numbers_of_keys() -> Vec<usize> {
    (0..=64).chain([100, 255, 256, 257, 513, LIMIT]).collect()
}

/// "The round then makes E(n) deliveries for n from 1 on and none for n = 0,
/// whichever keys they are. After it the two stores are equal."
#[test]
fn openings_cost_what_is_told() {
    const TIMES: usize = 4;
    let (costs, numbers) = (costs_told(), numbers_of_keys());
    let cases = numbers.len() * KINDS.len() * TOLD.len() * TIMES;
    let seen = compare(cases as u64, |rng| {
        let mut number = rng.0;
        let n = digit(&mut number, &numbers);
        let keys = digit(&mut number, &KINDS)(rng, n);
        let told = digit(&mut number, &TOLD);
        assert_eq!(keys.len(), n);
        let case = round_of([&[], &keys], told, rng);
        assert_eq!(case.expected.count(), costs[n], "of {n} keys");
        case
    });
    if !one_seed() {
        seen.expect(&[0], &REPLIES, OFTEN);
        seen.expect_ways(&[RIGHT_FULLER, EQUAL, BY_CNT_ALONE], OFTEN);
    }
}

/// "for each n from 0 to the store limit"
#[test]
fn openings_with_every_number_of_keys() {
    let costs = costs_told();
    let numbers: Vec<usize> = (0..costs.len()).collect();
    let seen = compare(numbers.len() as u64, |rng| {
        let mut number = rng.0;
        let n = digit(&mut number, &numbers);
        let keys = rng.pick(&KINDS)(rng, n);
        let case = round_of([&[], &keys], Told::All, rng);
        assert_eq!(case.expected.count(), costs[n], "of {n} keys");
        case
    });
    if !one_seed() {
        seen.expect(&[0], &REPLIES, OFTEN);
        seen.expect_ways(&[RIGHT_FULLER, BY_CNT_ALONE], OFTEN);
    }
}

/// "an empty left store": with the empty one on the right, its whole claim,
/// "made then", comes on top.
#[test]
fn the_other_end_costs_one_more() {
    let (costs, numbers) = (costs_told(), numbers_of_keys());
    let seen = compare((numbers.len() * KINDS.len()) as u64, |rng| {
        let mut number = rng.0;
        let n = digit(&mut number, &numbers);
        let keys = digit(&mut number, &KINDS)(rng, n);
        let case = round_of([&keys, &[]], Told::All, rng);
        let more = usize::from(n > 0);
        assert_eq!(case.expected.count(), costs[n] + more, "of {n} keys");
        case
    });
    if !one_seed() {
        seen.expect(&[0], &REPLIES, OFTEN);
        seen.expect_ways(&[LEFT_FULLER, BY_CNT_ALONE], OFTEN);
    }
}

/// The program has a line for each delivery, and their number in the last. It
/// lends a number of records that isn't the store's: a full one may need more.
#[test]
fn rehearses_openings() {
    let (program, costs) = (rehearse::program(), costs_told());
    let most = LIMIT.min(REHEARSAL_RECORDS / 2);
    for kind in KINDS {
        for n in [0, 1, 3, 4, 5, 6, 100, most, LIMIT] {
            let keys = kind(&mut Rng(n as u64), n);
            let input = [image_of(&[], &[]), image_of(&keys, &[])].concat();
            let printed = rehearse::compare(&program, &input);
            let (last, lines) = match rehearse::number_of(n) {
                0 => (
                    format!("left {n} right {n} claims {}", costs[n]),
                    costs[n] + 1,
                ),
                number => (format!("refused {number}"), 1),
            };
            assert_eq!(printed.lines().last(), Some(&*last));
            assert_eq!(printed.lines().count(), lines);
        }
    }
}

// ---- stores of which one has all keys of the other ----

/// Each store of keys below 8 beside each that has all of its keys, on either
/// side: with keys so close, many spans have the same sum.
#[test]
fn rounds_of_all_nested_pairs_of_few_keys() {
    const KEYS: u64 = 8;
    let seen = compare(2 * 3_u64.pow(KEYS as u32), |rng| {
        let mut number = rng.0;
        let left_fuller = digit(&mut number, &[false, true]);
        let (mut some, mut all) = (Vec::new(), Vec::new());
        for key in 0..KEYS {
            let stores = digit(&mut number, &[0, 1, 2]);
            all.extend((stores > 0).then_some(key));
            some.extend((stores > 1).then_some(key));
        }
        let keys = if left_fuller {
            [all, some]
        } else {
            [some, all]
        };
        round_of([&keys[0], &keys[1]], Told::All, rng)
    });
    if !one_seed() {
        seen.expect(&[0], &REPLIES, OFTEN);
        seen.expect_ways(&FULLER, OFTEN);
        seen.expect_ways(&[BY_CNT_ALONE], OFTEN);
    }
}

/// Stores drawn: of keys below 16, and of keys of any kind up to full stores.
#[test]
fn rounds_of_nested_pairs() {
    let seen = compare(3_000, |rng| {
        let [left, right] = rng.nested();
        let told = rng.pick(&TOLD);
        round_of([&left, &right], told, rng)
    });
    if !one_seed() {
        seen.expect(&[0], &REPLIES, OFTEN);
        seen.expect_ways(&FULLER, OFTEN);
        seen.expect_ways(&[BY_CNT_ALONE], OFTEN);
    }
}
