//! Two thousand keys (document 02, slip 6): every call at the limit, one below
//! and one above, by the proved program and by the second one, and with the
//! number that the request tells. Rehearsals at their edges are in `rehearsal`,
//! drawn lists of events past the limit in `events`.

mod archive;

use archive::{Asked, compare};
use minutefrost::BEAT_FRAMES;
use second::{BEAT_PLACES, Claim, IMAGE_MOST, PENDING, RawNode, RawStore, SHEET_MOST};
use tests::card::*;
use tests::draw::{Density, Rng, claim_of, frame_of, image_of};
use tests::drill::Drill;

const LIMIT: usize = RawStore::LIMIT;

/// Fills the buffers that are lent, and the places that mean nothing.
const NOISE: u64 = 0x0F1E_2D3C_4B5A_6978;

/// The first so many even keys.
fn even(count: usize) -> Vec<u64> {
    (0..count as u64).map(|at| 2 * at).collect()
}

/// A store of them.
fn store(count: usize) -> RawStore {
    RawStore::of(&even(count))
}

/// The drill's reply to a case is what the second program expects, and so is
/// its number what the request tells.
fn expect(drill: &mut Drill, case: Case, number: u8, told: &str) {
    let reply = drill.ask(case.call, &case.given);
    assert_eq!(case.differs(&reply), None, "{told}");
    assert_eq!(case.number, number, "{told}");
}

fn noise() -> u64 {
    NOISE
}

/// "The limit becomes 2,048, in stores": the numbers themselves, once.
#[test]
fn the_numbers_of_the_request() {
    assert_eq!((LIMIT, IMAGE_MOST), (2_048, 18_052));
    assert_eq!(LIMIT, minutefrost::KEYS_MOST);
    assert_eq!(IMAGE_MOST, minutefrost::IMAGE_MOST);
}

#[test]
fn stores_hold_so_many_keys() {
    let mut drill = Drill::start();
    // A key that is held, one below all others, one above.
    for (key, new) in [(4, false), (1, true), (u64::MAX, true)] {
        for (count, number) in [(LIMIT - 1, 0), (LIMIT, if new { 6 } else { 0 })] {
            let case = enter_case(store(count), key, &mut noise);
            expect(&mut drill, case, number, &format!("{count}, {key}"));
        }
    }
    for (count, number) in [(LIMIT - 1, 1), (LIMIT, 0), (LIMIT + 1, 1)] {
        let mut given = store(LIMIT);
        given.count = count;
        given.resum();
        let case = enter_case(given, 4, &mut noise);
        expect(&mut drill, case, number, &format!("a count of {count}"));
    }
}

/// "in cnt"; "case k's 1,025 becomes 2,049": with room between lo and hi, and
/// with too little, where 4 would be answered no as well.
#[test]
fn claims_count_so_many_keys() {
    let mut drill = Drill::start();
    for (cnt, number) in [(LIMIT - 1, 0), (LIMIT, 0), (LIMIT + 1, 3), (0, 3)] {
        for (lo, hi) in [(5, u64::MAX), (0, LIMIT as u64 - 1), (0, 2 * LIMIT as u64)] {
            let claim = Claim::new(lo, hi, 7, cnt as u16);
            let case = judge_case(claim, &mut noise);
            expect(&mut drill, case, number, &format!("{claim:?}"));
        }
    }
    let claim = Claim::new(1, 9, 7, LIMIT as u16 + 1);
    expect(&mut drill, judge_case(claim, &mut noise), 3, "no room");
    let claim = Claim::new(1, 9, 7, LIMIT as u16);
    expect(&mut drill, judge_case(claim, &mut noise), 4, "no room");
}

/// The claim of all that a full store holds, made and heard.
#[test]
fn full_stores_make_and_hear_claims() {
    let mut drill = Drill::start();
    for (last, number) in [(LIMIT - 2, 0), (LIMIT - 1, 0), (LIMIT, 7)] {
        let case = make_case(&store(LIMIT), 0, last, &mut noise);
        expect(&mut drill, case, number, &format!("up to {last}"));
    }
    let keys = even(LIMIT);
    for claim in [claim_of(&keys), claim_of(&keys[..LIMIT - 1])] {
        let case = reply_case(store(LIMIT), claim, &mut noise);
        expect(&mut drill, case, 0, &format!("{claim:?}"));
        let case = take_case(RawNode::of(store(LIMIT), &[]), claim, &mut noise);
        expect(&mut drill, case, 0, &format!("{claim:?}"));
    }
    // One end is missing, then both; what is missing must fit.
    let [low, high] = [1, 2 * LIMIT as u64 + 1];
    for (count, lo, number) in [
        (LIMIT - 2, low, 0),
        (LIMIT - 1, low, 6),
        (LIMIT - 1, 0, 0),
        (LIMIT, 0, 6),
    ] {
        let claim = Claim::new(lo, high, lo ^ high, 2);
        let case = reply_case(store(count), claim, &mut noise);
        expect(&mut drill, case, number, &format!("{count}, {claim:?}"));
        let case = take_case(RawNode::of(store(count), &[]), claim, &mut noise);
        expect(&mut drill, case, number, &format!("{count}, {claim:?}"));
    }
}

/// So many keys from all over, so that no match is false.
fn scattered(count: usize) -> Vec<u64> {
    let mut rng = Rng(NOISE);
    rng.keys_of(count, Density::WIDE)
}

/// Two stores of a union of so many keys: the lower and the upper half of it,
/// every other key, all of it on one side, and on both where it fits.
fn pairs(union: usize) -> Vec<[Vec<u64>; 2]> {
    let keys = scattered(union);
    let (lower, upper) = keys.split_at(union / 2);
    let every_other = [0, 1].map(|first| keys.iter().copied().skip(first).step_by(2).collect());
    let mut pairs = vec![[lower.to_vec(), upper.to_vec()], every_other];
    if union <= LIMIT {
        pairs.push([keys.clone(), Vec::new()]);
        pairs.push([keys.clone(), keys]);
    } else {
        pairs.push([keys[1..].to_vec(), keys[..1].to_vec()]);
    }
    pairs
}

/// "in unions": one of as many keys as the limit passes 8, with records enough,
/// and gets 9 with one too few; one of a key more gets 8, whatever is lent.
#[test]
fn unions_have_so_many_keys() {
    let mut drill = Drill::start();
    for (union, fits) in [(LIMIT - 1, true), (LIMIT, true), (LIMIT + 1, false)] {
        for pair in pairs(union) {
            for (records, number) in [(2 * union, 0), (2 * union - 1, 9), (0, 9)] {
                let [left, right] = [0, 1].map(|end: usize| RawStore::of(&pair[end]));
                let case = round_case(left, right, 5 * records, &mut noise);
                let number = if fits { number } else { 8 };
                let told = format!("a union of {union}, {records} records");
                expect(&mut drill, case, number, &told);
            }
        }
    }
}

/// "two ends that meet come away with the same keys": a union of exactly the
/// limit, by as many rounds as it takes; no more than keys differ.
#[test]
fn a_full_union_meets() {
    let mut drill = Drill::start();
    for pair in pairs(LIMIT) {
        let mut stores = [0, 1].map(|end: usize| RawStore::of(&pair[end]));
        let differ = 2 * LIMIT - pair[0].len() - pair[1].len();
        let mut rounds = 0;
        while stores[0] != stores[1] {
            let [left, right] = stores;
            let case = round_case(left, right, 5 * 2 * LIMIT, &mut noise);
            stores = [case.expected.left(), case.expected.right()];
            assert!(!case.ways.contains(&FALSE_MATCH));
            expect(&mut drill, case, 0, "a union that fits");
            rounds += 1;
        }
        assert!(rounds <= differ, "{rounds} rounds, {differ} keys");
        assert_eq!(stores[0].held(), scattered(LIMIT));
    }
}

/// A round over records, of which the last that a full union fills is read.
#[test]
fn rounds_over_records_have_so_many_keys() {
    let mut drill = Drill::start();
    for (union, number) in [(LIMIT, 0), (LIMIT + 1, 8)] {
        for [left, right] in pairs(union) {
            let [left, right] = [left, right].map(|keys| RawStore::of(&keys));
            let last = |made: usize| made.saturating_sub(1);
            let case = record_case(left, right, last, &mut noise);
            expect(&mut drill, case, number, &format!("a union of {union}"));
        }
    }
}

/// The image of the first so many even keys, with claims of as many pending.
fn image(count: usize, pending: usize) -> Vec<u8> {
    let keys = even(count);
    let [lo, hi] = [keys[0], keys[count - 1]];
    let claims = (0..pending as u64).map(|at| Claim::new(lo, hi, at, count as u16));
    image_of(&keys, &claims.collect::<Vec<_>>())
}

/// "An image may have 18,052 bytes": 14 of one with a key more, and of one with
/// a claim more; of its pending claims 3.
#[test]
fn images_have_so_many_bytes() {
    let mut drill = Drill::start();
    for (count, pending, number) in [
        (LIMIT - 1, PENDING, 0),
        (LIMIT, PENDING, 0),
        (LIMIT, PENDING + 1, 14),
        (LIMIT + 1, 0, 14),
        (LIMIT + 1, PENDING, 14),
    ] {
        let image = image(count, pending);
        let (length, told) = (image.len(), format!("{count} keys, {pending} claims"));
        assert_eq!(length == IMAGE_MOST, (count, pending) == (LIMIT, PENDING));
        let case = read_image_case(image.clone(), length, &mut noise);
        expect(&mut drill, case, number, &told);
        let case = image_length_case(image, length, &mut noise);
        expect(&mut drill, case, number, &told);
    }
    let node = RawNode::of(store(LIMIT), &[]);
    for lent in [8 * LIMIT + 3, 8 * LIMIT + 4] {
        let number = if lent < 8 * LIMIT + 4 { 15 } else { 0 };
        let case = write_image_case(&node, lent, &mut noise);
        expect(&mut drill, case, number, &format!("{lent} bytes"));
    }
    let claim = Claim::new(0, u64::MAX, 7, LIMIT as u16 + 1);
    let image = image_of(&[0, u64::MAX], &[claim]);
    let case = read_image_case(image.clone(), image.len(), &mut noise);
    expect(&mut drill, case, 1, "a claim that counts too many");
}

/// What a host call answers, by both programs. One that is refused has written
/// nothing.
fn answer(asked: &Asked) -> i64 {
    let left = compare(asked, NOISE);
    let answer = left.answer;
    assert!(answer >= 0 || left == asked.leaving(NOISE, answer, &[], &[]));
    answer
}

/// "and the host calls require that much output": whatever they will write.
#[test]
fn host_calls_require_so_many_bytes() {
    let frame = frame_of(&[claim_of(&[0])]);
    for image in [image(2, 0), image(LIMIT, PENDING)] {
        for lent in [0, image.len() - 1, IMAGE_MOST - 1, IMAGE_MOST] {
            for asked in [
                Asked::Take(image.clone(), frame.clone(), lent),
                Asked::Enter(image.clone(), 0, lent),
                Asked::Beat(image.clone(), lent, BEAT_FRAMES),
                Asked::Join(image.clone(), image.clone(), lent),
            ] {
                let answer = answer(&asked);
                assert_eq!(answer == -15, lent < IMAGE_MOST, "{lent} bytes: {answer}");
                assert!(answer > 0 || answer == -15, "{lent} bytes: {answer}");
            }
        }
    }
}

/// "a frame that brings key 2,049 gets 6", and so does entering it; the one
/// before is taken.
#[test]
fn no_frame_brings_a_key_too_many() {
    let new = |at: u64| claim_of(&[2 * at + 1]);
    let held = claim_of(&[0, 2]);
    for (count, claims, taken) in [
        (LIMIT - 1, vec![new(0)], true),
        (LIMIT - 1, vec![new(0), held], true),
        (LIMIT - 1, vec![new(0), new(1)], false),
        (LIMIT - 1, vec![held, new(5), held, new(6)], false),
        (LIMIT, vec![held], true),
        (LIMIT, vec![new(0)], false),
        (LIMIT, vec![held, held, held, new(9)], false),
    ] {
        let image = image_of(&even(count), &[]);
        let asked = Asked::Take(image, frame_of(&claims), IMAGE_MOST);
        let answer = answer(&asked);
        assert_eq!(answer > 0, taken, "{count} keys, {claims:?}: {answer}");
        assert!(taken || answer == -6, "{count} keys, {claims:?}: {answer}");
    }
    for (count, expected) in [(LIMIT - 1, 8 * LIMIT as i64 + 4), (LIMIT, -6)] {
        let asked = Asked::Enter(image_of(&even(count), &[]), u64::MAX, IMAGE_MOST);
        assert_eq!(answer(&asked), expected, "{count} keys");
    }
}

/// Two images become one of as many keys as the limit, and not of one more; each
/// of them may have so many.
#[test]
fn images_are_joined_up_to_so_many_keys() {
    for (union, fits) in [(LIMIT - 1, true), (LIMIT, true), (LIMIT + 1, false)] {
        for pair in pairs(union) {
            let [first, second] = pair.map(|keys| image_of(&keys, &[]));
            let expected = if fits { 4 + 8 * union as i64 } else { -8 };
            let asked = Asked::Join(first, second, IMAGE_MOST);
            assert_eq!(answer(&asked), expected, "a union of {union}");
        }
    }
}

/// What slips 4 and 5 brought follows: the longest sheet, and what it costs to
/// fill a store.
#[test]
fn sheets_and_costs_go_so_far() {
    let mut drill = Drill::start();
    assert_eq!(SHEET_MOST, 44_163);
    for (lent, number) in [(SHEET_MOST, 0), (SHEET_MOST - 1, 15)] {
        let asked = Asked::Sheet(image_of(&even(LIMIT), &[]), lent);
        let expected = if number == 0 { SHEET_MOST as i64 } else { -15 };
        assert_eq!(answer(&asked), expected, "{lent} bytes");
        let case = write_sheet_case(&store(LIMIT), lent, &mut noise);
        expect(&mut drill, case, number, &format!("{lent} bytes"));
    }
    for (keys, number, deliveries) in [(LIMIT - 1, 0, 1_449), (LIMIT, 0, 1_451), (LIMIT + 1, 17, 0)]
    {
        let case = opening_cost_case(keys as u64, &mut noise);
        assert_eq!(case.expected.count(), deliveries, "{keys} keys");
        expect(&mut drill, case, number, &format!("{keys} keys"));
    }
}

/// A full table beside a full store: each claim of as many keys as fit.
#[test]
fn full_nodes_beat() {
    let mut drill = Drill::start();
    let keys = even(LIMIT);
    let [lo, hi] = [keys[0], keys[LIMIT - 1]];
    for cnt in [2, LIMIT - 1, LIMIT] {
        let sums = (0..PENDING as u64).map(|at| if cnt == 2 { lo ^ hi } else { at });
        let mut claims: Vec<Claim> = sums
            .map(|sum| Claim::new(lo, hi, sum, cnt as u16))
            .collect();
        claims.dedup();
        let node = RawNode::of(RawStore::of(&keys), &claims);
        let case = beat_case(node, 4 * BEAT_PLACES, &mut noise);
        expect(&mut drill, case, 0, &format!("claims of {cnt}"));
    }
}
