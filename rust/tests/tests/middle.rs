//! The middle key of three (document 02, slip 1) beside the second program,
//! where its sentences meet the limit, the first and the last of all keys and
//! one another: rounds of every pair of stores over six keys, claims of three
//! of every kind for stores nearly full, those with them that are refused since
//! no store could make them (slip 2), and frames of such claims. Random ones
//! come with the other calls, in their tests.

mod archive;

use archive::{Asked, compare as compare_host, left_by, number};
use minutefrost::{BEAT_FRAMES, IMAGE_MOST};
use second::*;
use tests::card::*;
use tests::cases::{Seen, compare, digit, for_seeds, one_seed};
use tests::draw::{Rng, frame_of, image_of};
use tests::left_out;
use tests::middle::{self, ADDED, BEFORE_6, LAST_PLACE, OTHERS, OUTCOMES, REFUSED, three};

const LIMIT: usize = RawStore::LIMIT;

/// How often each way must have been gone; most cases here aren't drawn.
const OFTEN: usize = 10;

/// Fills the places that mean nothing to a call.
const NOISE: u64 = 0x5A5A_0101_F0F0_3C3C;

// ---- rounds of every pair of stores over six keys ----

/// One bit each, so that no key is the XOR of others; and keys so close that
/// many are.
const SIX: [[u64; 6]; 2] = [[1, 2, 4, 8, 16, 32], [1, 2, 3, 4, 5, 6]];

/// How many pairs of stores there are over six keys.
const PAIRS: u64 = 64 * 64;

/// The keys that both stores of a pair have: so many below the six, and above
/// them as many as the union lacks.
#[derive(Clone, Copy)]
struct Common {
    below: u64,
    union: usize,
}

/// The round of a pair, told by a number: which six keys, and which of them
/// are left and right.
fn round_of_pair(pair: u64, common: Common) -> Case {
    let base = 64 * common.below;
    let six = SIX[(pair / PAIRS % 2) as usize].map(|key| base + key);
    let subset = |bits: u64| {
        let held = (0..6).filter(move |at| bits >> at & 1 == 1);
        held.map(move |at| six[at])
    };
    let below = (0..common.below).map(|at| 64 * at);
    let stores = [pair, pair >> 6].map(|bits| below.clone().chain(subset(bits)));
    let [mut left, mut right] = stores.map(Iterator::collect::<Vec<u64>>);
    let union = questions::union_count(&left, &right);
    let above = (base + 100..).take(common.union.saturating_sub(union));
    left.extend(above.clone());
    right.extend(above);
    let [left, right] = [left, right].map(|keys| RawStore::of(&keys));
    // As many records as question 9 asks for, of five words.
    let lent = 10 * union.max(common.union);
    round_case(left, right, lent, &mut || NOISE)
}

/// So many rounds, each pair by the seed that is its number; these ways are
/// gone.
fn rounds_of_pairs(pairs: u64, common: Common, ways: &[&str]) {
    let seen = compare(pairs, |rng| round_of_pair(rng.0, common));
    if !one_seed() {
        seen.expect(&[0], &["met"], OFTEN);
        seen.expect_ways(ways, OFTEN);
    }
}

/// What comes of keys so close that many are the XOR of others.
const MISLED: [&str; 2] = [FALSE_MATCH, "not met yet"];

#[test]
fn rounds_of_all_pairs() {
    let common = Common { below: 0, union: 0 };
    let mut ways = [ADDED, OTHERS].concat();
    ways.extend(MISLED);
    rounds_of_pairs(2 * PAIRS, common, &ways);
}

/// The six keys are the lowest of a union of all that fits: they come across
/// as ends, before claims are as short as three.
#[test]
fn rounds_of_all_pairs_below_others() {
    let union = LIMIT;
    rounds_of_pairs(2 * PAIRS, Common { below: 0, union }, &MISLED);
}

/// With so many of them below, claims as short as three are of the six keys,
/// and the middle one takes the last place. Where twice as many keys fit, the
/// first half of them begins at the second key: so there is one more below.
#[test]
fn rounds_of_all_pairs_among_others() {
    let (below, union) = (u64::from(21 + LIMIT.ilog2()), LIMIT);
    let [held, missing, _] = OTHERS;
    let mut ways = vec![LAST_PLACE, held, missing];
    ways.extend(ADDED);
    rounds_of_pairs(PAIRS, Common { below, union }, &ways);
}

// ---- claims of three of every kind for stores nearly full ----

/// The ends: the first of all keys, the last, neither, both.
const ENDS: [(u64, u64); 4] = [
    (0, 1 << 20),
    (u64::MAX - (1 << 20), u64::MAX),
    (1 << 20, 1 << 21),
    (0, u64::MAX),
];

/// Whether they are held.
const HELD: [[bool; 2]; 4] = [[true, true], [false, true], [true, false], [false, false]];

/// How many of the store's keys lie between them.
const BETWEEN: [u64; 3] = [0, 1, 3];

/// How many keys the store has; as few as it can where that is none.
const COUNTS: [usize; 6] = [0, LIMIT - 4, LIMIT - 3, LIMIT - 2, LIMIT - 1, LIMIT];

/// How many middle keys there are to each pair of ends.
const MIDDLES: usize = 10;

/// The middle key: next to the ends and far from them between them, held
/// there or not; at the ends; next to them, far from them and held outside.
fn middles((lo, hi): (u64, u64)) -> [u64; MIDDLES] {
    [
        lo + 1,
        hi - 1,
        lo + (1 << 19),
        lo + 100,
        lo,
        hi,
        lo.wrapping_sub(1),
        hi.wrapping_add(1),
        lo.wrapping_add(1 << 40),
        fillers((lo, hi))[0],
    ]
}

/// Keys that don't lie between the ends, the nearest first; or where all do,
/// some that do.
fn fillers((lo, hi): (u64, u64)) -> Vec<u64> {
    let mut keys = Vec::new();
    for at in 1..=LIMIT as u64 {
        keys.extend(lo.checked_sub(16 * at));
        keys.extend(hi.checked_add(16 * at));
        if (lo, hi) == (0, u64::MAX) {
            keys.push((at << 30) + 7);
        }
    }
    keys
}

/// How many stores and claims there are.
const KINDS: usize = ENDS.len() * HELD.len() * BETWEEN.len() * COUNTS.len() * MIDDLES;

/// The keys of a store and a claim of three, told by what is left of a number.
fn kind(number: &mut u64) -> (Vec<u64>, Claim) {
    let (lo, hi) = digit(number, &ENDS);
    let held = digit(number, &HELD);
    let between = digit(number, &BETWEEN);
    let count = digit(number, &COUNTS);
    let middle = digit(number, &middles((lo, hi)));
    let mut keys: Vec<u64> = (1..=between).map(|at| lo + 100 * at).collect();
    let ends = [lo, hi].into_iter().zip(held);
    keys.extend(ends.filter_map(|(end, held)| held.then_some(end)));
    let more = count.saturating_sub(keys.len());
    keys.extend(&fillers((lo, hi))[..more]);
    keys.sort_unstable();
    (keys, three(lo, middle, hi))
}

/// Replied to, taken, taken once more, and taken before a beat.
fn case_of_kind(mut number: u64) -> Case {
    let call = digit(&mut number, &[0, 1, 2, 3]);
    let (keys, claim) = kind(&mut number);
    let node = RawNode::of(RawStore::of(&keys), &[]);
    let noise = &mut || NOISE;
    match call {
        0 => reply_case(node.store, claim, noise),
        1 => take_case(node, claim, noise),
        2 => take_case(take(node, claim).node, claim, noise),
        _ => beat_case(take(node, claim).node, 4 * BEAT_PLACES, noise),
    }
}

#[test]
fn claims_of_three_for_stores_nearly_full() {
    let seen = compare(4 * KINDS as u64, |rng| case_of_kind(rng.0));
    if !one_seed() {
        seen.expect(&[0, 6, 16], &["an equal one is pending"], OFTEN);
        seen.expect_ways(&OUTCOMES.concat(), OFTEN);
        seen.expect_ways(&REFUSED.concat(), OFTEN);
        seen.expect_ways(&[LAST_PLACE, BEFORE_6], OFTEN);
        let beats = [middle::ASKED_FULL, middle::MATCHED, middle::HELPED];
        seen.expect_ways(&beats, OFTEN);
    }
}

// ---- frames of claims of three, and images that have them pending ----

/// A frame of one to four claims of three for a store that is mostly nearly
/// full, some of them twice.
fn frame_of_threes(rng: &mut Rng) -> (Vec<u64>, Vec<Claim>) {
    let (keys, mut claims) = rng.frame_of_threes();
    let n = claims.len();
    if n > 1 && rng.one_in(4) {
        let (one, other) = (rng.below(n), rng.below(n));
        claims[one] = claims[other];
    }
    (keys, claims)
}

/// The ways that the claims of a frame go one by one; or that one is refused,
/// though all ends would fit, for the place that a middle key took; or that
/// all are, since no store could make one of them.
fn ways_of_claims(keys: &[u64], claims: &[Claim]) -> Vec<&'static str> {
    if left_out::is_frame_by_16_alone(claims) {
        return vec![left_out::FRAME];
    }
    let mut ends = keys.to_vec();
    ends.extend(claims.iter().flat_map(|claim| [claim.lo, claim.hi]));
    ends.sort_unstable();
    ends.dedup();
    let mut keys = keys.to_vec();
    let mut ways = Vec::new();
    for claim in claims {
        if !questions::q6_missing_fit(&keys, &[claim.lo, claim.hi]) {
            let fit = ends.len() <= LIMIT;
            return if fit { vec![NO_ROOM] } else { vec![] };
        }
        ways.extend(middle::learn(&mut keys, claim));
    }
    ways
}

const NO_ROOM: &str = "a middle key took the room of an end";

#[test]
fn frames_of_claims_of_three() {
    let mut seen = Seen::default();
    for_seeds(4_000, |seed, rng| {
        let (keys, claims) = frame_of_threes(rng);
        let node = rng.node_of(&keys);
        let image = image_of(node.store.held(), node.table());
        let asked = Asked::Take(image, frame_of(&claims), IMAGE_MOST);
        seen.number(number(compare_host(&asked, seed).answer));
        seen.all(ways_of_claims(&keys, &claims));
    });
    if !one_seed() {
        let ways = [LAST_PLACE, NO_ROOM, left_out::FRAME];
        seen.expect(&[0, 6, 13], &ways, OFTEN);
        seen.expect_ways(&OUTCOMES.concat(), OFTEN);
    }
}

fn beaten(image: &[u8]) -> (Vec<u8>, Vec<u8>) {
    left_by(Asked::Beat(image.to_vec(), IMAGE_MOST, BEAT_FRAMES))
}

fn hearing(image: &[u8], claim: Claim) -> Vec<u8> {
    let frame = frame_of(&[claim]);
    left_by(Asked::Take(image.to_vec(), frame, IMAGE_MOST)).0
}

/// As an image can be that was written before the rule: a claim of three is
/// pending beside just its ends. A beat asks and adds no key; the same claim
/// once more brings the key if there is space; the next beat matches it then,
/// and it leaves the table.
#[test]
fn images_with_claims_of_three_pending() {
    for (ends, count) in ENDS[..3]
        .iter()
        .flat_map(|ends| COUNTS.map(|count| (*ends, count)))
    {
        let (lo, hi) = ends;
        let middle = lo + 77;
        let claim = three(lo, middle, hi);
        let own = Claim::new(lo, hi, lo ^ hi, 2);
        let mut keys = vec![lo, hi];
        keys.extend(&fillers(ends)[..count.saturating_sub(2)]);
        keys.sort_unstable();
        let whole = |keys: &[u64]| make(&RawStore::of(keys), 0, keys.len() - 1).claim;
        let image = image_of(&keys, &[claim]);
        let asked = frame_of(&[whole(&keys), own]);
        assert_eq!(beaten(&image), (image.clone(), asked.clone()));
        let heard = hearing(&image, claim);
        if keys.len() == LIMIT {
            assert_eq!(heard, image);
            assert_eq!(beaten(&heard), (image, asked));
            continue;
        }
        keys.push(middle);
        keys.sort_unstable();
        assert_eq!(heard, image_of(&keys, &[claim]));
        let matched = frame_of(&[whole(&keys)]);
        assert_eq!(beaten(&heard), (image_of(&keys, &[]), matched));
    }
}
