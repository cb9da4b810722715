//! Claims of three that no store could make (document 02, slip 2), beside the
//! second program: claims of every kind around that line, heard, in frames and
//! pending in nodes; and images saved before question 16 was asked, which have
//! some pending. These are left out once the image has passed 1, and each call
//! does with such an image what it does with one that never had them. The
//! rehearsal of such images is a test of `rehearsal`; random claims of three
//! come with the other calls, in their tests.

mod archive;

use archive::{ARCHIVE, Asked, compare as compare_host, left_by, number};
use minutefrost::{BEAT_FRAMES, IMAGE_MOST};
use second::*;
use tests::card::*;
use tests::cases::{Seen, compare, digit, for_seeds, one_seed};
use tests::draw::{Rng, claim_of, frame_of, image_of};
use tests::drill::{Card, Drill};
use tests::left_out::{self, BROKEN, LATER, NARROW, PLACES, READ, TOO_MANY, kept};
use tests::middle::{BEFORE_6, REFUSED, is_faulty, three};
use tests::sheet;

const LIMIT: usize = RawStore::LIMIT;

/// How often each number and each way must have been seen.
const OFTEN: usize = 40;

/// How often where cases aren't drawn but told one by one.
const OFTEN_TOLD: usize = 10;

/// Fills the places that mean nothing to a call.
const NOISE: u64 = 0x5A5A_0101_F0F0_3C3C;

// ---- claims of every kind ----

/// The ends: neighbours, as close as three keys can be, and farther apart; the
/// first of all keys, the last, neither, both.
const ENDS: [(u64, u64); 10] = [
    (5, 6),
    (4, 6),
    (4, 7),
    (4, 16),
    (0, 2),
    (0, 16),
    (u64::MAX - 2, u64::MAX),
    (u64::MAX - 16, u64::MAX),
    (1 << 20, 1 << 40),
    (0, u64::MAX),
];

/// The middle key: at the ends, beside them on either side, and far off.
fn middles((lo, hi): (u64, u64)) -> [u64; 10] {
    [
        lo.wrapping_sub(1),
        lo,
        lo.wrapping_add(1),
        hi.wrapping_sub(1),
        hi,
        hi.wrapping_add(1),
        lo / 2 + hi / 2,
        0,
        u64::MAX,
        1 << 63,
    ]
}

/// The counts beside it that the same sum is tried with.
const CNTS: [u16; 4] = [3, 3, 2, 4];

/// How many claims there are.
const KINDS: u64 = (ENDS.len() * 10 * CNTS.len()) as u64;

/// A claim, told by what is left of a number.
fn claim(number: &mut u64) -> Claim {
    let (lo, hi) = digit(number, &ENDS);
    let middle = digit(number, &middles((lo, hi)));
    let cnt = digit(number, &CNTS);
    Claim {
        cnt,
        ..three(lo, middle, hi)
    }
}

/// How many keys a store has, its ends with them; as few as it can where that
/// is none.
const COUNTS: [usize; 4] = [0, LIMIT - 2, LIMIT - 1, LIMIT];

/// A store that holds none of the claim's ends, one of them or both.
fn store(number: &mut u64, claim: &Claim) -> RawStore {
    let count = digit(number, &COUNTS);
    let held: &[u64] = match digit(number, &[0, 1, 2, 3]) {
        0 => &[],
        1 => &[claim.lo],
        2 => &[claim.hi],
        _ => &[claim.lo, claim.hi],
    };
    let mut keys = held.to_vec();
    // Above the ends, or between those that are farthest apart.
    let others = (1..).map(|at| (1 << 41) + 3 * at);
    keys.extend(others.take(count.saturating_sub(held.len())));
    keys.sort_unstable();
    RawStore::of(&keys)
}

/// Judged, replied to and taken.
#[test]
fn hears_claims_of_every_kind() {
    let stores = 4 * COUNTS.len() as u64;
    let seen = compare(3 * KINDS * stores, |rng| {
        let mut number = rng.0;
        let call = digit(&mut number, &[0, 1, 2]);
        let claim = claim(&mut number);
        let store = store(&mut number, &claim);
        let noise = &mut || NOISE;
        match call {
            0 => judge_case(claim, noise),
            1 => reply_case(store, claim, noise),
            _ => take_case(RawNode::of(store, &[]), claim, noise),
        }
    });
    if !one_seed() {
        seen.expect(&[0, 4, 5, 6, 16], &[BEFORE_6], OFTEN_TOLD);
        let [at_lo, at_hi, outside, _] = REFUSED;
        seen.expect_ways(&[at_lo, at_hi, outside].concat(), OFTEN_TOLD);
    }
}

/// Read and written, among three others of a frame or alone.
#[test]
fn frames_with_claims_of_every_kind() {
    let seen = compare(2 * 5 * KINDS, |rng| {
        let mut number = rng.0;
        let reads = digit(&mut number, &[true, false]);
        let at = digit(&mut number, &[None, Some(0), Some(1), Some(2), Some(3)]);
        let claim = claim(&mut number);
        let mut four = [
            three(1, 2, 16),
            claim_of(&[7]),
            three(0, 1, 2),
            three(1, 3, 9),
        ];
        four[at.unwrap_or(0)] = claim;
        let n = if at.is_none() { 1 } else { 4 };
        let noise = &mut || NOISE;
        if reads {
            let bytes = frame_of(&four[..n]);
            let lent = bytes.len();
            return read_frame_case(bytes, lent, noise);
        }
        write_frame_case(four, n as u64, 108, noise)
    });
    if !one_seed() {
        seen.expect(&[0, 13], &[left_out::FRAME], OFTEN_TOLD);
    }
}

/// A node that has the claim pending, alone or between two others; both ends
/// are held, whether or not it passes 2 to 5.
fn node_with(number: &mut u64, claim: Claim) -> RawNode {
    let mut keys = vec![claim.lo, claim.hi, 1 << 50, (1 << 50) + 9];
    keys.sort_unstable();
    keys.dedup();
    let mut pending = vec![claim];
    if digit(number, &[true, false]) {
        pending.push(claim_of(&[1 << 50]));
        pending.push(Claim::new(1 << 50, (1 << 50) + 9, 77, 9));
    }
    pending.sort_by_key(Claim::rank);
    RawNode::of(RawStore::of(&keys), &pending)
}

/// Every call that is given a node: "a node given with one gets 1".
#[test]
fn nodes_with_claims_of_every_kind() {
    let seen = compare(4 * 2 * KINDS, |rng| {
        let mut number = rng.0;
        let call = digit(&mut number, &[0, 1, 2, 3]);
        let claim = claim(&mut number);
        let node = node_with(&mut number, claim);
        let noise = &mut || NOISE;
        match call {
            0 => take_case(node, claim_of(&[3]), noise),
            1 => beat_case(node, 4 * BEAT_PLACES, noise),
            2 => write_image_case(&node, IMAGE_MOST, noise),
            _ => ordered_case(&node, noise),
        }
    });
    if !one_seed() {
        let ways = [left_out::NODE, "in order", "out of order"];
        seen.expect(&[0, 1], &ways, OFTEN_TOLD);
    }
}

// ---- images saved before 16 was asked ----

/// A saved image, which may have been broken or damaged since.
fn saved_image(rng: &mut Rng) -> Vec<u8> {
    let (mut keys, mut pending) = rng.saved();
    if rng.one_in(3) {
        rng.break_saved(&mut keys, &mut pending);
    }
    let mut image = image_of(&keys, &pending);
    for _ in 0..rng.pick(&[0, 0, 0, 0, 1, 2]) {
        rng.damage(&mut image);
    }
    image
}

/// What must have been seen of saved images in any call.
fn expect(seen: &Seen, numbers: &[u8]) {
    if !one_seed() {
        seen.expect(numbers, &READ, OFTEN);
        seen.expect_ways(&PLACES, OFTEN);
        seen.expect_ways(&NARROW, OFTEN);
        seen.expect_ways(&BROKEN, OFTEN);
        seen.expect_ways(&[TOO_MANY], OFTEN);
    }
}

#[test]
fn reads_saved_images() {
    let seen = compare(5_000, |rng| {
        let mut bytes = saved_image(rng);
        let lent = bytes.len();
        bytes.extend([0x5A; 7]);
        read_image_case(bytes, lent, &mut || NOISE)
    });
    expect(&seen, &[0, 1, 14]);
}

/// Whatever is left out, the length is the one that the counts tell.
#[test]
fn tells_lengths_of_saved_images() {
    let seen = compare(2_000, |rng| {
        let mut bytes = saved_image(rng);
        let image = bytes.len();
        bytes.extend(vec![0; rng.pick(&[0, 1, 26])]);
        let lent = bytes.len();
        let case = image_length_case(bytes, lent, &mut || NOISE);
        let told = case.number == 0 && case.expected.count() == image;
        let image = &case.given.bytes[..image];
        let ways = left_out::ways_of_image(image, read_image(image).number);
        case.on(
            "its own, with some left out",
            told && ways.contains(&left_out::SOME),
        )
    });
    if !one_seed() {
        seen.expect(&[0, 14], &["its own, with some left out"], OFTEN);
    }
}

/// Makes a call with many saved images. Where the image is read, "the rest of
/// the image is used": the call does the same with an image of the rest.
fn calls(numbers: &[u8], asked: impl Fn(&mut Rng, Vec<u8>) -> Asked) -> Seen {
    let mut seen = Seen::default();
    for_seeds(5_000, |seed, rng| {
        let image = saved_image(rng);
        let asked = asked(rng, image.clone());
        let left = compare_host(&asked, seed);
        let number = number(left.answer);
        seen.number(number);
        seen.all(left_out::ways_of_image(&image, number));
        if number == 1 || number == 14 {
            return;
        }
        let rest = left_out::rest_of(&image);
        let same = asked.given(rest).by(seed, &ARCHIVE) == left;
        assert!(same, "the rest of the image is used");
    });
    expect(&seen, numbers);
    seen
}

/// As long as it must be, seldom too short.
fn room(rng: &mut Rng, need: usize) -> usize {
    if rng.one_in(8) { need - 1 } else { need }
}

/// The keys and the pending claims that stand in an image.
fn contents(image: &[u8]) -> (Vec<u64>, Vec<Claim>) {
    left_out::contents(image).unwrap_or_default()
}

/// A frame for a saved image: of its keys or others, one that is pending
/// there, whether or not it is left out, or claims after all that are.
fn frame_for(rng: &mut Rng, image: &[u8]) -> Vec<u8> {
    let (keys, pending) = contents(image);
    let density = rng.density();
    let mut claims = rng.frame_claims(&keys, density);
    if let (Some(&lo), Some(&hi)) = (keys.first(), keys.last())
        && hi.saturating_sub(lo) > 2 * LIMIT as u64
        && rng.one_in(2)
    {
        claims = vec![Claim::new(lo, hi, rng.next(), LIMIT as u16)];
    }
    if !pending.is_empty() && rng.one_in(4) {
        claims.truncate(3);
        claims.push(rng.pick(&pending));
    }
    frame_of(&claims)
}

#[test]
fn takes_frames_into_saved_images() {
    let numbers = [0, 1, 6, 12, 13, 14, 15];
    let seen = calls(&numbers, |rng, image| {
        let frame = frame_for(rng, &image);
        Asked::Take(image, frame, room(rng, IMAGE_MOST))
    });
    if !one_seed() {
        seen.expect_ways(&[LATER], OFTEN);
    }
}

/// A full table that something is left out of has room for a claim that
/// would be the last of 65.
#[test]
fn claims_take_the_places_of_those_left_out() {
    let mut places = 0;
    for_seeds(1_500, |_, rng| {
        let (keys, pending) = rng.saved();
        let image = image_of(&keys, &pending);
        let Some(last) = kept(&pending).last().copied() else {
            return;
        };
        let after = Claim { sum: !0, ..last };
        let left_out = pending.len() - kept(&pending).len();
        if pending.len() < PENDING || left_out == 0 || after == last || last.cnt < 4 {
            return;
        }
        let frame = frame_of(&[after]);
        let (taken, _) = left_by(Asked::Take(image, frame, IMAGE_MOST));
        let mut expected = kept(&pending);
        expected.push(after);
        assert_eq!(taken, image_of(&keys, &expected));
        places += 1;
    });
    assert!(one_seed() || places >= OFTEN, "only {places} places");
}

#[test]
fn beats_saved_images() {
    let seen = calls(&[0, 1, 14, 15], |rng, image| {
        Asked::Beat(image, room(rng, IMAGE_MOST), room(rng, BEAT_FRAMES))
    });
    if !one_seed() {
        seen.expect_ways(&[LATER], OFTEN);
    }
}

#[test]
fn enters_keys_into_saved_images() {
    let seen = calls(&[0, 1, 6, 14, 15], |rng, image| {
        let (keys, _) = contents(&image);
        let key = match rng.one_in(2) {
            true if !keys.is_empty() => rng.pick(&keys),
            _ => rng.next(),
        };
        Asked::Enter(image, key, room(rng, IMAGE_MOST))
    });
    if !one_seed() {
        seen.expect_ways(&[LATER], OFTEN);
    }
}

#[test]
fn counts_keys_of_saved_images() {
    calls(&[0, 1, 14], |_, image| Asked::Count(image));
}

#[test]
fn lays_out_sheets_of_saved_images() {
    let seen = calls(&[0, 1, 14, 15], |rng, image| {
        let (keys, _) = contents(&image);
        Asked::Sheet(image, room(rng, sheet::length(keys.len())))
    });
    if !one_seed() {
        seen.expect_ways(&[LATER], OFTEN);
    }
}

/// With another saved image, of which something may be left out as well.
#[test]
fn joins_saved_images() {
    let seen = calls(&[0, 1, 8, 14, 15], |rng, image| {
        let (keys, pending) = rng.saved();
        Asked::Join(image, image_of(&keys, &pending), room(rng, IMAGE_MOST))
    });
    if !one_seed() {
        seen.expect_ways(&[LATER], OFTEN);
    }
}

// ---- image in, image out, image in again ----

/// The node that the proved program reads from an image, and the second one.
fn read_by(drill: &mut Drill, image: &[u8]) -> RawNode {
    let case = read_image_case(image.to_vec(), image.len(), &mut || NOISE);
    let reply = answered(drill, &case);
    assert_eq!(reply.number(), 0);
    reply.node()
}

/// What the drill replies, and the second program expects.
fn answered(drill: &mut Drill, case: &Case) -> Card {
    let reply = drill.ask(case.call, &case.given);
    assert_eq!(case.differs(&reply), None);
    reply
}

/// A key entered that is held: all that the image has is written back, but
/// what is left out. The second time nothing is, and the bytes are the same.
fn entered(image: &[u8], key: u64) -> Vec<u8> {
    left_by(Asked::Enter(image.to_vec(), key, IMAGE_MOST)).0
}

fn beaten(image: &[u8]) -> (Vec<u8>, Vec<u8>) {
    left_by(Asked::Beat(image.to_vec(), IMAGE_MOST, BEAT_FRAMES))
}

#[test]
fn images_are_written_back_without_them() {
    let mut drill = Drill::start();
    let mut seen = Seen::default();
    for_seeds(1_500, |_, rng| {
        let (keys, pending) = rng.saved();
        if keys.is_empty() {
            return;
        }
        let image = image_of(&keys, &pending);
        let rest = image_of(&keys, &kept(&pending));
        seen.all(left_out::ways_of_image(&image, 0));
        let key = rng.pick(&keys);
        assert_eq!(entered(&image, key), rest);
        assert_eq!(entered(&rest, key), rest, "the same bytes");
        let node = RawNode::of(RawStore::of(&keys), &kept(&pending));
        for image in [&image, &rest] {
            assert_eq!(read_by(&mut drill, image), node);
        }
        // What is read is written as the image of the rest, which is read as
        // the same node.
        let case = write_image_case(&node, rest.len(), &mut || NOISE);
        let written = answered(&mut drill, &case);
        assert_eq!(written.bytes[..rest.len()], rest);
        assert_eq!(beaten(&image), beaten(&rest));
    });
    if !one_seed() {
        seen.expect_ways(&READ, OFTEN);
        seen.expect_ways(&PLACES, OFTEN);
    }
}

// ---- two images by hand ----

/// {1, 16} with three claims pending, of which the one in the middle says that
/// 20 lies between 1 and 16.
#[test]
fn one_of_three_is_left_out() {
    let [own, faulty, good] = [Claim::new(1, 16, 17, 2), three(1, 20, 16), three(1, 2, 16)];
    assert_eq!(faulty, Claim::new(1, 16, 5, 3));
    let image = image_of(&[1, 16], &[own, faulty, good]);
    let rest = image_of(&[1, 16], &[own, good]);
    let node = RawNode::of(RawStore::of(&[1, 16]), &[own, good]);
    assert_eq!(read_by(&mut Drill::start(), &image), node);
    assert_eq!(compare_host(&Asked::Count(image.clone()), 0).answer, 2);
    assert_eq!(entered(&image, 16), rest);
    let sent = frame_of(&[own, own]);
    assert_eq!(beaten(&image), (image_of(&[1, 16], &[good]), sent));
    let seven = claim_of(&[7]);
    let asked = Asked::Take(image.clone(), frame_of(&[seven]), IMAGE_MOST);
    let (taken, _) = left_by(asked);
    assert_eq!(taken, image_of(&[1, 7, 16], &[seven, own, good]));
    // The faulty one once more is refused, and nothing is written.
    let asked = Asked::Take(image, frame_of(&[faulty]), IMAGE_MOST);
    assert_eq!(compare_host(&asked, 0).answer, -13);
}

/// A full store and a full table, all of which is left out: each call does what
/// it does with nothing pending.
#[test]
fn all_of_64_are_left_out() {
    let keys: Vec<u64> = (0..LIMIT as u64).collect();
    let kinds: [fn(u64) -> u64; 4] = [|_| 0, |hi| hi, |hi| hi + 1, |_| u64::MAX];
    for middle in kinds {
        let pending: Vec<Claim> = (2..66).map(|hi| three(0, middle(hi), hi)).collect();
        assert!(pending.iter().all(is_faulty));
        let image = image_of(&keys, &pending);
        assert_eq!(image.len(), IMAGE_MOST);
        let rest = image_of(&keys, &[]);
        let node = RawNode::of(RawStore::of(&keys), &[]);
        assert_eq!(read_by(&mut Drill::start(), &image), node);
        let count = compare_host(&Asked::Count(image.clone()), 0).answer;
        assert_eq!(count, LIMIT as i64);
        assert_eq!(entered(&image, 77), rest);
        let whole = frame_of(&[claim_of(&keys)]);
        assert_eq!(beaten(&image), (rest, whole));
        let last = Claim::new(0, LIMIT as u64 - 1, 5, LIMIT as u16);
        let asked = Asked::Take(image.clone(), frame_of(&[last]), IMAGE_MOST);
        assert_eq!(left_by(asked).0, image_of(&keys, &[last]));
    }
}
