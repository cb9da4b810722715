//! Eight replies a beat (document 02, slip 8): "The order of serving and the
//! claims sent are compared with this text from here on." Tables in which
//! matches stand before, among and after the eight, beside the second program,
//! by `drill` and by the archive; then tables by hand. What the rule can leave
//! undone is told in `mid_transfer`.

mod archive;

use archive::{Asked, compare, left_by, number};
use minutefrost::{BEAT_FRAMES, IMAGE_MOST};
use second::*;
use tests::card::beat_case;
use tests::cases::{Seen, for_seeds, noise, one_seed, run};
use tests::draw::{claim_of, claims_in, image_of};
use tests::drill::Drill;
use tests::middle::three;
use tests::replies::{FORMER_FRAMES, MOST, REPLIES, WAYS, ways_of_beat};

/// The words of a beat's places.
const WORDS: usize = 4 * BEAT_PLACES;

/// How often each way must be gone by images.
const OFTEN: usize = 100;

#[test]
fn tables_are_served() {
    run(8_000, &[0, 15], &WAYS, |rng| {
        let node = rng.node_to_serve();
        let lent = match rng.below(20) {
            0 => WORDS - 1,
            1 => WORDS - 4 + rng.below(4),
            2..9 => WORDS,
            _ => WORDS + rng.below(600),
        };
        beat_case(node, lent, &mut noise(rng))
    });
}

#[test]
fn images_are_served() {
    let mut seen = Seen::default();
    for_seeds(4_000, |seed, rng| {
        let node = rng.node_to_serve();
        let image = image_of(node.store.held(), node.table());
        let lent = match rng.below(8) {
            0 => BEAT_FRAMES - 1,
            1 => FORMER_FRAMES,
            2 => BEAT_FRAMES + rng.below(30),
            _ => BEAT_FRAMES,
        };
        let left = compare(&Asked::Beat(image, IMAGE_MOST, lent), seed);
        seen.number(number(left.answer));
        if left.answer >= 0 {
            seen.all(ways_of_beat(&node));
            if left.answer as usize == BEAT_FRAMES {
                seen.way(MOST);
            }
        }
    });
    if !one_seed() {
        seen.expect(&[0, 15], &WAYS, OFTEN);
    }
}

/// The keys by which claims are made by hand.
fn keys() -> Vec<u64> {
    (1..=80).map(|key| 1_000 * key).collect()
}

/// A table of claims that match (m), are asked about (a) and are helped with
/// (h), in this order: each counts at least one key more than the one before,
/// or as many and has a greater hi.
fn table(kinds: &str) -> Vec<Claim> {
    let claim = |(at, kind)| {
        let own = claim_of(&keys()[..at + 6]);
        match kind {
            'm' => own,
            'a' => Claim::new(own.lo, own.hi, own.sum, own.cnt + 1),
            'h' => Claim::new(own.lo, own.hi, own.sum ^ 1, own.cnt),
            _ => unreachable!("no kind of claim"),
        }
    };
    kinds.chars().enumerate().map(claim).collect()
}

/// What a beat of such a table leaves pending, as kinds of claims, and how many
/// claims it sends.
fn beaten(kinds: &str) -> (String, usize) {
    let (keys, pending) = (keys(), table(kinds));
    let image = image_of(&keys, &pending);
    let (image, sent) = left_by(Asked::Beat(image, IMAGE_MOST, BEAT_FRAMES));
    let kept = claims_in(&image[2 + 8 * keys.len() + 2..]);
    let mut places = pending.iter().zip(kinds.chars());
    let kind = |claim: &Claim| {
        places
            .find(|(place, _)| *place == claim)
            .expect("in order")
            .1
    };
    let sent: usize = minutefrost::frames(&sent)
        .map(|frame| frame.len() / 26)
        .sum();
    (kept.iter().map(kind).collect(), sent)
}

/// Each is helped with two claims, and asked about with one; the whole claim is
/// sent as well.
#[test]
fn matches_before_among_and_after_the_eighth() {
    let beats = [
        ("", "", 1),
        ("mmmm", "", 1),
        ("hhhhhhhh", "", 17),
        ("hhhhhhhhh", "h", 17),
        ("aaaaaaaa", "aaaaaaaa", 9),
        ("aaaaaaaaa", "aaaaaaaaa", 9),
        ("mhhhhmhhhhmhmam", "ha", 17),
        ("hahahahamahm", "aaaaah", 13),
        ("aaaaaaaahhhm", "aaaaaaaahhh", 9),
        ("mmmmmmmmmaaa", "aaa", 4),
    ];
    for (kinds, kept, sent) in beats {
        assert_eq!(beaten(kinds), (kept.to_owned(), sent), "{kinds}");
    }
}

#[test]
fn full_tables() {
    let [m, a, h] = ["m", "a", "h"].map(|kind| move |times| kind.repeat(times));
    let beats = [
        (m(64), String::new(), 1),
        (a(64), a(64), 9),
        (h(64), h(56), 17),
        (m(56) + &h(8), String::new(), 17),
        (h(8) + &m(56), String::new(), 17),
        (h(4) + &m(30) + &h(4) + &m(26), String::new(), 17),
        (m(20) + &a(8) + &m(20) + &h(16), a(8) + &h(16), 9),
        (h(9) + &m(55), h(1), 17),
        ("ah".repeat(32), a(4) + &"ah".repeat(28), 13),
    ];
    for (kinds, kept, sent) in beats {
        assert_eq!(kinds.len(), PENDING);
        assert_eq!(beaten(&kinds), (kept, sent), "{kinds}");
    }
}

/// Those that waited are served in later beats, the first of them first.
#[test]
fn a_table_is_served_in_as_many_beats_as_it_has_eights() {
    let mut kinds = "h".repeat(PENDING);
    for beats in (0..PENDING / REPLIES).rev() {
        let (kept, sent) = beaten(&kinds);
        assert_eq!((kept.len(), sent), (REPLIES * beats, BEAT_PLACES));
        kinds = kept;
    }
}

/// A claim of three beside just its ends "counts as asked": a beat adds no key.
#[test]
fn nine_claims_of_three() {
    let keys = [10, 20, 30, 40, 50, 60, 70, 80, 90, 100];
    let mut pending: Vec<Claim> = keys
        .windows(2)
        .map(|ends| three(ends[0], ends[0] + 1, ends[1]))
        .collect();
    let asked = pending.clone();
    pending.push(claim_of(&keys));
    let image = image_of(&keys, &pending);
    let (image, sent) = left_by(Asked::Beat(image, IMAGE_MOST, BEAT_FRAMES));
    assert_eq!(image, image_of(&keys, &asked));
    let claims: Vec<Claim> = minutefrost::frames(&sent)
        .flat_map(|frame| claims_in(&frame[4..]))
        .collect();
    let own = asked
        .iter()
        .take(REPLIES)
        .map(|claim| claim_of(&[claim.lo, claim.hi]));
    assert!(
        claims
            .into_iter()
            .eq([claim_of(&keys)].into_iter().chain(own))
    );
}

/// 15 is said of 461 bytes and of 16 places, 67 words among them, whatever is
/// pending; 462 bytes and 17 places are enough for anything.
#[test]
fn buffers_of_just_enough() {
    let mut drill = Drill::start();
    for kinds in ["", "m", "hhhhhhhh", &"h".repeat(PENDING)] {
        let (keys, pending) = (keys(), table(kinds));
        for (keys, pending) in [(&keys[..], &pending[..]), (&[], &[])] {
            for lent in [0, BEAT_FRAMES - 1, BEAT_FRAMES, FORMER_FRAMES] {
                let asked = Asked::Beat(image_of(keys, pending), IMAGE_MOST, lent);
                let left = compare(&asked, 8);
                assert_eq!(left.answer == -15, lent < BEAT_FRAMES, "{kinds} {lent}");
                assert!(left.answer >= 0 || left == asked.leaving(8, -15, &[], &[]));
            }
            for lent in [0, 4 * 16, 67, 68, 69, 516] {
                let node = RawNode::of(RawStore::of(keys), pending);
                let case = beat_case(node, lent, &mut || 7);
                let reply = drill.ask(case.call, &case.given);
                assert_eq!(case.differs(&reply), None);
                assert_eq!(reply.number() == 15, lent < WORDS, "{kinds} {lent}");
            }
        }
    }
}
