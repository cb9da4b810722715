//! Frames, images and the host calls on them.

use std::cell::RefCell;
use std::collections::BTreeSet;

use super::common::*;
use super::number;
use second::*;

#[test]
fn frames_round_trip() {
    for_seeds(400, |rng| {
        let density = rng.density();
        let claims: Vec<Claim> = (0..rng.below(6)).map(|_| rng.claim(&[], density)).collect();
        let mut out = vec![0x55; 4 + 26 * claims.len() + rng.below(4)];
        if rng.one_in(5) {
            out.pop();
        }
        let written = write_frame(&claims, &mut out);
        assert_eq!(
            written.number,
            number(questions::of_write_frame(&claims, out.len()))
        );
        if written.number == 0 {
            let frame = &out[..written.length];
            assert_eq!(frame, frame_of(&claims));
            let read = read_frame(frame);
            assert_eq!((read.number, read.count), (0, claims.len()));
            assert_eq!(read.claims[..read.count], claims);
        }
        assert!(out[written.length..].iter().all(|&byte| byte == 0x55));
    });
}

#[test]
fn images_round_trip() {
    let ways = Ways::default();
    for_seeds(150, |rng| {
        let node = rng.node();
        ways.saw(match (node.store.count, node.pending_count) {
            (LIMIT, _) => "a full store",
            (_, PENDING) => "a full table",
            _ => "shorter",
        });
        let mut out = vec![0x55; IMAGE_MOST + rng.below(5)];
        let written = write_image(&node, &mut out);
        assert_eq!(written.number, 0);
        let image = &out[..written.length];
        assert_eq!(image, image_of(node.store.held(), node.table()));
        assert!(out[written.length..].iter().all(|&byte| byte == 0x55));
        assert_eq!(image_length(&out).length, written.length);
        assert_eq!(read_image(image), ImageRead { number: 0, node });
    });
    ways.all_of(&["a full store", "a full table", "shorter"]);
}

#[test]
fn entering_and_counting_are_those_of_stores() {
    // What each entering did, so that nothing goes untried.
    let seen = RefCell::new(BTreeSet::new());
    for_seeds(400, |rng| {
        let node = rng.node();
        let image = image_of(node.store.held(), node.table());
        assert_eq!(host::count(&image), node.store.count as i64);
        let density = rng.density();
        let room = *rng.pick(&[IMAGE_MOST, IMAGE_MOST, IMAGE_MOST + 1, IMAGE_MOST - 1, 0]);
        let mut out = vec![0x55; room];
        let key = rng.key(density);
        let answer = host::enter(&image, key, &mut out);

        let entered = enter(node.store.clone(), key);
        let no = match entered.number {
            0 if room < IMAGE_MOST => 15,
            number => number,
        };
        let gained = entered.store.count - node.store.count;
        let full = node.store.count == LIMIT;
        seen.borrow_mut().insert((no, gained, full));
        if no != 0 {
            assert_eq!(answer, -i64::from(no));
            assert!(out.iter().all(|&byte| byte == 0x55));
            return;
        }
        let expected = image_of(entered.store.held(), node.table());
        assert_eq!(answer, expected.len() as i64);
        assert_eq!(out[..expected.len()], expected);
        assert!(out[expected.len()..].iter().all(|&byte| byte == 0x55));
    });
    if std::env::var("SECOND_SEED").is_err() {
        let held_and_new = [(0, 0, false), (0, 1, false), (15, 0, false), (15, 1, false)];
        let full = [(0, 0, true), (6, 0, true), (15, 0, true)];
        let all: BTreeSet<_> = held_and_new.into_iter().chain(full).collect();
        assert_eq!(*seen.borrow(), all);
    }
}

/// A node that takes claims in turn, and the number of the first one refused.
fn taken_in_turn(mut node: RawNode, claims: &[Claim]) -> (RawNode, u8) {
    for claim in claims {
        let taken = take(node, *claim);
        node = taken.node;
        if taken.number != 0 {
            return (node, taken.number);
        }
    }
    (node, 0)
}

/// The host call's beat of a node's image is the beat of the node.
fn beats_alike(node: RawNode, image: &[u8], rng: &mut Rng) {
    let mut new = vec![0x44; IMAGE_MOST + rng.below(3)];
    let mut frames = vec![0x66; host::BEAT_FRAMES + rng.below(3)];
    let length = host::beat(image, &mut new, &mut frames);
    let mut run = vec![0; BEAT_WORDS];
    let beaten = beat(node, &mut run);
    let claims: Vec<Claim> = run[..4 * beaten.written]
        .chunks(4)
        .map(|words| c(words[0], words[1], words[2], words[3] as u16))
        .collect();
    let expected: Vec<u8> = claims.chunks(4).flat_map(frame_of).collect();
    assert_eq!(length, expected.len() as i64);
    assert_eq!(frames[..expected.len()], expected);
    assert!(frames[expected.len()..].iter().all(|&byte| byte == 0x66));
    let expected = image_of(beaten.node.store.held(), beaten.node.table());
    assert_eq!(new[..expected.len()], expected);
    assert!(new[expected.len()..].iter().all(|&byte| byte == 0x44));
}

/// How much is lent for an image: mostly enough.
fn room_for_image(rng: &mut Rng) -> usize {
    match rng.below(6) {
        0 => 0,
        1 => IMAGE_MOST - 1,
        2 => IMAGE_MOST + 1,
        _ => IMAGE_MOST,
    }
}

#[test]
fn host_calls_are_the_calls_on_nodes() {
    for_seeds(250, |rng| {
        let node = rng.node();
        let image = image_of(node.store.held(), node.table());
        let density = rng.density();
        let held = node.store.held().to_vec();
        let claims: Vec<Claim> = (0..1 + rng.below(4))
            .map(|_| rng.claim(&held, density))
            .filter(|claim| questions::of_claim(claim).is_ok())
            .collect();
        let room = room_for_image(rng);
        let mut out = vec![0x55; room];
        let answer = host::take_frame(&image, &frame_of(&claims), &mut out);

        let (node, refused) = taken_in_turn(node, &claims);
        let refused = match refused {
            _ if claims.is_empty() => 12,
            0 if room < IMAGE_MOST => 15,
            number => number,
        };
        if refused != 0 {
            assert_eq!(answer, -i64::from(refused));
            assert!(out.iter().all(|&byte| byte == 0x55));
            return;
        }
        let expected = image_of(node.store.held(), node.table());
        assert_eq!(answer, expected.len() as i64);
        assert_eq!(out[..expected.len()], expected);
        assert!(out[expected.len()..].iter().all(|&byte| byte == 0x55));
        beats_alike(node, &expected, rng);
    });
}
