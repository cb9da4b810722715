//! Bytes, stores and nodes of any content are answered.

use std::collections::BTreeSet;

use super::common::*;
use super::number;
use second::*;

/// The numbers that calls answered, by call; and what else was seen.
type Seen = BTreeSet<(&'static str, u8)>;

/// An image, a frame and the input of a rehearsal, each damaged or not. The
/// image may have been saved before 16 was asked.
fn damaged(rng: &mut Rng) -> [Vec<u8>; 3] {
    let density = rng.density();
    let node = rng.node();
    let held = node.store.held().to_vec();
    let mut table = node.table().to_vec();
    if rng.one_in(3) {
        table = rng.saved_table(&held);
    }
    let image = image_of(&held, &table);
    let claims: Vec<Claim> = (0..1 + rng.below(4))
        .map(|_| rng.claim(&held, density))
        .collect();
    let input = [image.clone(), image_of_keys(&rng.keys(200, density))].concat();
    let mut all = [image, frame_of(&claims), input];
    for bytes in &mut all {
        for _ in 0..rng.below(3) {
            rng.damage(bytes);
        }
    }
    all
}

fn readers_answer(image: &[u8], frame: &[u8], seen: &mut Seen) {
    let read = read_frame(frame);
    assert_eq!(read.number, number(questions::of_read_frame(frame)));
    if read.number == 0 {
        assert_eq!(frame_of(&read.claims[..read.count]), frame);
    }
    seen.insert(("read_frame", read.number));

    let read = read_image(image);
    assert_eq!(read.number, number(questions::of_read_image(image)));
    if read.number == 0 {
        assert!(questions::q1_node_in_order(&read.node));
        let written = image_of(read.node.store.held(), read.node.table());
        assert_eq!(written, without_left_out(image));
        seen.insert(("left out", u8::from(written != image)));
    }
    seen.insert(("read_image", read.number));
    let told = image_length(image);
    assert!(told.length <= image.len());
    assert_eq!(told.number, number(questions::of_image_length(image)));
    assert_eq!(
        told.length == image.len() && told.number == 0,
        questions::q14_length_told(image)
    );
    seen.insert(("image_length", told.number));
}

/// A host call's answer by the number that it should have. Refused, it left
/// its buffer alone; otherwise an image is there that has nothing to leave out.
fn host_call_answers(call: &'static str, answer: i64, no: u8, out: &[u8], seen: &mut Seen) {
    assert_eq!((-answer).max(0), i64::from(no));
    seen.insert((call, no));
    if no != 0 {
        assert!(out.iter().all(|&byte| byte == 0x55));
        return;
    }
    let image = &out[..image_length(out).length];
    assert_eq!(read_image(image).number, 0);
    assert_eq!(without_left_out(image), image);
}

fn host_calls_answer(rng: &mut Rng, image: &[u8], frame: &[u8], seen: &mut Seen) {
    let room = *rng.pick(&[IMAGE_MOST, IMAGE_MOST, IMAGE_MOST - 1]);
    let mut out = vec![0x55; room];
    let answer = host::take_frame(image, frame, &mut out);
    let no = number(questions::of_host_take_frame(image, frame, room));
    host_call_answers("host::take_frame", answer, no, &out, seen);
    if no == 0 {
        assert_eq!(image_length(&out).length as i64, answer);
    }

    let mut out = vec![0x55; room];
    let frames_room = *rng.pick(&[host::BEAT_FRAMES, host::BEAT_FRAMES, host::BEAT_FRAMES - 1]);
    let mut frames = vec![0x66; frames_room];
    let answer = host::beat(image, &mut out, &mut frames);
    let no = number(questions::of_host_beat(image, room, frames_room));
    host_call_answers("host::beat", answer, no, &out, seen);
    if no != 0 {
        assert!(frames.iter().all(|&byte| byte == 0x66));
    }

    let mut out = vec![0x55; room];
    let density = rng.density();
    let key = rng.key(density);
    let answer = host::enter(image, key, &mut out);
    let no = number(questions::of_host_enter(image, key, room));
    host_call_answers("host::enter", answer, no, &out, seen);
    if no == 0 {
        assert_eq!(image_length(&out).length as i64, answer);
    }

    let answer = host::count(image);
    let no = number(questions::of_host_count(image));
    assert_eq!((-answer).max(0), i64::from(no));
    seen.insert(("host::count", no));
}

#[test]
fn damaged_bytes_are_answered() {
    let seen = std::cell::RefCell::new(BTreeSet::new());
    for_seeds(1_500, |rng| {
        let [image, frame, input] = damaged(rng);
        let mut seen = seen.borrow_mut();
        readers_answer(&image, &frame, &mut seen);
        host_calls_answer(rng, &image, &frame, &mut seen);

        let no = number(questions::of_rehearse(&input));
        let output = rehearse(&input);
        assert_eq!(output == format!("refused {no}\n"), no != 0);
        seen.insert(("rehearse", no));
    });
    if std::env::var("SECOND_SEED").is_ok() {
        return;
    }
    // Each answer was seen.
    let seen = seen.into_inner();
    for (call, numbers) in [
        ("read_frame", &[0, 10, 11, 12, 13][..]),
        ("read_image", &[0, 1, 14]),
        ("left out", &[0, 1]),
        ("image_length", &[0, 14]),
        ("host::take_frame", &[0, 1, 6, 10, 11, 12, 13, 14, 15]),
        ("host::beat", &[0, 1, 14, 15]),
        ("host::enter", &[0, 1, 6, 14, 15]),
        ("host::count", &[0, 1, 14]),
        ("rehearse", &[0, 1, 8, 9, 14]),
    ] {
        for &number in numbers {
            assert!(seen.contains(&(call, number)), "{call} never {number}");
        }
    }
}

#[test]
fn any_bytes_are_answered() {
    for_seeds(2_000, |rng| {
        let length = rng.below(300);
        let mut bytes: Vec<u8> = (0..length).map(|_| rng.next() as u8).collect();
        // Small counts and a right mark, so that the reader gets further.
        if rng.one_in(2) {
            for (place, byte) in bytes.iter_mut().zip([0x4C, 0x43, 1, 2]) {
                *place = byte;
            }
        } else if rng.one_in(2) {
            for (place, byte) in bytes.iter_mut().zip([0, 2]) {
                *place = byte;
            }
        }
        let good = image_of_keys(&[1, 2]);
        let mut out = vec![0; IMAGE_MOST];
        let mut frames = vec![0; host::BEAT_FRAMES];
        read_frame(&bytes);
        read_image(&bytes);
        image_length(&bytes);
        rehearse(&bytes);
        rehearse(&[good.as_slice(), &bytes].concat());
        host::take_frame(&bytes, &bytes, &mut out);
        host::take_frame(&good, &bytes, &mut out);
        host::beat(&bytes, &mut out, &mut frames);
        host::enter(&bytes, length as u64, &mut out);
        host::count(&bytes);
    });
}

/// Puts a count, a key or a claim anywhere in a node, or nothing. The sums are
/// then those of the keys as they stand, or one of them is put there.
fn bend(node: &mut RawNode, density: usize, rng: &mut Rng) {
    for _ in 0..rng.below(3) {
        match rng.below(6) {
            0 => node.store.count = rng.below(LIMIT + 6),
            1 => node.store.count = rng.next() as usize,
            2 => node.store.keys[rng.below(LIMIT)] = rng.key(density),
            3 => node.pending_count = rng.below(70),
            4 => node.pending_count = rng.next() as usize,
            _ => node.pending[rng.below(64)] = rng.claim(&[], density),
        }
    }
    node.store.resum();
    if rng.one_in(6) {
        node.store.sums[rng.below(LIMIT)] = rng.key(density);
    }
}

/// A store of any content is entered into, made a claim of and replied by.
fn store_is_answered(store: &RawStore, density: usize, rng: &mut Rng, ways: &Ways) {
    let (claim, key) = (rng.claim(&[], density), rng.key(density));
    let entered = enter(store.clone(), key);
    assert_eq!(entered.number, number(questions::of_enter(store, key)));
    assert!(entered.number == 0 || entered.store == *store);
    ways.saw(format!("enter {}", entered.number));
    if store.sums != store.right_sums() {
        assert_eq!(entered.number, 1);
        ways.saw("sums wrong");
    }
    let last = rng.below(20);
    let made = make(store, 0, last);
    assert_eq!(made.number, number(questions::of_make(store, 0, last)));
    let replied = reply(store.clone(), claim);
    assert_eq!(replied.number, number(questions::of_reply(store, &claim)));
    assert!(replied.number == 0 || replied.store == *store);

    let other = RawStore::of(&rng.keys(100, density));
    let mut records = vec![Delivery::default(); 2 * LIMIT];
    let rounded = round(store.clone(), other.clone(), &mut records);
    let asked = questions::of_round(store, &other, records.len());
    assert_eq!(rounded.number, number(asked));
    assert!(rounded.number == 0 || (rounded.left == *store && rounded.right == other));
    ways.saw(format!("round {}", rounded.number));
}

/// A node of any content takes a claim, beats and is written.
fn node_is_answered(node: &RawNode, density: usize, rng: &mut Rng) {
    let claim = rng.claim(&[], density);
    let taken = take(node.clone(), claim);
    assert_eq!(taken.number, number(questions::of_take(node, &claim)));
    assert!(taken.number == 0 || taken.node == *node);
    assert!(taken.number != 0 || questions::q1_node_in_order(&taken.node));
    let words = *rng.pick(&[BEAT_WORDS - 1, BEAT_WORDS]);
    let mut run = vec![7; words];
    let beaten = beat(node.clone(), &mut run);
    assert_eq!(beaten.number, number(questions::of_beat(node, words / 4)));
    assert!(beaten.number == 0 || (beaten.node == *node && run == vec![7; words]));
    assert!(beaten.number != 0 || questions::q1_node_in_order(&beaten.node));
    let mut out = vec![0x55; rng.below(IMAGE_MOST + 1)];
    let written = write_image(node, &mut out);
    let asked = questions::of_write_image(node, out.len());
    assert_eq!(written.number, number(asked));
}

#[test]
fn stores_and_nodes_of_any_content_are_answered() {
    let ways = Ways::default();
    for_seeds(400, |rng| {
        let density = rng.density();
        let mut node = rng.node();
        bend(&mut node, density, rng);
        store_is_answered(&node.store, density, rng, &ways);
        node_is_answered(&node, density, rng);
    });
    ways.all_of(&["enter 0", "enter 1", "enter 6", "sums wrong"]);
    ways.all_of(&["round 0", "round 1", "round 8"]);
}
