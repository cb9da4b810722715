//! Host calls.

use super::MAX;
use super::beat::{beats, helped_in_two, made_by_none};
use super::common::*;
use second::*;

#[test]
fn taking_a_frame_into_an_image() {
    let image = image_of(&[1, 9], &[c(1, 9, 8, 2)]);
    let frame = frame_of(&[c(4, 4, 4, 1), c(1, 9, 0, 5), c(4, 4, 4, 1)]);
    let mut out = vec![0x55; IMAGE_MOST + 40];
    let length = host::take_frame(&image, &frame, &mut out);
    let expected = image_of(&[1, 4, 9], &[c(4, 4, 4, 1), c(1, 9, 8, 2), c(1, 9, 0, 5)]);
    assert_eq!(length, expected.len() as i64);
    assert_eq!(out[..expected.len()], expected);
    assert!(out[expected.len()..].iter().all(|&byte| byte == 0x55));
}

#[test]
fn taking_a_frame_asks_14_1_10_to_13_6_15() {
    let good_image = image_of_keys(&[1, 2]);
    let cut_image = &good_image[..good_image.len() - 1];
    let bad_image = image_of_keys(&[2, 1]);
    let full_image = image_of_keys(&full(2).keys[..]);
    let good_frame = frame_of(&[c(3, 3, 3, 1)]);
    let mut version = good_frame.clone();
    version[2] = 0;
    let bad_claim = frame_of(&[c(3, 3, 0, 1)]);
    let check = |image: &[u8], frame: &[u8], length: usize, answer: i64| {
        let mut out = vec![0x55; length];
        assert_eq!(host::take_frame(image, frame, &mut out), answer);
        if answer < 0 {
            assert_eq!(out, vec![0x55; length]);
        }
        let number = questions::of_host_take_frame(image, frame, length);
        assert_eq!(number.err().map_or(0, i64::from), (-answer).max(0));
    };
    check(cut_image, &[], 0, -14);
    check(&bad_image, &[], 0, -1);
    check(&good_image, &[], 0, -10);
    check(&good_image, &version[..4], 0, -11);
    check(&good_image, &good_frame[..29], 0, -12);
    check(&full_image, &bad_claim, 0, -13);
    check(&full_image, &good_frame, 0, -6);
    // "the frame host call needs" as much as the longest image
    check(&good_image, &good_frame, IMAGE_MOST - 1, -15);
    check(&good_image, &good_frame, IMAGE_MOST, 4 + 3 * 8 + 26);
}

#[test]
fn in_a_frame_6_is_put_claim_by_claim() {
    let all = full(2).keys;
    let held = c(0, 2, 2, 2);
    let two_new = c(1, 3, 2, 2);
    let one_new = c(5, 5, 5, 1);
    let mut out = vec![0x55; IMAGE_MOST];
    // The no comes at the first, second, third and fourth claim.
    for at in 0..4 {
        let mut claims = [held; 4];
        claims[at] = two_new;
        let image = image_of_keys(&all[..LIMIT - 1]);
        assert_eq!(host::take_frame(&image, &frame_of(&claims), &mut out), -6);
        assert!(out.iter().all(|&byte| byte == 0x55));
    }
    // Each would fit alone: the second finds the first one's keys there.
    let image = image_of_keys(&all[..LIMIT - 2]);
    let frame = frame_of(&[two_new, one_new]);
    assert_eq!(host::take_frame(&image, &frame, &mut out), -6);
    let frame = frame_of(&[one_new, two_new]);
    assert_eq!(host::take_frame(&image, &frame, &mut out), -6);
    assert!(out.iter().all(|&byte| byte == 0x55));
    // The same new keys again are missing no longer.
    let frame = frame_of(&[two_new; 4]);
    let length = host::take_frame(&image, &frame, &mut out);
    assert_eq!(length, (4 + 8 * LIMIT + 26) as i64);
    let read = read_image(&out[..length as usize]);
    assert_eq!(read.node.table(), [two_new]);
    assert_eq!(read.node.store.count, LIMIT);
}

#[test]
fn beating_an_image() {
    let node = RawNode::of(full(1), &helped_in_two());
    let mut image = vec![0; IMAGE_MOST];
    write_image(&node, &mut image);
    let mut out = vec![0x55; IMAGE_MOST + 10];
    let mut frames = vec![0x66; host::BEAT_FRAMES + 4];
    // "462 bytes of frames": four frames of four claims and one of one.
    assert_eq!(host::BEAT_FRAMES, 462);
    assert_eq!(host::BEAT_FRAMES, 4 * 108 + 30);
    let length = host::beat(&image, &mut out, &mut frames);
    assert_eq!(length, host::BEAT_FRAMES as i64);
    let (frames, kept) = frames.split_at(host::BEAT_FRAMES);
    assert!(kept.iter().all(|&byte| byte == 0x66));
    let (claims, node) = beats(node);
    let mut expected = Vec::new();
    for four in claims.chunks(4) {
        expected.extend(frame_of(four));
    }
    assert_eq!(frames, expected);
    let length = image_length(&out).length;
    assert_eq!(length, 4 + 8 * LIMIT + 26 * 56);
    assert_eq!(node.table(), &helped_in_two()[8..]);
    assert_eq!(read_image(&out[..length]).node, node);
    assert!(out[length..].iter().all(|&byte| byte == 0x55));
}

#[test]
fn beats_of_few_claims() {
    let mut out = vec![0; IMAGE_MOST];
    let mut frames = vec![0x66; host::BEAT_FRAMES];
    // No claim, no frame; the image is the empty one.
    assert_eq!(host::beat(&[0, 0, 0, 0], &mut out, &mut frames), 0);
    assert_eq!(out[..4], [0, 0, 0, 0]);
    assert!(frames.iter().all(|&byte| byte == 0x66));
    // Four claims are one frame and no more.
    let image = image_of(&[1, 9], &[c(1, 9, 0, 3), c(1, 9, 0, 4), c(1, 9, 0, 5)]);
    assert_eq!(host::beat(&image, &mut out, &mut frames), 108);
    assert_eq!(frames[..108], frame_of(&[c(1, 9, 8, 2); 4]));
    assert_eq!(out[..image.len()], image);
    // Five are one of four and one of one.
    let image = image_of(
        &[1, 9],
        &[c(1, 9, 0, 3), c(1, 9, 0, 4), c(1, 9, 0, 5), c(1, 9, 0, 6)],
    );
    assert_eq!(host::beat(&image, &mut out, &mut frames), 138);
    assert_eq!(frames[108..138], frame_of(&[c(1, 9, 8, 2)]));
}

#[test]
fn beating_an_image_asks_14_1_15() {
    let good = image_of_keys(&[1, 2]);
    let bad = image_of_keys(&[2, 1]);
    let check = |image: &[u8], out: usize, frames: usize, answer: i64| {
        let (mut new, mut beat) = (vec![0x55; out], vec![0x66; frames]);
        assert_eq!(host::beat(image, &mut new, &mut beat), answer);
        if answer < 0 {
            assert_eq!(new, vec![0x55; out]);
            assert_eq!(beat, vec![0x66; frames]);
        }
        let number = questions::of_host_beat(image, out, frames);
        assert_eq!(number.err().map_or(0, i64::from), (-answer).max(0));
    };
    check(&good[..19], 0, 0, -14);
    check(&bad, 0, 0, -1);
    check(&good, IMAGE_MOST - 1, host::BEAT_FRAMES, -15);
    check(&good, IMAGE_MOST, host::BEAT_FRAMES - 1, -15);
    check(&good, 0, 0, -15);
    check(&good, IMAGE_MOST, host::BEAT_FRAMES, 30);
}

#[test]
fn entering_a_key_into_an_image() {
    let pending = [c(1, 9, 8, 2), c(1, 9, 0, 5)];
    let image = image_of(&[1, 9], &pending);
    // Before, between and after the keys held; 0 and the largest are keys too.
    for (key, keys) in [
        (0, &[0, 1, 9][..]),
        (4, &[1, 4, 9]),
        (10, &[1, 9, 10]),
        (MAX, &[1, 9, MAX]),
        // "a key already held changes nothing"
        (1, &[1, 9]),
        (9, &[1, 9]),
    ] {
        let expected = image_of(keys, &pending);
        let mut out = vec![0x55; IMAGE_MOST + 40];
        let length = host::enter(&image, key, &mut out);
        assert_eq!(length, expected.len() as i64);
        assert_eq!(out[..expected.len()], expected);
        assert!(out[expected.len()..].iter().all(|&byte| byte == 0x55));
    }
    let mut out = vec![0x55; IMAGE_MOST];
    assert_eq!(host::enter(&[0, 0, 0, 0], 0, &mut out), 12);
    assert_eq!(out[..12], image_of_keys(&[0]));
}

#[test]
fn entering_a_key_asks_14_1_6_15() {
    let good = image_of_keys(&[1, 2]);
    let bad = image_of_keys(&[2, 1]);
    let even = full(2).keys;
    let full = image_of_keys(&even[..]);
    let nearly = image_of_keys(&even[..LIMIT - 1]);
    let check = |image: &[u8], key: u64, length: usize, answer: i64| {
        let mut out = vec![0x55; length];
        assert_eq!(host::enter(image, key, &mut out), answer);
        if answer < 0 {
            assert_eq!(out, vec![0x55; length]);
        }
        let number = questions::of_host_enter(image, key, length);
        assert_eq!(number.err().map_or(0, i64::from), (-answer).max(0));
    };
    check(&full[..full.len() - 1], 1, 0, -14);
    check(&[&good[..], &[0]].concat(), 3, 0, -14);
    check(&bad, 3, 0, -1);
    check(&full, 1, 0, -6);
    check(&full, MAX, IMAGE_MOST, -6);
    // A key held needs no room, and one more is the last that fits.
    check(&full, 0, 0, -15);
    check(&full, even[LIMIT - 1], IMAGE_MOST, (4 + 8 * LIMIT) as i64);
    check(&nearly, 1, IMAGE_MOST - 1, -15);
    check(&nearly, 1, IMAGE_MOST, (4 + 8 * LIMIT) as i64);
    // As long as a frame needs it, even where nothing changes.
    check(&good, 1, IMAGE_MOST - 1, -15);
    check(&good, 1, IMAGE_MOST, 20);
    check(&good, 3, IMAGE_MOST - 1, -15);
    check(&good, 3, IMAGE_MOST, 28);
}

#[test]
fn counting_asks_14_1() {
    let good = image_of(&[1, 2], &[c(1, 2, 3, 2)]);
    for (image, answer) in [
        (&[][..], -14),
        (&good[..good.len() - 1], -14),
        (&[&good[..], &[0]].concat(), -14),
        (&image_of_keys(&[2, 1]), -1),
        (&image_of(&[1, 2], &[c(1, 3, 2, 2)]), -1),
        (&[0, 0, 0, 0], 0),
        (&good, 2),
        (&image_of_keys(&full(1).keys[..]), LIMIT as i64),
    ] {
        assert_eq!(host::count(image), answer);
        let number = questions::of_host_count(image);
        assert_eq!(number.err().map_or(0, i64::from), (-answer).max(0));
    }
}

/// The image that a call leaves in a buffer, and nothing behind it.
fn left(call: impl FnOnce(&mut [u8]) -> i64) -> (i64, Vec<u8>) {
    let mut out = vec![0x55; IMAGE_MOST + 40];
    let answer = call(&mut out);
    let length = image_length(&out).length;
    assert!(out[length..].iter().all(|&byte| byte == 0x55));
    out.truncate(length);
    (answer, out)
}

/// Every call on an image with a full table, all of which is left out.
#[test]
fn a_table_that_is_left_out_makes_room() {
    let keys: Vec<u64> = (0..70).collect();
    let image = image_of(&keys, &made_by_none());
    assert_eq!(host::count(&image), 70);
    assert_eq!(
        left(|out| host::enter(&image, 3, out)),
        (4 + 8 * 70, image_of_keys(&keys))
    );
    let whole = frame_of(&[claim_of(&keys)]);
    let mut frames = vec![0x66; host::BEAT_FRAMES];
    assert_eq!(
        left(|out| host::beat(&image, out, &mut frames)),
        (30, image_of_keys(&keys))
    );
    assert_eq!(frames[..30], whole);
    assert!(frames[30..].iter().all(|&byte| byte == 0x66));
    // Claims that would come after 64 others.
    let claims = [c(0, 69, 7, 9), c(0, 69, 8, 9)];
    assert_eq!(
        left(|out| host::take_frame(&image, &frame_of(&claims), out)),
        (4 + 8 * 70 + 52, image_of(&keys, &claims))
    );
}

/// A later question is asked as if nothing were left out, and what it refuses
/// is not written back.
#[test]
fn refused_calls_leave_what_would_be_left_out() {
    let keys = full(2).keys;
    let image = image_of(&keys[..], &[three(0, 0, 4)]);
    let untouched = |answer: i64, out: &[u8]| {
        assert!(out.iter().all(|&byte| byte == 0x55));
        answer
    };
    let frame = frame_of(&[c(0, 2, 2, 2)]);
    let cut = &frame[..29];
    let other = [0x4D, 0x43, 1, 0];
    let faulty = frame_of(&[three(0, 0, 4)]);
    let missing = frame_of(&[c(1, 1, 1, 1)]);
    for (frame, lent, number) in [
        (&other[..], IMAGE_MOST, 10),
        (cut, IMAGE_MOST, 12),
        (&faulty, IMAGE_MOST, 13),
        (&missing, IMAGE_MOST, 6),
        (&frame, IMAGE_MOST - 1, 15),
    ] {
        let mut out = vec![0x55; lent];
        let answer = host::take_frame(&image, frame, &mut out);
        assert_eq!(untouched(answer, &out), -number);
    }
    for (key, lent, number) in [(1, IMAGE_MOST, 6), (0, IMAGE_MOST - 1, 15)] {
        let mut out = vec![0x55; lent];
        let answer = host::enter(&image, key, &mut out);
        assert_eq!(untouched(answer, &out), -number);
    }
    for (lent, lent_frames) in [
        (IMAGE_MOST - 1, host::BEAT_FRAMES),
        (IMAGE_MOST, host::BEAT_FRAMES - 1),
    ] {
        let (mut out, mut frames) = (vec![0x55; lent], vec![0x55; lent_frames]);
        let answer = host::beat(&image, &mut out, &mut frames);
        assert_eq!(untouched(answer, &out), -15);
        assert_eq!(untouched(answer, &frames), -15);
    }
}
