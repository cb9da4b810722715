//! The calls against the second program, seeded, byte for byte: the answer,
//! every buffer whole with guard bytes around it, and the inputs afterwards.

#[path = "../../../second/tests/common/mod.rs"]
mod common;

mod joinings;

use std::cell::RefCell;
use std::collections::{BTreeMap, BTreeSet};
use std::fmt::Debug;

use common::{Rng, c, for_seeds, frame_of, image_of, without_left_out};
use joinings::join_both;
use minutefrost::*;
use second::{BEAT_PLACES, Claim, RawNode, RawStore};

const LIMIT: usize = RawStore::LIMIT;

/// How often each number was seen, 0 being success, or each of other things.
#[derive(Default)]
struct Seen<What = u8>(RefCell<BTreeMap<What, usize>>);

impl<What: Copy + Ord + Debug> Seen<What> {
    fn note(&self, what: What) {
        *self.0.borrow_mut().entry(what).or_default() += 1;
    }

    /// These were seen often and no others.
    fn check(&self, all: &[What], often: usize) {
        // A lone seed can't see them all.
        if std::env::var_os("SECOND_SEED").is_some() {
            return;
        }
        let seen = self.0.borrow();
        println!("seen: {seen:?}");
        assert!(all.iter().all(|what| seen.contains_key(what)), "{seen:?}");
        assert_eq!(seen.len(), all.len(), "{seen:?}");
        assert!(seen.values().all(|&times| times >= often), "{seen:?}");
    }
}

/// A buffer with bytes before and after it that no call may touch.
#[derive(Clone, PartialEq)]
struct Guarded {
    bytes: Vec<u8>,
    at: usize,
    length: usize,
}

impl Guarded {
    /// So long, at any alignment and of any content.
    fn of(rng: &mut Rng, length: usize) -> Guarded {
        let at = 16 + rng.below(8);
        let bytes = (0..at + length + 64).map(|_| rng.next() as u8).collect();
        Guarded { bytes, at, length }
    }

    /// As long as it must be, seldom longer or too short.
    fn draw(rng: &mut Rng, need: usize) -> Guarded {
        let length = match rng.below(24) {
            0 => need - 1,
            1 => rng.below(need),
            2 => need + 1 + rng.below(40),
            _ => need,
        };
        Guarded::of(rng, length)
    }

    fn lent(&mut self) -> &mut [u8] {
        &mut self.bytes[self.at..][..self.length]
    }
}

/// The answer in the archive's own form.
fn as_number(answer: Result<usize, Refusal>) -> i64 {
    answer.map_or_else(
        |refusal| -i64::from(refusal.number()),
        |length| length as i64,
    )
}

fn number_of(answer: i64) -> u8 {
    if answer < 0 { -answer as u8 } else { 0 }
}

/// Takes a frame by both programs; the number, 0 if the new image stands in
/// the buffer.
fn take_both(image: &[u8], frame: &[u8], out: &mut Guarded, seen: &Seen) -> u8 {
    let given = (image.to_vec(), frame.to_vec());
    let mut other = out.clone();
    let answer = as_number(take_frame(image, frame, out.lent()));
    let expected = second::host::take_frame(image, frame, other.lent());
    assert_eq!(answer, expected);
    assert!(*out == other, "the images differ");
    assert!((image, frame) == (&given.0, &given.1), "an input changed");
    seen.note(number_of(answer));
    number_of(answer)
}

/// Beats by both programs; the new image and the frames, if there are any.
fn beat_both(
    image: &[u8],
    out: &mut Guarded,
    sent: &mut Guarded,
    seen: &Seen,
) -> Option<(Vec<u8>, Vec<u8>)> {
    let given = image.to_vec();
    let (mut other_out, mut other_sent) = (out.clone(), sent.clone());
    let answer = beat(image, out.lent(), sent.lent());
    let expected = second::host::beat(image, other_out.lent(), other_sent.lent());
    assert_eq!(as_number(answer.map(|beaten| beaten.frames)), expected);
    assert!(*out == other_out, "the images differ");
    assert!(*sent == other_sent, "the frames differ");
    assert!(image == given, "the input changed");
    seen.note(number_of(expected));
    answer.ok().map(|beaten| {
        let image = out.lent()[..beaten.image].to_vec();
        let told = second::image_length(out.lent());
        assert_eq!((told.number, told.length), (0, beaten.image));
        (image, sent.lent()[..beaten.frames].to_vec())
    })
}

/// Enters a key by both programs; the number, 0 if the new image stands in
/// the buffer.
fn enter_both(image: &[u8], key: u64, out: &mut Guarded, seen: &Seen) -> u8 {
    let given = image.to_vec();
    let mut other = out.clone();
    let answer = as_number(enter(image, key, out.lent()));
    let expected = second::host::enter(image, key, other.lent());
    assert_eq!(answer, expected);
    assert!(*out == other, "the images differ");
    assert!(image == given, "the input changed");
    seen.note(number_of(answer));
    number_of(answer)
}

/// Lists the keys by both programs; how many there are, if it is an image.
fn keys_both(image: &[u8], seen: &Seen) -> Option<usize> {
    let found = keys(image);
    let count = found.as_ref().map(|keys| keys.len());
    let expected = second::host::count(image);
    assert_eq!(as_number(count.map_err(|refusal| *refusal)), expected);
    seen.note(number_of(expected));
    found.ok().map(|keys| {
        let read = second::read_image(image).node.store;
        assert!(keys.clone().eq(read.held().iter().copied()));
        assert!(keys.clone().rev().eq(read.held().iter().rev().copied()));
        keys.len()
    })
}

/// Lays out a sheet by both programs; the number, 0 if it stands in the buffer.
fn sheet_both(image: &[u8], out: &mut Guarded, seen: &Seen) -> u8 {
    let given = image.to_vec();
    let mut other = out.clone();
    let answer = as_number(sheet(image, out.lent()));
    let expected = second::host::sheet(image, other.lent());
    assert_eq!(answer, expected);
    assert!(*out == other, "the sheets differ");
    assert!(image == given, "the input changed");
    seen.note(number_of(answer));
    number_of(answer)
}

fn bytes_of(node: &RawNode) -> Vec<u8> {
    image_of(node.store.held(), node.table())
}

/// An image: in order, saved before question 16 was asked, out of order in its
/// contents, or damaged.
fn draw_image(rng: &mut Rng) -> (Vec<u64>, Vec<u8>) {
    let mut node = rng.node();
    if rng.one_in(3) {
        // Nearly or quite full, so that 6 is asked in earnest.
        let room = rng.below(4);
        let mut keys: Vec<u64> = (0..LIMIT).map(|_| rng.next()).collect();
        keys.sort();
        keys.dedup();
        keys.truncate(LIMIT - room);
        node = RawNode::of(RawStore::of(&keys), &[]);
        for _ in 0..rng.below(6) {
            let claim = rng.claim(&keys, 0);
            if keys.binary_search(&claim.lo).is_ok() && keys.binary_search(&claim.hi).is_ok() {
                node = second::take(node, claim).node;
            }
        }
    }
    let keys = node.store.held().to_vec();
    if rng.one_in(5) {
        node = RawNode::of(node.store, &rng.saved_table(&keys));
    }
    let mut image = bytes_of(&node);
    match rng.below(12) {
        0 => rng.damage(&mut image),
        1 if keys.len() > 1 => {
            let mut bent = keys.clone();
            let at = rng.below(bent.len() - 1);
            bent[at + 1] = bent[at].wrapping_sub(rng.next() % 2);
            image = image_of(&bent, node.table());
        }
        _ => {}
    }
    (keys, image)
}

/// A frame of claims about these keys and others, seldom damaged.
fn draw_frame(rng: &mut Rng, keys: &[u64]) -> Vec<u8> {
    let density = rng.density();
    let bent = rng.one_in(4);
    let claims: Vec<Claim> = (0..1 + rng.below(4))
        .map(|_| {
            loop {
                let claim = rng.claim(keys, density);
                if bent || second::questions::of_claim(&claim).is_ok() {
                    break claim;
                }
            }
        })
        .collect();
    let mut frame = frame_of(&claims);
    if rng.one_in(5) {
        rng.damage(&mut frame);
    }
    frame
}

/// Whether something is left out of an image that is read.
fn is_left_out(image: &[u8]) -> bool {
    without_left_out(image) != image
}

/// Which claim of a frame, from 1 on, is the first with no room for its keys.
fn claim_without_room(image: &[u8], frame: &[u8]) -> u8 {
    let refused = |n: &u8| {
        let mut shorter = frame[..4 + 26 * usize::from(*n)].to_vec();
        shorter[3] = *n;
        second::host::take_frame(image, &shorter, &mut [0; IMAGE_MOST]) == -6
    };
    (1..=frame[3])
        .find(refused)
        .expect("the whole frame is refused")
}

#[test]
fn take_frame_agrees() {
    let (seen, left_out) = (Seen::default(), Seen::default());
    let without_room = Seen::default();
    for_seeds(6_000, |rng| {
        let (keys, image) = draw_image(rng);
        for _ in 0..3 {
            let frame = draw_frame(rng, &keys);
            let mut out = Guarded::draw(rng, IMAGE_MOST);
            match take_both(&image, &frame, &mut out, &seen) {
                0 => left_out.note(is_left_out(&image)),
                6 => without_room.note(claim_without_room(&image, &frame)),
                _ => {}
            }
        }
    });
    seen.check(&[0, 1, 6, 10, 11, 12, 13, 14, 15], 50);
    without_room.check(&[1, 2, 3, 4], 50);
    left_out.check(&[false, true], 50);
}

#[test]
fn beat_agrees() {
    let (seen, left_out) = (Seen::default(), Seen::default());
    for_seeds(6_000, |rng| {
        let (_, image) = draw_image(rng);
        let mut out = Guarded::draw(rng, IMAGE_MOST);
        let mut sent = Guarded::draw(rng, BEAT_FRAMES);
        if beat_both(&image, &mut out, &mut sent, &seen).is_some() {
            left_out.note(is_left_out(&image));
        }
    });
    seen.check(&[0, 1, 14, 15], 50);
    left_out.check(&[false, true], 50);
}

/// A key to enter: the ends of all keys, one that is held, one beside it, or
/// any other.
fn draw_key(rng: &mut Rng, keys: &[u64]) -> u64 {
    match rng.below(8) {
        0 => 0,
        1 => u64::MAX,
        2..=4 if !keys.is_empty() => *rng.pick(keys),
        5 if !keys.is_empty() => rng.pick(keys).wrapping_add(1),
        _ => rng.next(),
    }
}

/// Where a key goes among these.
fn place_of(keys: &[u64], key: u64) -> &'static str {
    let full = keys.len() == LIMIT;
    match keys.binary_search(&key) {
        Ok(_) if full => "held by a full store",
        Ok(_) => "held",
        Err(_) if full => "nowhere",
        Err(0) if keys.is_empty() => "first of all",
        Err(_) if keys.len() == LIMIT - 1 => "the last that fits",
        Err(0) => "lowest",
        Err(at) if at == keys.len() => "highest",
        Err(_) => "between",
    }
}

#[test]
fn enter_agrees() {
    let (seen, places, ends) = (Seen::default(), Seen::default(), Seen::default());
    let left_out = Seen::default();
    for_seeds(6_000, |rng| {
        let (keys, image) = draw_image(rng);
        for _ in 0..3 {
            let key = draw_key(rng, &keys);
            let mut out = Guarded::draw(rng, IMAGE_MOST);
            if let number @ (0 | 6 | 15) = enter_both(&image, key, &mut out, &seen) {
                // The image has these keys; it may have been damaged.
                let held = second::read_image(&image).node.store;
                places.note((number, place_of(held.held(), key)));
                left_out.note((number, is_left_out(&image)));
                if number == 0 && (key == 0 || key == u64::MAX) {
                    ends.note((key, held.held().contains(&key)));
                }
            }
        }
    });
    let numbers = [0, 6, 15].map(|number| [(number, false), (number, true)]);
    left_out.check(&numbers.concat(), 20);
    seen.check(&[0, 1, 6, 14, 15], 50);
    let room = [
        "held",
        "held by a full store",
        "first of all",
        "lowest",
        "between",
        "highest",
        "the last that fits",
    ];
    let mut all = vec![(6, "nowhere")];
    all.extend(room.map(|place| (0, place)));
    all.extend(room.map(|place| (15, place)));
    places.check(&all, 20);
    ends.check(
        &[(0, false), (0, true), (u64::MAX, false), (u64::MAX, true)],
        50,
    );
}

#[test]
fn keys_agree() {
    let (seen, counts, left_out) = (Seen::default(), Seen::default(), Seen::default());
    for_seeds(3_000, |rng| {
        let (_, image) = draw_image(rng);
        if let Some(count) = keys_both(&image, &seen) {
            left_out.note(is_left_out(&image));
            counts.note(match count {
                0 => "none",
                1..LIMIT => "some",
                _ => "all that fit",
            });
        }
    });
    seen.check(&[0, 1, 14], 50);
    counts.check(&["none", "some", "all that fit"], 50);
    left_out.check(&[false, true], 50);
}

/// Counts of keys at the edges of a line, of a page and of a store.
const EDGES: [usize; 12] = [0, 1, 2, 3, 4, 119, 120, 121, 240, 241, LIMIT - 1, LIMIT];

/// An image with so many keys as one of the edges, of any number of digits,
/// and with nothing pending, claims, or claims of which some are left out.
fn draw_edge_image(rng: &mut Rng) -> (Vec<u64>, Vec<u8>) {
    let count = *rng.pick(&EDGES);
    let mut keys = BTreeSet::new();
    for end in [0, u64::MAX] {
        if keys.len() < count && rng.one_in(2) {
            keys.insert(end);
        }
    }
    while keys.len() < count {
        keys.insert(rng.next() >> rng.below(64));
    }
    let keys: Vec<u64> = keys.into_iter().collect();
    let mut pending = rng.saved_table(&keys);
    if rng.one_in(2) {
        pending.retain(|claim| second::questions::of_claim(claim).is_ok());
    }
    let image = image_of(&keys, &pending);
    (keys, image)
}

/// The bytes of the sheet of so many keys: 63 for each line, three keys to a
/// line, 40 lines to a page, and a line above each page.
fn sheet_length(count: usize) -> usize {
    63 * (count.div_ceil(3) + count.div_ceil(120).max(1))
}

/// How long a lent buffer is for what is to be written.
fn lent_for(lent: usize, need: usize) -> &'static str {
    match lent {
        _ if lent + 1 == need => "a byte too short",
        _ if lent < need => "too short",
        _ if lent == need => "just long enough",
        _ => "longer",
    }
}

/// What an image in order has pending.
fn pending_in(image: &[u8], count: usize) -> &'static str {
    match image[2 + 8 * count..] {
        [0, 0] => "nothing",
        _ if is_left_out(image) => "claims that are left out",
        _ => "claims",
    }
}

/// Each of these with a sheet that was written and with one refused by 15.
fn written_and_refused<What: Copy>(all: &[What]) -> Vec<(u8, What)> {
    all.iter().flat_map(|&it| [(0, it), (15, it)]).collect()
}

#[test]
fn sheet_agrees() {
    let (seen, lent, edges) = (Seen::default(), Seen::default(), Seen::default());
    let (ends, pending) = (Seen::default(), Seen::default());
    for_seeds(6_000, |rng| {
        let draw = *rng.pick(&[draw_image, draw_edge_image]);
        let (keys, image) = draw(rng);
        let need = sheet_length(keys.len());
        for _ in 0..3 {
            let mut out = Guarded::draw(rng, need);
            let number = sheet_both(&image, &mut out, &seen);
            if let 0 | 15 = number {
                // Those of a damaged image may be others, but are as many.
                let held = second::read_image(&image).node.store;
                ends.note((number, [0, u64::MAX].map(|end| held.held().contains(&end))));
                lent.note((number, lent_for(out.length, need)));
                pending.note((number, pending_in(&image, keys.len())));
                if EDGES.contains(&keys.len()) {
                    edges.note((number, keys.len()));
                }
            }
        }
    });
    seen.check(&[0, 1, 14, 15], 50);
    let short = ["a byte too short", "too short"].map(|length| (15, length));
    let enough = ["just long enough", "longer"].map(|length| (0, length));
    lent.check(&[short, enough].concat(), 50);
    edges.check(&written_and_refused(&EDGES), 20);
    let tables = ["nothing", "claims", "claims that are left out"];
    pending.check(&written_and_refused(&tables), 50);
    let held = [[false, false], [false, true], [true, false], [true, true]];
    ends.check(&written_and_refused(&held), 50);
}

/// The claims of a beat go four to a frame, and the rest in a last one.
#[test]
fn sizes_agree() {
    assert_eq!(KEYS_MOST, LIMIT);
    assert_eq!(IMAGE_MOST, second::IMAGE_MOST);
    assert_eq!(SHEET_MOST, second::SHEET_MOST);
    assert_eq!(FRAME_MOST, second::FRAME_MOST);
    let frames = [c(7, 7, 7, 1); BEAT_PLACES];
    let frames = frames.chunks(4).map(|claims| frame_of(claims).len());
    assert_eq!(BEAT_FRAMES, frames.sum());
}

/// Bytes of no sense at all, of any length.
#[test]
fn noise_agrees() {
    let (frames, beats) = (Seen::default(), Seen::default());
    let (keys, counts) = (Seen::default(), Seen::default());
    let (sheets, joinings) = (Seen::default(), Seen::default());
    for_seeds(3_000, |rng| {
        let mut noise = |most| -> Vec<u8> {
            let length = rng.below(most);
            let mask = *rng.pick(&[0xFF, 0x03, 0x00]);
            (0..length).map(|_| rng.next() as u8 & mask).collect()
        };
        let (image, frame, other) = (noise(400), noise(120), noise(400));
        let mut out = Guarded::draw(rng, IMAGE_MOST);
        let mut sent = Guarded::draw(rng, BEAT_FRAMES);
        take_both(&image, &frame, &mut out.clone(), &frames);
        enter_both(&image, rng.next(), &mut out.clone(), &keys);
        keys_both(&image, &counts);
        sheet_both(&image, &mut out.clone(), &sheets);
        join_both(&image, &other, &mut out.clone(), &joinings);
        join_both(&EMPTY_IMAGE, &other, &mut out.clone(), &joinings);
        beat_both(&image, &mut out, &mut sent, &beats);
    });
}

/// Three kiosks that are given slips meanwhile, over a radio that loses,
/// repeats, delays and reorders: the same images after every call, and in the
/// end the same keys.
#[test]
fn kiosks_agree_call_by_call() {
    let (entered, heard, beaten, listed) = Default::default();
    for_seeds(50, |rng| {
        // Who is given which key; most are given to more than one.
        let mut slips: Vec<(usize, u64)> = Vec::new();
        for _ in 0..40 + rng.below(400) {
            let key = rng.next();
            slips.extend((0..3).filter(|_| !rng.one_in(9)).map(|kiosk| (kiosk, key)));
        }
        let union: BTreeSet<u64> = slips.iter().map(|&(_, key)| key).collect();
        let mut images = [0; 3].map(|_| EMPTY_IMAGE.to_vec());
        let mut out = Guarded::of(rng, IMAGE_MOST);
        let mut sent = Guarded::of(rng, BEAT_FRAMES);
        let mut air: Vec<Vec<u8>> = Vec::new();
        let mut calls = 0;
        while !images
            .iter()
            .all(|image| keys(image).unwrap().eq(union.iter().copied()))
        {
            calls += 1;
            assert!(calls < 200_000, "they never agree");
            let kiosk = rng.below(3);
            if !slips.is_empty() && rng.one_in(3) {
                let at = rng.below(slips.len());
                let (kiosk, key) = slips.swap_remove(at);
                assert_eq!(enter_both(&images[kiosk], key, &mut out, &entered), 0);
                images[kiosk] = written(&mut out);
                keys_both(&images[kiosk], &listed);
            } else if air.is_empty() || rng.one_in(8) {
                let (image, sent) =
                    beat_both(&images[kiosk], &mut out, &mut sent, &beaten).unwrap();
                images[kiosk] = image;
                air.extend(frames(&sent).map(<[u8]>::to_vec));
                assert_eq!(frames(&sent).map(<[u8]>::len).sum::<usize>(), sent.len());
            } else {
                let at = rng.below(air.len());
                // Where but one of three is heard, some seeds take a million
                // calls for the last key.
                if !rng.one_in(3) {
                    assert_eq!(take_both(&images[kiosk], &air[at], &mut out, &heard), 0);
                    images[kiosk] = written(&mut out);
                }
                if !rng.one_in(6) {
                    air.swap_remove(at);
                }
            }
        }
    });
    for seen in [entered, heard, beaten, listed] {
        seen.check(&[0], 1_000);
    }
}

/// The image that a call left at the front of a buffer.
fn written(out: &mut Guarded) -> Vec<u8> {
    let length = second::image_length(out.lent()).length;
    out.lent()[..length].to_vec()
}
