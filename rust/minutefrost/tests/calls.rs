//! The calls on images by hand: each refusal that there is, each with nothing
//! written, and what a caller counts on. What a new kiosk costs, which no image
//! is asked about, comes in `openings`, and what two images become in `joinings`.

#[path = "../../second/tests/common/mod.rs"]
mod common;

use common::{c, claim_of, even, frame_of, full_image, image_of, image_of_keys, three};
use minutefrost::*;
use second::Claim;

const LIMIT: u64 = KEYS_MOST as u64;

/// The last key of a full store of even ones.
const LAST: u64 = 2 * (LIMIT - 1);

/// A cnt that a full store's own claims have at most.
const MOST_CNT: u16 = KEYS_MOST as u16;

/// Both buffers, full of a byte that tells whether they were written to.
fn buffers() -> (Vec<u8>, Vec<u8>) {
    (vec![0xA5; IMAGE_MOST], vec![0xA5; BEAT_FRAMES])
}

/// The number with which a frame is refused; nothing is written then.
fn frame_refused(image: &[u8], frame: &[u8], mut out: Vec<u8>) -> u8 {
    let refusal = take_frame(image, frame, &mut out).unwrap_err();
    assert!(out.iter().all(|&byte| byte == 0xA5), "{refusal}");
    refusal.number()
}

/// The number with which a key is refused; nothing is written then.
fn key_refused(image: &[u8], key: u64, mut out: Vec<u8>) -> u8 {
    let refusal = enter(image, key, &mut out).unwrap_err();
    assert!(out.iter().all(|&byte| byte == 0xA5), "{refusal}");
    refusal.number()
}

/// The number with which bytes are refused whose keys are wanted.
fn keys_refused(image: &[u8]) -> u8 {
    keys(image).unwrap_err().number()
}

/// The number with which a beat is refused; nothing is written then.
fn beat_refused(image: &[u8], mut out: Vec<u8>, mut frames: Vec<u8>) -> u8 {
    let refusal = beat(image, &mut out, &mut frames).unwrap_err();
    assert!(out.iter().all(|&byte| byte == 0xA5), "{refusal}");
    assert!(frames.iter().all(|&byte| byte == 0xA5), "{refusal}");
    refusal.number()
}

/// The number with which a sheet is refused; nothing is written then.
fn sheet_refused(image: &[u8], mut out: Vec<u8>) -> u8 {
    let refusal = sheet(image, &mut out).unwrap_err();
    assert!(out.iter().all(|&byte| byte == 0xA5), "{refusal}");
    refusal.number()
}

/// The number with which two images are refused; nothing is written then.
fn join_refused(first: &[u8], second: &[u8], mut out: Vec<u8>) -> u8 {
    let refusal = join(first, second, &mut out).unwrap_err();
    assert!(out.iter().all(|&byte| byte == 0xA5), "{refusal}");
    refusal.number()
}

/// Bytes that are no image, each with its number.
fn no_images() -> Vec<(Vec<u8>, u8)> {
    let image = image_of_keys(&[1, 16]);
    let mut all: Vec<_> = (0..image.len())
        .map(|cut| (image[..cut].to_vec(), 14))
        .collect();
    all.push(([&image[..], &[0]].concat(), 14));
    all.push((image_of_keys(&even(LIMIT + 1)), 14));
    let claims: Vec<Claim> = (2..67).map(|cnt| c(0, LAST, 0, cnt)).collect();
    all.push((image_of(&even(LIMIT), &claims), 14));
    let faulty: Vec<Claim> = (1..66).map(|at| three(0, 0, 2 * at)).collect();
    all.push((image_of(&even(LIMIT), &faulty), 14));
    for keys in [[1, 1], [2, 1]] {
        all.push((image_of_keys(&keys), 1));
    }
    for pending in [
        vec![c(1, 2, 3, 2)],                    // 2 isn't held
        vec![c(1, 16, 0, 2)],                   // 5
        vec![c(1, 16, 0, 4), c(1, 16, 0, 3)],   // falling
        vec![c(1, 16, 17, 2), c(1, 16, 17, 2)], // twice
        // Of those that would be left out, as of any other:
        vec![three(1, 20, 16), c(1, 16, 17, 2)],  // falling
        vec![three(1, 20, 16), three(1, 20, 16)], // twice
        vec![c(1, 16, 17, 2), three(1, 20, 15)],  // 15 isn't held
    ] {
        all.push((image_of(&[1, 16], &pending), 1));
    }
    all
}

/// Whatever else is wrong: the image comes first.
#[test]
fn every_call_refuses_what_is_no_image() {
    for (image, number) in no_images() {
        let none = Vec::new;
        let refused = [
            frame_refused(&image, &frame_of(&[c(7, 7, 7, 1)]), buffers().0),
            frame_refused(&image, &[], none()),
            beat_refused(&image, buffers().0, buffers().1),
            beat_refused(&image, none(), none()),
            key_refused(&image, 7, buffers().0),
            key_refused(&image, 7, none()),
            keys_refused(&image),
            sheet_refused(&image, vec![0xA5; SHEET_MOST]),
            sheet_refused(&image, none()),
            join_refused(&image, &EMPTY_IMAGE, buffers().0),
            join_refused(&EMPTY_IMAGE, &image, buffers().0),
            join_refused(&image, &image, none()),
        ];
        assert_eq!(refused, [number; 12], "{image:?}");
    }
}

#[test]
fn a_frame_is_refused_by_each_question_that_concerns_it() {
    let image = image_of_keys(&[1, 16]);
    let frame = frame_of(&[c(7, 7, 7, 1)]);
    let out = || buffers().0;

    for cut in 0..4 {
        assert_eq!(frame_refused(&image, &frame[..cut], out()), 10);
    }
    for (at, number) in [(0, 10), (1, 10), (2, 11), (3, 12)] {
        let mut bent = frame.clone();
        bent[at] ^= 0x40;
        assert_eq!(frame_refused(&image, &bent, out()), number);
    }
    assert_eq!(frame_refused(&image, &[0x4C, 0x43, 1, 0], out()), 12);
    assert_eq!(frame_refused(&image, &frame[..29], out()), 12);
    let five = frame_of(&[c(7, 7, 7, 1); 5]);
    assert_eq!(frame_refused(&image, &five, out()), 12);
    for claim in [
        c(9, 5, 12, 2),
        c(5, 6, 3, 0),
        c(5, 6, 3, 3),
        c(5, 5, 0, 1),
        three(1, 20, 16),
        three(1, 1, 16),
        three(1, 16, 16),
    ] {
        let frame = frame_of(&[c(7, 7, 7, 1), claim]);
        assert_eq!(frame_refused(&image, &frame, out()), 13);
    }

    let short = vec![0xA5; IMAGE_MOST - 1];
    assert_eq!(frame_refused(&image, &frame, short), 15);
}

#[test]
fn six_is_asked_claim_by_claim_and_before_fifteen() {
    // Room for three keys, and the no comes at each of the four claims.
    let image = image_of_keys(&even(LIMIT - 3));
    let new = |at: u64| c(2 * at + 1, 2 * at + 1, 2 * at + 1, 1);
    let held = c(0, 2, 2, 2);
    for (claims, number) in [
        (vec![new(0), new(1), new(2), new(3)], 6),
        (vec![new(0), new(1), c(5, 7, 2, 2)], 6),
        (vec![new(0), c(3, 5, 6, 2), held, new(9)], 6),
        (vec![new(0), new(1), new(2), new(1)], 15),
        (vec![held; 4], 15),
    ] {
        let short = vec![0xA5; IMAGE_MOST - 1];
        assert_eq!(frame_refused(&image, &frame_of(&claims), short), number);
    }
    let full = image_of_keys(&even(LIMIT));
    assert_eq!(frame_refused(&full, &frame_of(&[new(0)]), buffers().0), 6);
    assert_eq!(
        frame_refused(&full, &frame_of(&[c(0, 1, 1, 2)]), buffers().0),
        6
    );
}

#[test]
fn a_beat_is_refused_by_each_question_that_concerns_it() {
    let image = image_of_keys(&[1, 16]);
    let (out, frames) = buffers();
    // Whatever is pending: even the empty image needs both buffers whole.
    for image in [&image[..], &EMPTY_IMAGE] {
        let short = out[1..].to_vec();
        assert_eq!(beat_refused(image, short, frames.clone()), 15);
        let short = frames[1..].to_vec();
        assert_eq!(beat_refused(image, out.clone(), short), 15);
    }
}

#[test]
fn a_key_is_refused_by_each_question_that_concerns_it() {
    let full = image_of_keys(&even(LIMIT));
    for key in [1, LAST + 1, u64::MAX] {
        assert_eq!(key_refused(&full, key, buffers().0), 6);
        assert_eq!(key_refused(&full, key, Vec::new()), 6);
    }
    // A new key, one that is held, and one that is held in a full store: the
    // buffer is as long as for any image.
    let short = vec![0xA5; IMAGE_MOST - 1];
    for (image, key) in [
        (&EMPTY_IMAGE[..], 0),
        (&image_of_keys(&[1, 16]), 16),
        (&image_of_keys(&even(LIMIT - 1)), 1),
        (&full, LAST),
    ] {
        assert_eq!(key_refused(image, key, short.clone()), 15);
        assert_eq!(key_refused(image, key, Vec::new()), 15);
    }
}

#[test]
fn empty_slices_are_answered() {
    assert_eq!(frame_refused(&[], &[], Vec::new()), 14);
    assert_eq!(frame_refused(&EMPTY_IMAGE, &[], Vec::new()), 10);
    assert_eq!(beat_refused(&[], Vec::new(), Vec::new()), 14);
    assert_eq!(beat_refused(&EMPTY_IMAGE, Vec::new(), Vec::new()), 15);
    assert_eq!(key_refused(&[], 0, Vec::new()), 14);
    assert_eq!(key_refused(&EMPTY_IMAGE, 0, Vec::new()), 15);
    assert_eq!(keys_refused(&[]), 14);
    assert_eq!(sheet_refused(&[], Vec::new()), 14);
    assert_eq!(sheet_refused(&EMPTY_IMAGE, Vec::new()), 15);
    assert_eq!(join_refused(&[], &[], Vec::new()), 14);
    assert_eq!(join_refused(&EMPTY_IMAGE, &[], Vec::new()), 14);
    assert_eq!(join_refused(&EMPTY_IMAGE, &EMPTY_IMAGE, Vec::new()), 15);
}

/// Enters a key where there is room; the new image, behind which nothing is
/// written, whether the buffer has to spare or not.
fn entered(image: &[u8], key: u64) -> Vec<u8> {
    let images = [0, 1, 40].map(|spare| {
        let mut out = vec![0xA5; IMAGE_MOST + spare];
        let length = enter(image, key, &mut out).unwrap();
        assert!(out[length..].iter().all(|&byte| byte == 0xA5));
        out.truncate(length);
        out
    });
    let [image, ..] = &images;
    assert!(images.iter().all(|other| other == image));
    image.clone()
}

#[test]
fn a_key_goes_to_its_place_and_pending_claims_stay() {
    let pending = [c(1, 16, 17, 2), c(1, 16, 0, 5)];
    let image = image_of(&[1, 16], &pending);
    for (key, held) in [
        (0, &[0, 1, 16][..]),
        (2, &[1, 2, 16]),
        (17, &[1, 16, 17]),
        (u64::MAX, &[1, 16, u64::MAX]),
        (1, &[1, 16]),
        (16, &[1, 16]),
    ] {
        assert_eq!(entered(&image, key), image_of(held, &pending));
    }
    // Key 0 is a key like any other, and so is the largest.
    assert_eq!(entered(&EMPTY_IMAGE, 0), image_of_keys(&[0]));
    assert_eq!(entered(&image_of_keys(&[0]), 0), image_of_keys(&[0]));
    let largest = image_of_keys(&[u64::MAX]);
    assert_eq!(entered(&EMPTY_IMAGE, u64::MAX), largest);
    assert_eq!(entered(&largest, u64::MAX), largest);
}

#[test]
fn the_last_key_that_fits_is_taken() {
    let image = image_of_keys(&even(LIMIT - 1));
    let (middle, last) = (KEYS_MOST / 2, KEYS_MOST - 1);
    for (key, at) in [(1, 1), (LIMIT - 1, middle), (LAST, last), (u64::MAX, last)] {
        let mut keys = even(LIMIT - 1);
        keys.insert(at, key);
        assert_eq!(entered(&image, key), image_of_keys(&keys));
    }
    // Full, and with a full table: what is held already still is.
    let image = full_image(MOST_CNT);
    for key in even(LIMIT) {
        assert_eq!(entered(&image, key), image);
    }
}

#[test]
fn keys_come_in_order_from_both_ends() {
    let held = [0, 1, 16, u64::MAX];
    let image = image_of(&held, &[c(1, 16, 17, 2)]);
    let mut walk = keys(&image).unwrap();
    assert!(walk.clone().eq(held));
    assert!(walk.clone().rev().eq(held.into_iter().rev()));
    assert_eq!((walk.len(), walk.next()), (4, Some(0)));
    assert_eq!((walk.len(), walk.next_back()), (3, Some(u64::MAX)));
    assert_eq!(walk.size_hint(), (2, Some(2)));
    assert_eq!((walk.by_ref().count(), walk.next()), (2, None));
    assert_eq!(keys(&EMPTY_IMAGE).unwrap().next(), None);
    assert!(keys(&full_image(2)).unwrap().eq(even(LIMIT)));
}

/// Why nobody may count on beats alone: both kiosks say the same of different
/// keys, and go on saying it until one of them has another key.
#[test]
fn kiosks_that_match_falsely_learn_nothing() {
    let holding = |keys: [u64; 4]| {
        let none = EMPTY_IMAGE.to_vec();
        keys.into_iter()
            .fold(none, |image, key| entered(&image, key))
    };
    let hear_each_other = |mut kiosks: [Vec<u8>; 2]| {
        for beats in 0..20 {
            let (mut out, mut sent) = buffers();
            let beaten = beat(&kiosks[beats % 2], &mut out, &mut sent).unwrap();
            kiosks[beats % 2] = out[..beaten.image].to_vec();
            let hearer = &mut kiosks[1 - beats % 2];
            for frame in frames(&sent[..beaten.frames]) {
                let length = take_frame(hearer, frame, &mut out).unwrap();
                *hearer = out[..length].to_vec();
            }
        }
        kiosks
    };
    let [one, other] = hear_each_other([holding([1, 3, 4, 16]), holding([1, 2, 5, 16])]);
    assert!(keys(&one).unwrap().eq([1, 3, 4, 16]));
    assert!(keys(&other).unwrap().eq([1, 2, 5, 16]));
    let [one, other] = hear_each_other([entered(&one, 6), other]);
    assert!(keys(&one).unwrap().eq([1, 2, 3, 4, 5, 6, 16]));
    assert!(keys(&other).unwrap().eq([1, 2, 3, 4, 5, 6, 16]));
}

#[test]
fn a_frame_adds_its_keys_and_is_kept() {
    let (mut out, _) = buffers();
    // Of three keys the ends tell the one between them; of four they don't.
    for (first, keys) in [
        (c(1, 16, 19, 3), &[0, 1, 2, 16][..]),
        (c(1, 16, 19, 4), &[0, 1, 16]),
    ] {
        out.fill(0xA5);
        let second = c(0, 0, 0, 1);
        let length = take_frame(&EMPTY_IMAGE, &frame_of(&[first, second]), &mut out).unwrap();
        assert_eq!(out[..length], image_of(keys, &[second, first]));
        assert!(out[length..].iter().all(|&byte| byte == 0xA5));
    }
}

/// 6 is asked of a claim's ends: the key between them comes if there is space
/// for it, and leaves none for the next claim then.
#[test]
fn a_middle_key_comes_where_there_is_space() {
    // Above the keys of any store here.
    let [lo, middle, hi] = [1, 2, 16].map(|key| 2 * LIMIT + key);
    let three = three(lo, middle, hi);
    let (next, short) = (c(7, 7, 7, 1), vec![0xA5; IMAGE_MOST - 1]);
    for (count, claims, number) in [
        (LIMIT - 1, vec![three], 6),
        (LIMIT - 2, vec![three], 15),
        (LIMIT - 3, vec![three], 15),
        (LIMIT - 3, vec![three, next], 6),
        (LIMIT - 3, vec![next, three], 15),
        (LIMIT - 4, vec![three, next], 15),
    ] {
        let image = image_of_keys(&even(count));
        assert_eq!(
            frame_refused(&image, &frame_of(&claims), short.clone()),
            number
        );
    }
    for (count, added) in [(LIMIT - 2, &[lo, hi][..]), (LIMIT - 3, &[lo, middle, hi])] {
        let (mut out, _) = buffers();
        let image = image_of_keys(&even(count));
        let length = take_frame(&image, &frame_of(&[three]), &mut out).unwrap();
        let mut held = even(count);
        held.extend(added);
        assert!(keys(&out[..length]).unwrap().eq(held));
    }
}

/// Of an image that has one pending, the rest is used and written back.
#[test]
fn claims_of_three_that_no_store_could_make_are_left_out() {
    let [own, good] = [c(1, 16, 17, 2), three(1, 2, 16)];
    let rest = image_of(&[1, 16], &[own, good]);
    for faulty in [three(1, 20, 16), three(1, 16, 16), three(1, 1, 16)] {
        let mut pending = [own, faulty, good];
        pending.sort_by_key(Claim::rank);
        let image = image_of(&[1, 16], &pending);
        assert!(keys(&image).unwrap().eq([1, 16]));
        assert_eq!(entered(&image, 16), rest);
        assert_eq!(entered(&rest, 16), rest);
        let (mut out, mut sent) = buffers();
        let beaten = beat(&image, &mut out, &mut sent).unwrap();
        assert_eq!(out[..beaten.image], image_of(&[1, 16], &[good]));
        assert_eq!(sent[..beaten.frames], frame_of(&[own, own]));
        assert!(out[beaten.image..].iter().all(|&byte| byte == 0xA5));
        let seven = c(7, 7, 7, 1);
        let length = take_frame(&image, &frame_of(&[seven]), &mut out).unwrap();
        assert_eq!(out[..length], image_of(&[1, 7, 16], &[seven, own, good]));
        // Refused by a later question, nothing is written back.
        assert_eq!(frame_refused(&image, &[], buffers().0), 10);
        assert_eq!(frame_refused(&image, &frame_of(&[faulty]), buffers().0), 13);
        let short = || vec![0xA5; IMAGE_MOST - 1];
        assert_eq!(key_refused(&image, 16, short()), 15);
        assert_eq!(beat_refused(&image, short(), buffers().1), 15);
    }
}

#[test]
fn a_beat_replies_and_keeps_what_it_asked_about() {
    let (mut out, mut sent) = buffers();
    let keys = [1, 2, 4, 8, 16, 32];
    let asked = c(1, 4, 0, 4);
    let image = image_of(&keys, &[c(1, 32, 33, 2), asked]);
    let beaten = beat(&image, &mut out, &mut sent).unwrap();
    assert_eq!(out[..beaten.image], image_of(&keys, &[asked]));
    let claims = [
        claim_of(&keys),
        c(2, 8, 14, 3),
        c(16, 16, 16, 1),
        c(1, 4, 7, 3),
    ];
    assert_eq!(sent[..beaten.frames], frame_of(&claims));
    assert!(out[beaten.image..].iter().all(|&byte| byte == 0xA5));
    assert!(sent[beaten.frames..].iter().all(|&byte| byte == 0xA5));
}

#[test]
fn the_most_that_a_beat_sends_fits() {
    let (mut out, mut sent) = buffers();
    let image = full_image(2);
    let beaten = beat(&image, &mut out, &mut sent).unwrap();
    assert_eq!(beaten.frames, BEAT_FRAMES);
    // Eight of 64 claims are helped with two each.
    assert_eq!(beaten.image, IMAGE_MOST - 8 * 26);
    let lengths: Vec<usize> = frames(&sent).map(<[u8]>::len).collect();
    let mut expected = vec![FRAME_MOST; 5];
    expected[4] = 30;
    assert_eq!(lengths, expected);
}

/// On four threads at once, each with a stack of 128 KB.
#[test]
fn small_stacks_are_enough() {
    fn all_calls() -> [Vec<u8>; 6] {
        let image = full_image(MOST_CNT);
        let frame = frame_of(&[c(0, LAST, 1, 700); 4]);
        let (mut taken, mut sent) = buffers();
        let [mut beaten, mut entered, mut joined] = [0; 3].map(|_| taken.clone());
        assert_eq!(take_frame(&image, &frame, &mut taken), Ok(IMAGE_MOST));
        assert!(beat(&taken, &mut beaten, &mut sent).is_ok());
        assert_eq!(enter(&taken, 0, &mut entered), Ok(IMAGE_MOST));
        assert!(keys(&entered).is_ok_and(|keys| keys.eq(even(LIMIT))));
        let mut text = vec![0xA5; SHEET_MOST];
        assert_eq!(sheet(&entered, &mut text), Ok(SHEET_MOST));
        let other = full_image(2);
        assert_eq!(join(&entered, &other, &mut joined), Ok(IMAGE_MOST));
        let cost = second::host::opening_cost(KEYS_MOST);
        assert_eq!(opening_cost(KEYS_MOST), Ok(cost as usize));
        [taken, beaten, sent, entered, text, joined]
    }
    let threads: Vec<_> = (0..4)
        .map(|_| {
            let thread = std::thread::Builder::new().stack_size(128 << 10);
            thread.spawn(all_calls).unwrap()
        })
        .collect();
    let expected = all_calls();
    for thread in threads {
        assert!(thread.join().unwrap() == expected);
    }
}
