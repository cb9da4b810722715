//! Two images joined into one, by hand: what a caller counts on, and each
//! refusal with nothing written.

#[path = "../../second/tests/common/mod.rs"]
mod common;

use common::{c, claim_of, even, frame_of, full_image, image_of, image_of_keys, three};
use minutefrost::*;
use second::Claim;

const LIMIT: u64 = KEYS_MOST as u64;

/// The image that two become, whichever is the first and whether the buffer has
/// to spare or not. Behind it nothing is written.
fn joined(first: &[u8], second: &[u8]) -> Vec<u8> {
    let images = [(first, second, 0), (second, first, 0), (first, second, 40)];
    let images = images.map(|(first, second, spare)| {
        let mut out = vec![0xA5; IMAGE_MOST + spare];
        let length = join(first, second, &mut out).unwrap();
        assert!(out[length..].iter().all(|&byte| byte == 0xA5));
        out.truncate(length);
        out
    });
    let [image, ..] = &images;
    assert!(images.iter().all(|other| other == image));
    image.clone()
}

/// The refusal of two images; nothing is written.
fn refused(first: &[u8], second: &[u8], lent: usize) -> Refusal {
    let mut out = vec![0xA5; lent];
    let refusal = join(first, second, &mut out).unwrap_err();
    assert!(out.iter().all(|&byte| byte == 0xA5), "{refusal}");
    refusal
}

#[test]
fn keys_and_claims_of_both_come_in_order() {
    let (pair, whole) = (c(1, 16, 17, 2), c(1, 16, 0, 5));
    let own = c(7, 7, 7, 1);
    let kiosk = image_of(&[0, 1, 16], &[pair, whole]);
    let card = image_of(&[1, 7, 16, u64::MAX], &[own, pair]);
    let keys = [0, 1, 7, 16, u64::MAX];
    assert_eq!(joined(&kiosk, &card), image_of(&keys, &[own, pair, whole]));
    // What is joined already brings nothing.
    let both = joined(&kiosk, &card);
    for part in [&kiosk, &card, &both, &EMPTY_IMAGE.to_vec()] {
        assert_eq!(joined(&both, part), both);
    }
    assert_eq!(joined(&EMPTY_IMAGE, &EMPTY_IMAGE), EMPTY_IMAGE);
}

/// Hearing (1, 16, 19, 3) with just 1 and 16 held would tell the key 2.
#[test]
fn no_key_comes_but_those_of_both() {
    let claim = three(1, 2, 16);
    let card = image_of(&[1, 16], &[claim]);
    assert_eq!(joined(&image_of_keys(&[1, 16]), &card), card);
    assert_eq!(joined(&EMPTY_IMAGE, &card), card);
    let other = image_of_keys(&[5]);
    assert_eq!(joined(&other, &card), image_of(&[1, 5, 16], &[claim]));
}

/// The new image answers what was asked of either kiosk.
#[test]
fn a_beat_replies_to_what_was_pending_in_either() {
    let asked = c(1, 32, 33, 2);
    let kiosk = image_of_keys(&[1, 2, 4, 8, 16, 32]);
    let card = image_of(&[1, 32], &[asked]);
    let both = joined(&kiosk, &card);
    let (mut out, mut sent) = ([0; IMAGE_MOST], [0; BEAT_FRAMES]);
    let beaten = beat(&both, &mut out, &mut sent).unwrap();
    assert_eq!(out[..beaten.image], kiosk);
    let own = claim_of(&[1, 2, 4, 8, 16, 32]);
    let claims = [own, c(2, 8, 14, 3), c(16, 16, 16, 1)];
    assert_eq!(sent[..beaten.frames], frame_of(&claims));
}

/// Of 65 different claims the last in table order is dropped, whose ever it was.
#[test]
fn the_first_64_claims_are_kept() {
    let keys = even(70);
    let claims: Vec<Claim> = keys[..65].iter().map(|&key| c(key, key, key, 1)).collect();
    let kept = image_of(&keys, &claims[..64]);
    for at in [0, 1, 32, 63, 64] {
        let mut others = claims.clone();
        let alone = others.remove(at);
        let images = [&others[..], &[alone]].map(|pending| image_of(&keys, pending));
        assert_eq!(joined(&images[0], &images[1]), kept);
    }
    let [lower, upper] = [&claims[..64], &claims[1..]].map(|it| image_of(&keys, it));
    assert_eq!(joined(&lower, &upper), lower);
}

/// An image with itself is unchanged, but for claims of three that no store
/// could make; these take no place from others.
#[test]
fn an_image_with_itself() {
    let full = full_image(KEYS_MOST as u16);
    assert_eq!(joined(&full, &full), full);
    let [own, good, faulty] = [c(1, 16, 17, 2), three(1, 2, 16), three(1, 20, 16)];
    let mut pending = [own, faulty, good];
    pending.sort_by_key(Claim::rank);
    let image = image_of(&[1, 16], &pending);
    let rest = image_of(&[1, 16], &[own, good]);
    assert_eq!(joined(&image, &image), rest);
    assert_eq!(joined(&rest, &rest), rest);
    assert_eq!(joined(&image, &rest), rest);
}

/// Two images of so many keys together: the lower and the upper ones, and some
/// in both.
fn pair(union: u64) -> [Vec<u8>; 2] {
    let keys = even(union);
    [&keys[..1_500], &keys[1_000..]].map(image_of_keys)
}

#[test]
fn as_many_keys_as_fit() {
    let [lower, upper] = pair(LIMIT);
    assert_eq!(joined(&lower, &upper), image_of_keys(&even(LIMIT)));
    let full = image_of_keys(&even(LIMIT));
    assert_eq!(joined(&full, &upper), full);
    let [lower, upper] = pair(LIMIT + 1);
    let refusal = refused(&lower, &upper, IMAGE_MOST);
    assert_eq!(
        refusal.to_string(),
        "refused 8: the two stores or images together hold more than 2048 keys",
    );
    // 8 comes before 15; without it 15 does.
    assert_eq!(refused(&lower, &upper, IMAGE_MOST - 1).number(), 8);
    assert_eq!(refused(&full, &full, IMAGE_MOST - 1).number(), 15);
    assert_eq!(refused(&EMPTY_IMAGE, &EMPTY_IMAGE, 0).number(), 15);
}

/// The first image is asked 14 and 1 before the second, and both before 8.
#[test]
fn the_first_image_counts_first() {
    let [lower, upper] = pair(LIMIT + 1);
    let (cut, unsorted) = (&lower[1..], &image_of_keys(&[2, 1])[..]);
    for (first, second, number) in [
        (cut, unsorted, 14),
        (unsorted, cut, 1),
        (cut, &upper[..], 14),
        (&upper, unsorted, 1),
    ] {
        for lent in [0, IMAGE_MOST] {
            assert_eq!(refused(first, second, lent).number(), number);
        }
    }
}
