//! Random bytes and damaged images in either place.

use second::{IMAGE_MOST, host};
use tests::cases::{Seen, for_seeds, one_seed};
use tests::draw::Rng;
use tests::joining::union_of;

use super::{LIMIT, OFTEN, join, joined};

/// The number that the slip gives: what is asked of each image alone, the first
/// one's before the second's, then 8 and 15.
fn number_told(first: &[u8], second: &[u8], lent: usize) -> u8 {
    let alone = [first, second].map(|image| host::count(image).min(0));
    match alone {
        [0, 0] if union_of(first, second) > LIMIT => 8,
        [0, 0] if lent < IMAGE_MOST => 15,
        [0, no] | [no, _] => -no as u8,
    }
}

/// Which of the two are no images.
fn told(first: &[u8], second: &[u8]) -> &'static str {
    match [first, second].map(host::count) {
        [-14, -14] => "14 and 14",
        [-14, -1] => "14 and 1",
        [-1, -14] => "1 and 14",
        [-1, -1] => "1 and 1",
        [-14, _] => "14 and an image",
        [-1, _] => "1 and an image",
        [_, -14] => "an image and 14",
        [_, -1] => "an image and 1",
        _ => "two images",
    }
}

const TOLD: [&str; 9] = [
    "14 and 14",
    "14 and 1",
    "1 and 14",
    "1 and 1",
    "14 and an image",
    "1 and an image",
    "an image and 14",
    "an image and 1",
    "two images",
];

/// Both programs join them, in either order, as the slip tells.
fn try_both(first: &[u8], second: &[u8], lent: usize, seen: &mut Seen) {
    for [first, second] in [[first, second], [second, first]] {
        let number = number_told(first, second, lent);
        let left = join(first, second, lent);
        assert_eq!(left.as_ref().err().copied().unwrap_or(0), number);
        seen.number(number);
        seen.way(told(first, second));
        if let Ok(image) = left {
            assert!(joined(first, second) == image);
        }
    }
}

fn room(rng: &mut Rng) -> usize {
    rng.pick(&[IMAGE_MOST, IMAGE_MOST, IMAGE_MOST, IMAGE_MOST - 1, 0])
}

/// Damages an image, takes another that may be out of order, or puts two keys
/// out of order.
fn harm(rng: &mut Rng, image: &mut Vec<u8>) {
    let keys = usize::from(u16::from_be_bytes([image[0], image[1]]));
    match rng.below(3) {
        0 => *image = rng.image(),
        1 if keys > 1 => {
            let at = 2 + 8 * rng.below(keys - 1);
            image[at..at + 16].rotate_left(8);
        }
        _ => rng.damage(image),
    }
}

#[test]
fn damaged_images() {
    let mut seen = Seen::default();
    for_seeds(4_000, |_, rng| {
        let [mut first, mut second] = rng.images_to_join();
        let which = rng.below(4);
        if which != 1 {
            harm(rng, &mut first);
        }
        if which != 2 {
            harm(rng, &mut second);
        }
        let lent = room(rng);
        try_both(&first, &second, lent, &mut seen);
    });
    if !one_seed() {
        seen.expect(&[0, 1, 8, 14, 15], &TOLD, OFTEN);
    }
}

/// Bytes of no sense: of any value, of few values, and zeros.
fn noise(rng: &mut Rng) -> Vec<u8> {
    let most = rng.pick(&[5, 5, 9, 60, 400, 2 * IMAGE_MOST]);
    let length = rng.below(most);
    let mask = rng.pick(&[0xFF, 0x03, 0x01, 0x00]);
    (0..length).map(|_| rng.next() as u8 & mask).collect()
}

#[test]
fn random_bytes() {
    let mut seen = Seen::default();
    for_seeds(2_500, |_, rng| {
        let [image, _] = rng.images_to_join();
        let [one, other] = [0; 2].map(|_| noise(rng));
        let lent = room(rng);
        try_both(&one, &image, lent, &mut seen);
        try_both(&one, &other, lent, &mut seen);
    });
    if !one_seed() {
        let ways = [
            "14 and 14",
            "14 and an image",
            "an image and 14",
            "two images",
        ];
        seen.expect_ways(&ways, OFTEN);
    }
}
