//! "The questions are 14 and 1 for the first image, then for the second, then 8,
//! then 15": both images faulty in every combination, and the number that counts.

use second::{Claim, IMAGE_MOST};
use tests::cases::Seen;
use tests::draw::{claim_of, image_of};
use tests::joining::union_of;
use tests::middle::three;

use super::{LIMIT, OFTEN, even, expect_refused, join, longest};

/// Images that are read; the unions of some have too many keys.
fn good() -> Vec<Vec<u8>> {
    let odd: Vec<u64> = even(0, LIMIT).iter().map(|key| key + 1).collect();
    vec![
        image_of(&[], &[]),
        image_of(&[1, 9], &[claim_of(&[1, 9]), three(1, 9, 9)]),
        image_of(&even(0, LIMIT), &[]),
        image_of(&odd, &[]),
        longest(LIMIT as u16, 0),
    ]
}

/// Images refused by 14: of some the contents are out of order as well.
fn with_14() -> Vec<Vec<u8>> {
    let image = image_of(&[1, 9], &[claim_of(&[1, 9])]);
    let keys: Vec<u64> = (0..=LIMIT as u64).collect();
    let table: Vec<Claim> = keys[..65].iter().map(|key| claim_of(&[*key])).collect();
    vec![
        vec![],
        vec![0],
        image[..image.len() - 1].to_vec(),
        [&image[..], &[0]].concat(),
        [image_of(&[9, 1], &[]), vec![0]].concat(),
        image_of(&keys, &[]),
        image_of(&keys[..65], &table),
    ]
}

/// Images refused by 1.
fn with_1() -> Vec<Vec<u8>> {
    let pair = claim_of(&[1, 9]);
    vec![
        image_of(&[9, 1], &[]),
        image_of(&[4, 4], &[]),
        // 8 isn't held.
        image_of(&[1, 9], &[Claim::new(1, 8, 9, 2)]),
        image_of(&[1, 9], &[pair, pair]),
        // Each would be left out, were it in order or had it its ends.
        image_of(&[1, 9], &[three(1, 1, 9), three(1, 9, 9)]),
        image_of(&[1, 9], &[three(1, 9, 8)]),
        image_of(&[1, 9], &[three(1, 20, 9), pair]),
    ]
}

/// What the two numbers are, in words.
fn told(numbers: [u8; 2]) -> &'static str {
    match numbers {
        [0, 1] => "the second by 1",
        [0, _] => "the second by 14",
        [1, 0] => "the first by 1",
        [1, 1] => "both by 1",
        [1, _] => "1 before 14",
        [_, 0] => "the first by 14",
        [_, 1] => "14 before 1",
        _ => "both by 14",
    }
}

const TOLD: [&str; 8] = [
    "the second by 1",
    "the second by 14",
    "the first by 1",
    "the first by 14",
    "both by 1",
    "both by 14",
    "1 before 14",
    "14 before 1",
];

/// The first image's number counts, whatever the second has, the keys together
/// and the room.
#[test]
fn the_first_images_number_counts() {
    let mut seen = Seen::default();
    let kinds = [(0, good()), (14, with_14()), (1, with_1())];
    let all = kinds
        .iter()
        .flat_map(|(number, images)| images.iter().map(move |it| (*number, it)));
    for (one, first) in all.clone() {
        for (other, second) in all.clone().filter(|(other, _)| one + other > 0) {
            let number = if one > 0 { one } else { other };
            for lent in [0, IMAGE_MOST - 1, IMAGE_MOST] {
                assert_eq!(join(first, second, lent), Err(number));
                seen.number(number);
                seen.way(told([one, other]));
            }
        }
    }
    seen.expect(&[1, 14], &TOLD, OFTEN);
}

/// Of images that are read, 8 counts before 15, one byte short or more.
#[test]
fn too_many_keys_count_before_too_few_bytes() {
    let mut seen = Seen::default();
    for first in good() {
        for second in good() {
            let number = if union_of(&first, &second) > LIMIT {
                8
            } else {
                15
            };
            for lent in [0, 1, 9_860, IMAGE_MOST - 2, IMAGE_MOST - 1] {
                expect_refused(&first, &second, lent, number);
                seen.number(number);
            }
            let joined = join(&first, &second, IMAGE_MOST);
            assert_eq!(joined.err(), (number == 8).then_some(8));
        }
    }
    // Of five images each with each, five times: they are told, not drawn.
    seen.expect(&[8, 15], &[], 40);
}
