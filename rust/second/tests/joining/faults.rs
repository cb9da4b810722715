//! "The questions are 14 and 1 for the first image, then for the second, then
//! 8, then 15": which number counts.

use super::common::*;
use super::drawn::pair;
use super::model::used;
use super::{NEEDED, answered, joined, refused};
use second::*;

/// Images in order whose unions, two by two, fit or don't.
fn good() -> Vec<Vec<u8>> {
    vec![
        image_of_keys(&[]),
        image_of(&[1, 9], &[c(1, 9, 8, 2), three(1, 9, 9)]),
        image_of_keys(full(2).held()),
        image_of_keys(&full(2).held().iter().map(|key| key + 1).collect::<Vec<_>>()),
        full_image(2),
    ]
}

/// Images that get 14; in some the contents are out of order as well.
fn with_14() -> Vec<Vec<u8>> {
    let image = image_of(&[1, 9], &[c(1, 9, 8, 2)]);
    let keys: Vec<u64> = (0..2_049).collect();
    let table: Vec<Claim> = (0..65).map(|key| c(key, key, key, 1)).collect();
    vec![
        vec![],
        vec![0],
        image[..image.len() - 1].to_vec(),
        [&image[..], &[0]].concat(),
        [image_of_keys(&[9, 1]), vec![0]].concat(),
        image_of_keys(&keys),
        image_of(&keys[..65], &table),
    ]
}

/// Images that get 1.
fn with_1() -> Vec<Vec<u8>> {
    vec![
        image_of_keys(&[9, 1]),
        image_of_keys(&[4, 4]),
        image_of(&[1, 9], &[c(1, 8, 9, 2)]),
        image_of(&[1, 9], &[c(1, 9, 8, 2), c(1, 9, 8, 2)]),
        // Left out, were it not out of order.
        image_of(&[1, 9], &[three(1, 1, 9), three(1, 9, 9)]),
        image_of(&[1, 9], &[three(1, 9, 8)]),
    ]
}

/// Every combination of the three kinds. The number of the first image counts
/// before that of the second, and both before 8 and 15.
#[test]
fn the_number_of_the_first_faulty_image_counts() {
    let ways = Ways::default();
    let kinds = [(0, good()), (14, with_14()), (1, with_1())];
    for (one, firsts) in &kinds {
        for (other, seconds) in &kinds {
            let number = if *one == 0 { *other } else { *one };
            if number == 0 {
                continue;
            }
            for first in firsts {
                for second in seconds {
                    for lent in [0, NEEDED - 1, NEEDED] {
                        assert_eq!(refused(first, second, lent), number);
                        ways.saw(format!("{one} and {other}"));
                    }
                }
            }
        }
    }
    ways.all_of(&["0 and 1", "0 and 14", "1 and 0", "14 and 0"]);
    ways.all_of(&["1 and 1", "1 and 14", "14 and 1", "14 and 14"]);
}

/// Of images in order 8 is asked before 15.
#[test]
fn too_many_keys_count_before_too_few_bytes() {
    let ways = Ways::default();
    for first in good() {
        for second in good() {
            let union = used(&first).union(&used(&second)).keys.len();
            let number = if union > LIMIT { 8 } else { 15 };
            ways.saw(number);
            for lent in [0, 1, NEEDED - 1] {
                assert_eq!(refused(&first, &second, lent), number);
            }
            if number == 8 {
                assert_eq!(refused(&first, &second, NEEDED), 8);
            } else {
                joined(&first, &second);
            }
        }
    }
    ways.all_of(&[8, 15]);
}

/// The number that the text gives a joining: those of the images are asked of
/// each alone.
fn number_told(first: &[u8], second: &[u8], lent: usize) -> i64 {
    for image in [first, second] {
        let answer = host::count(image);
        if answer < 0 {
            return answer;
        }
    }
    match used(first).union(&used(second)).keys.len() {
        union if union > LIMIT => -8,
        _ if lent < NEEDED => -15,
        _ => 0,
    }
}

/// Random images, one or both of them damaged.
#[test]
fn damaged_images() {
    let ways = Ways::default();
    for_seeds(1_200, |rng| {
        let [mut first, mut second] = pair(rng);
        let which = rng.below(4);
        if which != 1 {
            rng.damage(&mut first);
        }
        if which != 2 {
            rng.damage(&mut second);
        }
        let lent = *rng.pick(&[NEEDED, NEEDED, NEEDED, NEEDED - 1, 0]);
        let told = number_told(&first, &second, lent);
        let alone = [&first, &second].map(|image| host::count(image).min(0));
        ways.saw(told);
        ways.saw(format!("{alone:?}"));
        if told < 0 {
            assert_eq!(-i64::from(refused(&first, &second, lent)), told);
        } else {
            assert!(answered(&first, &second, lent).0 > 0);
            joined(&first, &second);
        }
    });
    ways.all_of(&[0, -1, -8, -14, -15]);
    ways.all_of(&["[-1, -14]", "[-14, -1]", "[-1, -1]", "[-14, -14]"]);
    ways.all_of(&["[0, -14]", "[-14, 0]", "[0, -1]", "[-1, 0]"]);
}
