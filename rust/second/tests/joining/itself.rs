//! "an image joined with itself is unchanged where slip 2 leaves nothing out".

use super::common::*;
use super::drawn::pair;
use super::model::used;
use super::{MAX, joined, joined_in_this_order};
use second::*;

#[test]
fn images_with_nothing_to_leave_out() {
    let few = image_of(
        &[0, 9, MAX],
        &[c(0, 0, 0, 1), c(0, 9, 9, 2), c(0, MAX, 5, 7)],
    );
    let middle = image_of(&[1, 16], &[three(1, 2, 16)]);
    let table: Vec<Claim> = (1..65).map(|hi| c(0, hi, hi, 2)).collect();
    let full_table = image_of(&(0..65).collect::<Vec<u64>>(), &table);
    for image in [
        image_of_keys(&[]),
        image_of_keys(&[0]),
        image_of_keys(&[MAX]),
        image_of_keys(full(3).held()),
        few,
        middle,
        full_table,
        full_image(2),
        full_image(MOST_CNT),
    ] {
        assert_eq!(joined(&image, &image), image);
    }
}

/// With a few, with some of a full table and with all of one to leave out.
#[test]
fn images_with_something_to_leave_out() {
    let keys: Vec<u64> = (0..70).collect();
    let bad: Vec<Claim> = (2..66).map(|hi| three(0, hi, hi)).collect();
    let good: Vec<Claim> = (5..37).map(|hi| c(0, hi, 77, 4)).collect();
    for (bad, good) in [
        (&bad[..1], &good[..0]),
        (&bad[..1], &good[..1]),
        (&bad[..32], &good[..]),
        (&bad[..], &[]),
    ] {
        let image = image_of(&keys, &[bad, good].concat());
        let without = image_of(&keys, good);
        assert_eq!(joined(&image, &image), without);
        assert_eq!(joined(&image, &without), without);
        assert_ne!(image, without);
    }
}

/// Random images, and what they become when joined with nothing.
#[test]
fn random_images() {
    let ways = Ways::default();
    let empty = image_of_keys(&[]);
    for_seeds(250, |rng| {
        for image in pair(rng) {
            let without = without_left_out(&image);
            ways.saw(if image == without {
                "unchanged"
            } else {
                "something left out"
            });
            ways.saw(format!("{} claims", used(&image).claims.len()));
            assert_eq!(joined_in_this_order(&image, &image), without);
            assert_eq!(joined(&without, &without), without);
            assert_eq!(joined(&image, &empty), without);
        }
    });
    ways.all_of(&["unchanged", "something left out"]);
    ways.all_of(&["0 claims", "1 claims", "63 claims", "64 claims"]);
}
