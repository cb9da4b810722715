//! Random pairs, and the same pairs turned.

use second::IMAGE_MOST;
use tests::cases::{Seen, for_seeds, one_seed};
use tests::draw::Rng;
use tests::joining::{
    self, DROPPED, EQUAL, KEPT, KEYS, LEFT_OUT, LEFT_OUT_FIRST, NO_MIDDLE, UNIONS,
};

use super::{LIMIT, OFTEN, expect_refused, join, joined};

const LENT: [&str; 4] = [
    "a byte too short",
    "much too short",
    "just long enough",
    "longer",
];

/// A length to lend, and which it is.
fn room(rng: &mut Rng) -> (usize, &'static str) {
    match rng.below(8) {
        0 => (IMAGE_MOST - 1, LENT[0]),
        1 => (rng.below(IMAGE_MOST - 1), LENT[1]),
        2 => (IMAGE_MOST + 1 + rng.below(50), LENT[3]),
        _ => (IMAGE_MOST, LENT[2]),
    }
}

/// Each pair becomes the image that the slip tells, with any room for it, or is
/// refused by 8, whatever the room, and by 15, where it is too small.
#[test]
fn pairs_and_the_pairs_turned() {
    let mut seen = Seen::default();
    for_seeds(8_000, |_, rng| {
        let [first, second] = rng.images_to_join();
        let (lent, told) = room(rng);
        let union = joining::union_of(&first, &second);
        seen.way(told);
        let number = match () {
            _ if union > LIMIT => 8,
            _ if lent < IMAGE_MOST => 15,
            _ => 0,
        };
        seen.number(number);
        if number > 0 {
            expect_refused(&first, &second, lent, number);
            if number == 8 {
                seen.all(joining::way_of_union(union).into_iter().collect());
            }
            return;
        }
        seen.all(joining::ways(&first, &second));
        let image = joined(&first, &second);
        assert!(join(&first, &second, lent).as_ref() == Ok(&image), "{told}");
    });
    if !one_seed() {
        seen.expect(&[0, 8, 15], &KEYS, OFTEN);
        for ways in [&UNIONS[..], &EQUAL, &KEPT, &DROPPED, &LEFT_OUT, &LENT] {
            seen.expect_ways(ways, OFTEN);
        }
        seen.expect_ways(&[LEFT_OUT_FIRST, NO_MIDDLE], OFTEN);
    }
}

/// Of three cards it makes no difference which two are joined first.
#[test]
fn three_cards_in_any_order() {
    let mut seen = Seen::default();
    for_seeds(1_500, |_, rng| {
        let [one, two] = rng.images_to_join();
        let [three, _] = rng.images_to_join();
        let pair = |first: &[u8], second: &[u8]| match joining::union_of(first, second) {
            ..=LIMIT => Some(joined(first, second)),
            _ => None,
        };
        let all = pair(&one, &two).and_then(|both| pair(&both, &three));
        let Some(all) = all else {
            return seen.number(8);
        };
        seen.number(0);
        seen.all(joining::ways(&all, &two));
        assert!(pair(&two, &three).and_then(|both| pair(&one, &both)) == Some(all.clone()));
        // What came from a card comes from it once.
        assert!(joined(&all, &two) == all);
    });
    if !one_seed() {
        seen.expect(&[0, 8], &[KEYS[6], KEPT[3], EQUAL[1]], OFTEN);
    }
}
