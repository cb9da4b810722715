//! What is lent to the search of two keys: two numbers are written or none, and
//! those past them stay what they were.

use searches::{Place, definition, places_told};
use tests::cases::Seen;
use tests::draw::Rng;

use crate::runs::{SHAPES, many_keys};

const FEW: &str = "fewer than two lent";
const TWO: &str = "two lent";
const MORE: &str = "more than two lent";

/// One search of two keys with so many numbers lent, of any content.
fn told_in(lent: usize, keys: &[u64], count: usize, rng: &mut Rng, seen: &mut Seen) {
    let before: Vec<usize> = (0..lent).map(|_| rng.next() as usize).collect();
    let sought = many_keys(keys, count, rng);
    let [lo, hi] = [0; 2].map(|_| rng.pick(&sought));
    let mut told = before.clone();
    let enough = places_told(keys, count, lo, hi, &mut told);
    assert_eq!(enough, lent >= 2, "{lent} are lent");
    if enough {
        let places = [lo, hi].map(|key| definition::place_in(keys, count, key));
        assert_eq!([0, 1].map(|at| Place::of_told(told[at])), places);
        assert_eq!(told[2..], before[2..], "those past the second");
    } else {
        assert_eq!(told, before, "nothing is written");
    }
    seen.way(match lent {
        0 | 1 => FEW,
        2 => TWO,
        _ => MORE,
    });
}

#[test]
fn two_numbers_are_written_or_none() {
    let mut rng = Rng(2);
    let mut seen = Seen::default();
    for length in [0, 1, 2, 3, 4, 5, 17, 64, 1_024] {
        for shape in SHAPES {
            let keys = shape.run(length, &mut rng);
            for count in [0, length / 2, length, length + 1, usize::MAX] {
                for lent in [0, 1, 2, 3, 8, 100] {
                    told_in(lent, &keys, count, &mut rng, &mut seen);
                }
            }
        }
    }
    seen.expect(&[], &[FEW, TWO, MORE], 100);
}
