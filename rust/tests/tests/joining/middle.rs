//! No claim is heard by a joining, so no middle key of three comes with one
//! (document 02, slip 1): the keys are the union and no more.

use second::{Claim, IMAGE_MOST};
use tests::cases::{Seen, for_seeds, one_seed};
use tests::draw::{frame_of, image_of};
use tests::left_out::contents;
use tests::middle::{holds, middle_of, three};

use super::archive::{Asked, left_by};
use super::{LIMIT, OFTEN, even, joined};

/// A claim of three is pending in either image, with just its ends in both or in
/// that one.
#[test]
fn claims_of_three_beside_their_ends() {
    for claim in [three(1, 2, 16), three(1, 15, 16), three(0, 5, u64::MAX)] {
        let ends = [claim.lo, claim.hi];
        let image = image_of(&ends, &[claim]);
        for other in [&[][..], &ends, &ends[..1], &ends[1..]] {
            assert!(joined(&image, &image_of(other, &[])) == image, "{claim:?}");
        }
        let beyond = image_of(&[claim.hi - 1], &[]);
        let mut keys = vec![claim.lo, claim.hi - 1, claim.hi];
        keys.dedup();
        assert!(joined(&image, &beyond) == image_of(&keys, &[claim]));
    }
}

/// With as many keys as fit there would be no space for one either.
#[test]
fn claims_of_three_in_a_full_union() {
    let keys = even(0, LIMIT);
    let (lower, upper) = keys.split_at(LIMIT / 2);
    let pending: Vec<Claim> = (0..64)
        .map(|at| three(2 * at, 2 * at + 1, 2 * at + 2))
        .collect();
    let [first, second] = [image_of(lower, &pending), image_of(upper, &[])];
    assert!(joined(&first, &second) == image_of(&keys, &pending));
}

/// The middle keys of an image's claims of three that it doesn't hold, each with
/// its claim.
fn missing(image: &[u8]) -> Vec<(Claim, u64)> {
    let (keys, pending) = contents(image).expect("an image");
    let threes = pending.into_iter().filter(|claim| claim.cnt == 3);
    let middles = threes.map(|claim| (claim, middle_of(&claim)));
    middles.filter(|(_, key)| !holds(&keys, *key)).collect()
}

/// Images drawn. Heard once more, such a claim does add its key, where it stands
/// beside just its ends and there is space.
#[test]
fn keys_come_when_claims_are_heard_again() {
    let mut seen = Seen::default();
    for_seeds(1_500, |_, rng| {
        let (left, right) = match rng.one_in(2) {
            true => rng.small_pair(),
            false => rng.pair_of_few_bits(),
        };
        let [first, second] = [left, right].map(|keys| {
            let node = rng.node_of(&keys);
            image_of(node.store.held(), node.table())
        });
        let image = joined(&first, &second);
        let (keys, _) = contents(&image).expect("an image");
        for (claim, middle) in missing(&image) {
            seen.way("a middle key that isn't held");
            let asked = Asked::Take(image.clone(), frame_of(&[claim]), IMAGE_MOST);
            let (heard, _) = contents(&left_by(asked).0).expect("an image");
            let alone = keys
                .iter()
                .filter(|key| (claim.lo..=claim.hi).contains(key));
            if alone.count() == 2 {
                seen.way("added when it is heard");
                assert!(holds(&heard, middle), "{claim:?}");
            }
        }
    });
    if !one_seed() {
        seen.expect_ways(
            &["a middle key that isn't held", "added when it is heard"],
            OFTEN,
        );
    }
}
