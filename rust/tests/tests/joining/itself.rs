//! "an image joined with itself is unchanged where slip 2 leaves nothing out"

use tests::cases::{Seen, for_seeds, one_seed};
use tests::draw::image_of;
use tests::left_out::{self, NONE, READ, kept, rest_of};

use super::{LIMIT, OFTEN, joined, longest};

/// Images of nodes, and images saved before 16 was asked; these become what they
/// are without the claims that are left out, which is unchanged from then on.
#[test]
fn images_with_themselves() {
    let mut seen = Seen::default();
    for_seeds(2_500, |_, rng| {
        let (keys, pending) = match rng.one_in(3) {
            true => {
                let node = rng.node_in_order();
                (node.store.held().to_vec(), node.table().to_vec())
            }
            false => rng.saved(),
        };
        let image = image_of(&keys, &pending);
        seen.all(left_out::ways_of_image(&image, 0));
        let unchanged = kept(&pending) == pending;
        seen.way(if unchanged { "unchanged" } else { "shorter" });
        seen.way(match keys.len() {
            0 => "without a key",
            LIMIT => "full",
            _ => "some keys",
        });
        let itself = joined(&image, &image);
        assert_eq!(itself == image, unchanged);
        assert!(itself == rest_of(&image));
        assert!(joined(&itself, &itself) == itself);
        // Beside its own rest it becomes the rest.
        assert!(joined(&image, &itself) == itself);
    });
    if !one_seed() {
        seen.expect_ways(&READ, OFTEN);
        seen.expect_ways(&[NONE, "unchanged", "shorter"], OFTEN);
        seen.expect_ways(&["without a key", "full", "some keys"], OFTEN);
    }
}

/// The longest image, whose keys are twice as many as fit if counted twice.
#[test]
fn two_full_equal_images() {
    for cnt in [4, 700, LIMIT as u16] {
        let image = longest(cnt, 7);
        assert!(joined(&image, &image) == image, "claims of {cnt}");
    }
}
