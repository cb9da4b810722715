//! "then 15 (18,052 bytes)", whatever the two images become.

use super::common::*;
use super::drawn::pair;
use super::model::{together, told};
use super::{NEEDED, answered, refused};
use second::*;

#[test]
fn the_number() {
    assert_eq!(IMAGE_MOST, NEEDED);
    let empty = image_of_keys(&[]);
    for (lent, asked) in [
        (0, Err(15)),
        (4, Err(15)),
        (9_860, Err(15)),
        (18_051, Err(15)),
        (18_052, Ok(())),
        (18_053, Ok(())),
        (usize::MAX, Ok(())),
    ] {
        assert_eq!(questions::of_host_join(&empty, &empty, lent), asked);
        let node = RawNode::empty();
        assert_eq!(questions::of_join_nodes(&node, &node, lent), asked);
    }
}

/// One byte short, and as many bytes as the new image has, where that is less.
#[test]
fn one_byte_short() {
    let ways = Ways::default();
    for_seeds(150, |rng| {
        let [first, second] = pair(rng);
        if together(&first, &second).keys.len() <= LIMIT {
            let image = told(&first, &second);
            ways.saw(if image.len() > 9_860 { "long" } else { "short" });
            assert_eq!(refused(&first, &second, NEEDED - 1), 15);
            assert_eq!(refused(&first, &second, image.len().min(NEEDED - 1)), 15);
            assert_eq!(answered(&first, &second, NEEDED).0, image.len() as i64);
        }
    });
    ways.all_of(&["long", "short"]);
    let longest = full_image(2);
    assert_eq!(refused(&longest, &longest, NEEDED - 1), 15);
    assert_eq!(answered(&longest, &longest, NEEDED), (18_052, longest));
}
