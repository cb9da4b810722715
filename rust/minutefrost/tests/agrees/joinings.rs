//! Two images joined into one by both programs.

use super::*;

/// Joins two images by both programs, and in the other order; the number, 0 if
/// the new image stands in the buffer.
pub fn join_both(first: &[u8], second: &[u8], out: &mut Guarded, seen: &Seen) -> u8 {
    let given = (first.to_vec(), second.to_vec());
    let (mut other, mut turned) = (out.clone(), out.clone());
    let answer = as_number(join(first, second, out.lent()));
    let expected = second::host::join(first, second, other.lent());
    assert_eq!(answer, expected);
    assert!(*out == other, "the images differ");
    assert!((first, second) == (&given.0, &given.1), "an input changed");
    let answer_turned = as_number(join(second, first, turned.lent()));
    assert!(*out == turned, "the other order makes other bytes");
    // Where both are no images, each is the first that is asked about once.
    assert!(answer_turned == answer || (answer < 0 && answer_turned < 0));
    seen.note(number_of(answer));
    number_of(answer)
}

/// Two images with keys and claims in common: claims of either, or of both.
fn draw_pair(rng: &mut Rng) -> [Vec<u8>; 2] {
    let (first, second) = rng.pair();
    let held: BTreeSet<&u64> = second.iter().collect();
    let both: Vec<u64> = first
        .iter()
        .filter(|key| held.contains(key))
        .copied()
        .collect();
    let shared = rng.saved_table(&both);
    [first, second].map(|keys| {
        let mut pending = rng.saved_table(&keys);
        if rng.one_in(2) {
            pending.extend(&shared);
            pending.sort_by_key(Claim::rank);
            pending.dedup();
            pending.truncate(64);
        }
        image_of(&keys, &pending)
    })
}

/// A pair with as many as fit, or any two images, mostly in order.
fn draw_two(rng: &mut Rng) -> [Vec<u8>; 2] {
    match rng.below(4) {
        0 => [0; 2].map(|_| draw_image(rng).1),
        1 => {
            let image = draw_image(rng).1;
            [image.clone(), image]
        }
        _ => draw_pair(rng),
    }
}

/// How many different claims two images have pending that aren't left out.
fn claims_together(images: &[Vec<u8>; 2]) -> &'static str {
    let nodes = images
        .each_ref()
        .map(|image| second::read_image(image).node);
    let claims = nodes.iter().flat_map(|node| node.table());
    match claims.map(Claim::rank).collect::<BTreeSet<_>>().len() {
        0 => "none",
        1..=64 => "as many as are kept",
        _ => "more",
    }
}

#[test]
fn join_agrees() {
    let (seen, left_out, claims) = (Seen::default(), Seen::default(), Seen::default());
    for_seeds(6_000, |rng| {
        let images = draw_two(rng);
        let mut out = Guarded::draw(rng, IMAGE_MOST);
        if join_both(&images[0], &images[1], &mut out, &seen) == 0 {
            left_out.note(images.each_ref().map(|image| is_left_out(image)));
            claims.note(claims_together(&images));
        }
    });
    seen.check(&[0, 1, 8, 14, 15], 50);
    left_out.check(
        &[[false, false], [false, true], [true, false], [true, true]],
        50,
    );
    claims.check(&["none", "as many as are kept", "more"], 50);
}
