//! Joining takes no claim, so that it adds no middle key of three: "Its keys
//! are the union." Slip 1 speaks of replies and of taking only.

use super::common::*;
use super::drawn::pair;
use super::model::{together, used};
use super::{NEEDED, joined};
use second::*;

/// Case b of the drawer, pending beside just its ends: (1, 16, 19, 3) of
/// {1, 2, 16}.
const CASE_B: Claim = three(1, 2, 16);

/// Keys and pending claims of an image.
fn parts(image: &[u8]) -> (Vec<u64>, Vec<Claim>) {
    let node = read_image(image).node;
    (node.store.held().to_vec(), node.table().to_vec())
}

#[test]
fn no_middle_key_is_added() {
    assert_eq!(CASE_B, c(1, 16, 19, 3));
    let pending = image_of(&[1, 16], &[CASE_B]);
    for (other, keys) in [
        (image_of_keys(&[]), &[1, 16][..]),
        (image_of_keys(&[1]), &[1, 16]),
        (image_of_keys(&[1, 16]), &[1, 16]),
        (pending.clone(), &[1, 16]),
        (image_of_keys(&[0, 17]), &[0, 1, 16, 17]),
        // Not just the ends, and the middle key itself.
        (image_of_keys(&[3]), &[1, 3, 16]),
        (image_of_keys(&[2]), &[1, 2, 16]),
    ] {
        let both = joined(&pending, &other);
        assert_eq!(parts(&both), (keys.to_vec(), vec![CASE_B]));
    }
}

/// The ends come from one image and the claim stays as it was: a beat asks
/// about it, and only taking it again adds the key.
#[test]
fn the_claim_is_asked_about_afterwards() {
    let both = joined(&image_of(&[1, 16], &[CASE_B]), &image_of_keys(&[20]));
    let (mut out, mut frames) = (vec![0; NEEDED], vec![0; host::BEAT_FRAMES]);
    let length = host::beat(&both, &mut out, &mut frames);
    let sent = frame_of(&[c(1, 20, 1 ^ 16 ^ 20, 3), c(1, 16, 17, 2)]);
    assert_eq!(frames[..usize::try_from(length).unwrap()], sent);
    assert_eq!(out[..both.len()], both);

    let length = host::take_frame(&both, &frame_of(&[CASE_B]), &mut out);
    let taken = parts(&out[..usize::try_from(length).unwrap()]);
    assert_eq!(taken, (vec![1, 2, 16, 20], vec![CASE_B]));
}

/// Random pairs: a claim of three beside just its ends in the union, or beside
/// a key that the other image has, and the keys are those of both alone.
#[test]
fn random_pairs_with_claims_of_three() {
    let ways = Ways::default();
    for_seeds(400, |rng| {
        let [first, second] = pair(rng);
        let keys = together(&first, &second).keys;
        if keys.len() > LIMIT {
            return;
        }
        let both = joined(&first, &second);
        assert!(used(&both).keys == keys);
        let (held, table) = parts(&both);
        for claim in table.iter().filter(|claim| claim.cnt == 3) {
            let middle = claim.sum ^ claim.lo ^ claim.hi;
            let span = held
                .iter()
                .filter(|key| (claim.lo..=claim.hi).contains(key));
            match (span.count(), held.contains(&middle)) {
                (2, false) => ways.saw("just the ends"),
                (3, true) => ways.saw("the three keys"),
                (_, false) => ways.saw("other keys between"),
                _ => ways.saw("the three and others"),
            }
            if held.len() < LIMIT && !held.contains(&middle) {
                ways.saw("space for a middle key");
            }
        }
    });
    ways.all_of(&["just the ends", "the three keys", "other keys between"]);
    ways.all_of(&["the three and others", "space for a middle key"]);
}
