//! "On success, output past what was written keeps its contents." (document
//! 01) Refused, all of it does.

use super::common::*;
use super::drawn::pair;
use super::model::{together, told};
use super::{NEEDED, lent_bytes};
use second::*;

/// Buffers of several lengths with several things in them, among them the
/// images given.
fn buffers(first: &[u8]) -> Vec<Vec<u8>> {
    let mut image = first.to_vec();
    image.resize(NEEDED, 0xFF);
    vec![
        vec![0; NEEDED],
        vec![0xFF; NEEDED + 1],
        lent_bytes(NEEDED),
        lent_bytes(3 * NEEDED),
        image,
    ]
}

#[test]
fn bytes_past_the_image_are_kept() {
    let ways = Ways::default();
    for_seeds(250, |rng| {
        let [first, second] = pair(rng);
        let fits = together(&first, &second).keys.len() <= LIMIT;
        ways.saw(if fits { "fits" } else { "too many keys" });
        for before in buffers(&first) {
            let mut out = before.clone();
            let answer = host::join(&first, &second, &mut out);
            if fits {
                let image = told(&first, &second);
                assert_eq!(answer, image.len() as i64);
                assert_eq!(out[..image.len()], image);
                assert_eq!(out[image.len()..], before[image.len()..]);
            } else {
                assert_eq!((answer, out), (-8, before));
            }
        }
    });
    ways.all_of(&["fits", "too many keys"]);
}

/// Each number, with each buffer as it was.
#[test]
fn a_refusal_writes_nothing() {
    let good = image_of(&[1, 9], &[c(1, 9, 8, 2), three(1, 9, 9)]);
    let cut = &good[..good.len() - 1];
    let bad = image_of_keys(&[9, 1]);
    let evens = image_of_keys(full(2).held());
    for (first, second, number) in [
        (cut, &good[..], 14),
        (&good, cut, 14),
        (&bad, &good, 1),
        (&good, &bad, 1),
        (&good, &evens, 8),
        (&evens, &good, 8),
    ] {
        for before in buffers(first) {
            let mut out = before.clone();
            assert_eq!(host::join(first, second, &mut out), -number);
            assert_eq!(out, before);
        }
    }
    for lent in [0, 1, good.len(), NEEDED - 1] {
        let mut out = lent_bytes(lent);
        assert_eq!(host::join(&good, &good, &mut out), -15);
        assert_eq!(out, lent_bytes(lent));
    }
}
