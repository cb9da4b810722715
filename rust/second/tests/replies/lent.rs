//! "A beat needs 17 places, and its host call 462 bytes of frames (15)",
//! "whatever is pending" (document 01).

use super::claims_of;
use super::common::*;
use super::pictures;
use second::*;

/// Nodes that write none, one, some and the most claims.
fn nodes() -> Vec<RawNode> {
    let mut nodes = vec![
        RawNode::empty(),
        RawNode::of(RawStore::of(&[5]), &[]),
        RawNode::of(full(3), &[]),
    ];
    let rows = ["", "=", "?", "2", "=?12=?12", "22222222", "222222222"];
    nodes.extend(rows.map(pictures::node));
    nodes.extend(["=", "?", "1", "2"].map(|sign| pictures::node(&sign.repeat(64))));
    nodes
}

/// Words that differ from place to place.
fn lent_words(words: usize) -> Vec<u64> {
    (0..words as u64)
        .map(|at| at ^ 0x5A5A_0000_1234_0000)
        .collect()
}

/// Bytes that differ from place to place.
fn lent_bytes(bytes: usize) -> Vec<u8> {
    (0..bytes).map(|at| (at % 251) as u8).collect()
}

#[test]
fn the_numbers() {
    assert_eq!((BEAT_REPLIES, BEAT_PLACES), (8, 17));
    assert_eq!(host::BEAT_FRAMES, 462);
    for node in nodes() {
        for (places, answer) in [(0, Err(15)), (16, Err(15)), (17, Ok(())), (129, Ok(()))] {
            assert_eq!(questions::of_beat(&node, places), answer);
        }
        let image = image_of(node.store.held(), node.table());
        for (bytes, answer) in [(0, Err(15)), (461, Err(15)), (462, Ok(())), (3_486, Ok(()))] {
            assert_eq!(questions::of_host_beat(&image, IMAGE_MOST, bytes), answer);
        }
    }
}

/// 16 places and 67 words, which are 16 whole places, are too few for each.
#[test]
fn sixteen_places_are_too_few() {
    for node in nodes() {
        for words in [0, 3, 4, 8, 63, 64, 65, 67] {
            let mut run = lent_words(words);
            let beaten = beat(node.clone(), &mut run);
            assert_eq!((beaten.number, beaten.written), (15, 0));
            assert_eq!(beaten.node, node);
            assert_eq!(run, lent_words(words));
        }
    }
}

/// 17 places and more are enough for each; words past what was written keep
/// their contents.
#[test]
fn seventeen_places_are_enough() {
    for node in nodes() {
        let expected = beat(node.clone(), &mut [0; 68]);
        for words in [68, 69, 71, 72, 100, 516, 519, 2_000] {
            let mut run = lent_words(words);
            let beaten = beat(node.clone(), &mut run);
            assert_eq!((beaten.number, &beaten), (0, &expected));
            let (written, kept) = run.split_at(4 * beaten.written);
            assert_eq!(kept, &lent_words(words)[4 * beaten.written..]);
            let claims = claims_of(written);
            assert!(claims.iter().all(|it| questions::of_claim(it).is_ok()));
            assert_eq!(claims.is_empty(), node.store.count == 0);
        }
    }
}

/// A host call's beat with buffers of these lengths: the answer, and what is
/// in them then.
fn host_beat(image: &[u8], out: usize, frames: usize) -> (i64, Vec<u8>, Vec<u8>) {
    let (mut out, mut frames) = (lent_bytes(out), lent_bytes(frames));
    let answer = host::beat(image, &mut out, &mut frames);
    (answer, out, frames)
}

#[test]
fn bytes_of_461_are_too_few() {
    for node in nodes() {
        let image = image_of(node.store.held(), node.table());
        for frames in [0, 30, 108, 432, 461] {
            let untouched = (-15, lent_bytes(IMAGE_MOST), lent_bytes(frames));
            assert_eq!(host_beat(&image, IMAGE_MOST, frames), untouched);
        }
        // The image wants its own length still, however long the frames.
        for frames in [461, 462, 3_486] {
            let untouched = (-15, lent_bytes(IMAGE_MOST - 1), lent_bytes(frames));
            assert_eq!(host_beat(&image, IMAGE_MOST - 1, frames), untouched);
        }
    }
}

#[test]
fn bytes_of_462_are_enough() {
    for node in nodes() {
        let image = image_of(node.store.held(), node.table());
        let mut run = [0; 68];
        let beaten = beat(node, &mut run);
        let claims = claims_of(&run[..4 * beaten.written]);
        let expected: Vec<u8> = claims.chunks(4).flat_map(frame_of).collect();
        let new = image_of(beaten.node.store.held(), beaten.node.table());
        for (lent, lent_frames) in [(0, 462), (9, 463), (0, 3_485), (1, 3_486), (0, 9_999)] {
            let lent = IMAGE_MOST + lent;
            let (answer, out, frames) = host_beat(&image, lent, lent_frames);
            let length = expected.len();
            assert_eq!(answer, length as i64);
            assert_eq!(frames[..length], expected);
            assert_eq!(frames[length..], lent_bytes(lent_frames)[length..]);
            assert_eq!(out[..new.len()], new);
            assert_eq!(out[new.len()..], lent_bytes(lent)[new.len()..]);
        }
    }
}

/// 14 and 1 are asked before 15, and such a refusal changes nothing either.
#[test]
fn what_is_asked_before() {
    let mut bad = pictures::node("=?12=?12=?12=?12");
    bad.pending.swap(9, 15);
    for words in [0, 67, 68, 516] {
        let mut run = lent_words(words);
        let beaten = beat(bad.clone(), &mut run);
        assert_eq!((beaten.number, beaten.written), (1, 0));
        assert_eq!((&beaten.node, run), (&bad, lent_words(words)));
    }
    let image = image_of(bad.store.held(), bad.table());
    for frames in [0, 461, 462, 3_486] {
        for (image, answer) in [(&image[..], -1), (&image[..image.len() - 1], -14)] {
            let untouched = (answer, lent_bytes(IMAGE_MOST), lent_bytes(frames));
            assert_eq!(host_beat(image, IMAGE_MOST, frames), untouched);
        }
    }
}
