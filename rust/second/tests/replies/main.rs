//! Document 02, slip 8, "Eight replies a beat": its sentences, each in a file
//! or two.

#[path = "../common/mod.rs"]
mod common;

mod eighth;
mod later;
mod lent;
mod matches;
mod middle;
mod model;
mod order;
mod pictures;
mod tables;

use common::*;
use second::*;

/// The claims of a lent run of words.
fn claims_of(words: &[u64]) -> Vec<Claim> {
    let places = words.chunks_exact(4);
    places
        .map(|it| c(it[0], it[1], it[2], it[3].try_into().unwrap()))
        .collect()
}

/// The claims a beat writes, and the node after it. The host call tells the
/// same of the node's image.
fn beaten(node: RawNode) -> (Vec<Claim>, RawNode) {
    let image = image_of(node.store.held(), node.table());
    let keys = node.store.clone();
    let mut run = [7; BEAT_WORDS];
    let beaten = beat(node, &mut run);
    assert_eq!(beaten.number, 0);
    assert!(questions::q1_node_in_order(&beaten.node));
    // "A beat adds no key."
    assert_eq!(beaten.node.store, keys);
    let (written, kept) = run.split_at(4 * beaten.written);
    assert!(kept.iter().all(|&word| word == 7));
    let claims = claims_of(written);
    let frames: Vec<u8> = claims.chunks(4).flat_map(frame_of).collect();
    let left = image_of(beaten.node.store.held(), beaten.node.table());
    assert_eq!(beaten_by_host(&image), (frames, left));
    (claims, beaten.node)
}

/// The frames and the image that the host call's beat leaves, in buffers of
/// just the length it needs.
fn beaten_by_host(image: &[u8]) -> (Vec<u8>, Vec<u8>) {
    let (mut out, mut frames) = (vec![0x55; IMAGE_MOST], vec![0x66; 462]);
    let length = host::beat(image, &mut out, &mut frames);
    let (written, kept) = frames.split_at(length.try_into().unwrap());
    assert!(kept.iter().all(|&byte| byte == 0x66));
    let (image, kept) = out.split_at(image_length(&out).length);
    assert!(kept.iter().all(|&byte| byte == 0x55));
    (written.to_vec(), image.to_vec())
}
