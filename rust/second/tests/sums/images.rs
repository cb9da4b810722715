//! "The image doesn't hold them; reading works them out."

use super::common::*;
use super::{FEW, MAX, drawn, holds};
use second::*;

/// An image as it was written before this slip: the bytes tell counts, keys and
/// claims, and nothing between or after.
#[test]
fn an_image_byte_by_byte() {
    let node = RawNode::of(RawStore::of(&[1, 2, 4]), &[c(1, 4, 5, 2)]);
    assert_eq!(node.store.sums[..3], [1, 3, 7]);
    let bytes = [
        0, 3, // key count
        0, 0, 0, 0, 0, 0, 0, 1, // keys
        0, 0, 0, 0, 0, 0, 0, 2, //
        0, 0, 0, 0, 0, 0, 0, 4, //
        0, 1, // pending count
        0, 0, 0, 0, 0, 0, 0, 1, // lo
        0, 0, 0, 0, 0, 0, 0, 4, // hi
        0, 0, 0, 0, 0, 0, 0, 5, // sum
        0, 2, // cnt
    ];
    let mut out = [0x55; 60];
    let written = write_image(&node, &mut out);
    assert_eq!((written.number, written.length), (0, 54));
    assert_eq!((&out[..54], &out[54..]), (&bytes[..], &[0x55; 6][..]));
    assert_eq!(read_image(&bytes), ImageRead { number: 0, node });
    // A byte less is too few, as before.
    let short = write_image(&read_image(&bytes).node, &mut out[..53]);
    assert_eq!(short.number, 15);
}

/// "An image may have 18,052 bytes" still (document 02, slip 6), and every one
/// has 4 bytes, 8 for a key and 26 for a claim. A beat's frames are 462 bytes
/// since slip 8.
#[test]
fn lengths() {
    assert_eq!((IMAGE_MOST, host::BEAT_FRAMES), (18_052, 462));
    for_seeds(100, |rng| {
        let node = rng.node();
        let mut out = vec![0x55; IMAGE_MOST];
        let written = write_image(&node, &mut out);
        let length = 4 + 8 * node.store.count + 26 * node.pending_count;
        assert_eq!((written.number, written.length), (0, length));
        let image = image_of(node.store.held(), node.table());
        assert_eq!((&out[..length], image.len()), (&image[..], length));
        assert!(out[length..].iter().all(|&byte| byte == 0x55));
        assert_eq!(image_length(&out).length, length);
    });
}

/// Whatever keys an image has, by hand: they come with their sums.
#[test]
fn reading_works_them_out() {
    let read = |keys: &[u64]| {
        let read = read_image(&image_of_keys(keys));
        assert_eq!(read.number, 0);
        holds(&read.node.store, keys);
        assert_eq!(read.node, RawNode::of(RawStore::of(keys), &[]));
    };
    FEW.into_iter().for_each(read);
    for_seeds(60, |rng| {
        let density = rng.density();
        read(&rng.keys(LIMIT, density));
    });
    for_seeds(1, |rng| {
        let keys = drawn(rng, LIMIT);
        read(&keys);
        read(&keys[1..]);
        read(&keys[..LIMIT - 1]);
    });
}

/// "An image with contents out of order gets 1", and the node of zeros has sums
/// of zeros.
#[test]
fn images_refused() {
    for (bytes, number) in [
        (image_of_keys(&[2, 1]), 1),
        (image_of_keys(&[3, 3]), 1),
        (image_of(&[1, 2, 9], &[c(1, 3, 2, 2)]), 1),
        (image_of_keys(&[1, 2])[..19].to_vec(), 14),
        // The sums behind the keys make it too long.
        ([image_of_keys(&[1, 2]), vec![0; 16]].concat(), 14),
    ] {
        let read = read_image(&bytes);
        assert_eq!((read.number, &read.node), (number, &RawNode::empty()));
        holds(&read.node.store, &[]);
    }
}

/// The sums are those of an image that had claims left out, too (document 02,
/// slip 2).
#[test]
fn images_with_claims_left_out() {
    for_seeds(60, |rng| {
        let density = rng.density();
        let keys = rng.keys(LIMIT, density);
        let image = image_of(&keys, &rng.saved_table(&keys));
        let read = read_image(&image);
        assert_eq!(read.number, 0);
        holds(&read.node.store, &keys);
        let mut out = vec![0x55; IMAGE_MOST];
        let length = write_image(&read.node, &mut out).length;
        assert_eq!(out[..length], without_left_out(&image));
    });
}

/// The host calls answer as the calls on nodes do, image for image.
#[test]
fn host_calls_keep_to_the_calls() {
    for_seeds(80, |rng| {
        let density = rng.density();
        let node = rng.node();
        let image = image_of(node.store.held(), node.table());
        let key = rng.key(density);
        let key = *rng.pick(&[0, MAX, key, key]);
        let claim = rng.claim(node.store.held(), density);
        let written = |node: &RawNode| image_of(node.store.held(), node.table());

        let mut out = vec![0x55; IMAGE_MOST];
        let length = host::enter(&image, key, &mut out);
        let entered = enter(node.store.clone(), key);
        assert_eq!(length < 0, entered.number != 0);
        if length > 0 {
            let expected = written(&RawNode::of(entered.store, node.table()));
            assert_eq!(out[..length as usize], expected);
        }

        let length = host::take_frame(&image, &frame_of(&[claim]), &mut out);
        let taken = take(node.clone(), claim);
        assert_eq!(length < 0, taken.number != 0);
        if length > 0 {
            assert_eq!(out[..length as usize], written(&taken.node));
            assert_eq!(read_image(&out[..length as usize]).node, taken.node);
        }

        let (mut frames, mut run) = (vec![0; host::BEAT_FRAMES], vec![0; BEAT_WORDS]);
        let length = host::beat(&image, &mut out, &mut frames) as usize;
        let beaten = beat(node, &mut run);
        let claims = run[..4 * beaten.written].chunks(4);
        let claims: Vec<Claim> = claims
            .map(|it| c(it[0], it[1], it[2], it[3] as u16))
            .collect();
        let expected: Vec<u8> = claims.chunks(4).flat_map(frame_of).collect();
        assert_eq!(frames[..length], expected);
        let expected = written(&beaten.node);
        assert_eq!(out[..expected.len()], expected);
    });
}
