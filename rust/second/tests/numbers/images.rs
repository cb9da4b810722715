//! Images.

use super::MAX;
use super::beat::{helped_in_two, made_by_none};
use super::common::*;
use second::*;

#[test]
fn an_image_byte_by_byte() {
    let node = RawNode::of(RawStore::of(&[1, 0x0102_0304_0506_0708]), &[c(1, 1, 1, 1)]);
    let bytes = [
        0, 2, // key count
        0, 0, 0, 0, 0, 0, 0, 1, // keys
        1, 2, 3, 4, 5, 6, 7, 8, //
        0, 1, // pending count
        0, 0, 0, 0, 0, 0, 0, 1, // lo
        0, 0, 0, 0, 0, 0, 0, 1, // hi
        0, 0, 0, 0, 0, 0, 0, 1, // sum
        0, 1, // cnt
    ];
    let mut out = [0x55; 50];
    let written = write_image(&node, &mut out);
    assert_eq!((written.number, written.length), (0, 46));
    assert_eq!(out[..46], bytes);
    assert_eq!(out[46..], [0x55; 4]);
    assert_eq!(read_image(&bytes), ImageRead { number: 0, node });
    assert_eq!(image_length(&out).length, 46);
}

/// "An image may have 18,052 bytes" (document 02, slip 6).
#[test]
fn the_length_of_the_longest_image() {
    assert_eq!(IMAGE_MOST, 18_052);
}

#[test]
fn the_least_and_the_longest_image() {
    assert_eq!(read_image(&[0, 0, 0, 0]).node, RawNode::empty());
    let node = RawNode::of(full(1), &helped_in_two());
    let mut out = vec![0; IMAGE_MOST];
    let written = write_image(&node, &mut out);
    assert_eq!((written.number, written.length), (0, IMAGE_MOST));
    assert_eq!(read_image(&out), ImageRead { number: 0, node });
    assert_eq!(image_length(&out).length, IMAGE_MOST);
    // A full store alone and 64 claims' bytes
    assert_eq!(out.len() - image_of_keys(&full(1).keys[..]).len(), 64 * 26);
}

#[test]
fn writing_an_image_needs_its_own_length() {
    let node = RawNode::of(RawStore::of(&[1, 2]), &[c(1, 1, 1, 1)]);
    let mut out = [7; 45];
    let written = write_image(&node, &mut out);
    assert_eq!((written.number, written.length), (15, 0));
    assert_eq!(out, [7; 45]);
    assert_eq!(write_image(&node, &mut [0; 46]).length, 46);
    assert_eq!(write_image(&RawNode::empty(), &mut [0; 4]).length, 4);
    assert_eq!(write_image(&RawNode::empty(), &mut [0; 3]).number, 15);
}

#[test]
fn images_refused() {
    let refused = |bytes: &[u8], number: u8| {
        let read = read_image(bytes);
        assert_eq!((read.number, read.node), (number, RawNode::empty()));
    };
    let good = image_of(&[1, 2, 9], &[c(1, 2, 3, 2)]);
    // Cut anywhere, or with a byte more.
    for length in 0..good.len() {
        refused(&good[..length], 14);
        let told = image_length(&good[..length]);
        assert_eq!((told.number, told.length), (14, 0));
    }
    let longer = [good.as_slice(), &[0]].concat();
    refused(&longer, 14);
    let told = image_length(&longer);
    assert_eq!((told.number, told.length), (0, good.len()));
    // Counts that belie the length, up or down.
    for (at, count) in [(1, 2), (1, 4), (0, 1), (27, 0), (27, 2), (26, 1)] {
        let mut bytes = good.clone();
        bytes[at] = count;
        refused(&bytes, 14);
    }
    // Counts above the limit and of 65, with the length that would be theirs.
    let keys: Vec<u64> = (0..=LIMIT as u64).collect();
    refused(&image_of_keys(&keys), 14);
    assert_eq!(image_length(&image_of_keys(&keys)).number, 14);
    let pending: Vec<Claim> = (2..67).map(|hi| c(0, hi, hi, 2)).collect();
    refused(&image_of(&keys[..100], &pending), 14);
    assert_eq!(image_length(&image_of(&keys[..100], &pending)).number, 14);
    assert_eq!(
        read_image(&image_of(&keys[..100], &pending[..64])).number,
        0
    );
    let many: Vec<u64> = (0..65_535).collect();
    refused(&image_of_keys(&many), 14);
    // "An image with contents out of order gets 1": 14 before it.
    let out_of_order = [
        image_of_keys(&[2, 1]),
        image_of_keys(&[1, 1]),
        image_of(&[1, 2, 9], &[c(1, 9, 0, 3), c(1, 2, 3, 2)]),
        image_of(&[1, 2, 9], &[c(1, 2, 3, 2), c(1, 2, 3, 2)]),
        image_of(&[1, 2, 9], &[c(1, 2, 0, 2)]),
        image_of(&[1, 2, 9], &[Claim::ZERO]),
        image_of(&[1, 2, 9], &[c(1, 3, 2, 2)]),
        image_of(&[], &[c(0, 0, 0, 1)]),
    ];
    for bytes in out_of_order {
        refused(&bytes, 1);
        refused(&bytes[..bytes.len() - 1], 14);
        // Its length is told whatever its contents.
        assert_eq!(image_length(&bytes).length, bytes.len());
    }
}

/// An image of these keys is read without those of the pending claims that
/// aren't to be kept; what was read is written as the image of the others.
fn reads_without(keys: &[u64], pending: &[Claim], kept: &[Claim]) {
    let image = image_of(keys, pending);
    let without = image_of(keys, kept);
    let node = RawNode::of(RawStore::of(keys), kept);
    for bytes in [&image, &without] {
        let read = read_image(bytes);
        assert_eq!((read.number, &read.node), (0, &node));
    }
    // Its length is told by the counts as they stand.
    assert_eq!(image_length(&image).length, image.len());
    let mut out = vec![0x55; IMAGE_MOST];
    assert_eq!(write_image(&node, &mut out).length, without.len());
    assert_eq!(out[..without.len()], without);
    assert!(out[without.len()..].iter().all(|&byte| byte == 0x55));
    assert_eq!(without_left_out(&image), without);
}

#[test]
fn claims_of_three_that_no_store_could_make_are_left_out() {
    let two = c(1, 16, 17, 2);
    let of_three = three(1, 2, 16);
    assert_eq!(
        (three(1, 20, 16), of_three),
        (c(1, 16, 5, 3), c(1, 16, 19, 3))
    );
    let keys = [1, 16];
    reads_without(&keys, &[two, c(1, 16, 5, 3), of_three], &[two, of_three]);
    reads_without(&keys, &[c(1, 16, 5, 3)], &[]);
    // At lo, at hi, and beside them: inside and outside.
    for middle in [1, 16, 0, 17, 1 << 63, MAX] {
        reads_without(&keys, &[three(1, middle, 16)], &[]);
        // Of four keys the same sum may be.
        let four = Claim {
            cnt: 4,
            ..three(1, middle, 16)
        };
        reads_without(&keys, &[three(1, middle, 16), four], &[four]);
    }
    for middle in [2, 15] {
        reads_without(&keys, &[three(1, middle, 16)], &[three(1, middle, 16)]);
    }
    // As narrow as three keys can be, at either end of all keys.
    let keys = [0, 2, MAX - 2, MAX];
    let kept = [three(0, 1, 2), three(MAX - 2, MAX - 1, MAX)];
    let mut pending = vec![kept[0], three(0, 0, 2), three(0, 2, 2), three(0, 3, 2)];
    pending.extend([kept[1], three(MAX - 2, MAX, MAX), three(MAX - 2, 0, MAX)]);
    pending.sort_by_key(Claim::rank);
    reads_without(&keys, &pending, &kept);
}

#[test]
fn all_64_are_left_out() {
    let keys: Vec<u64> = (0..70).collect();
    reads_without(&keys, &made_by_none(), &[]);
    let full: Vec<u64> = (0..LIMIT as u64).collect();
    reads_without(&full, &made_by_none(), &[]);
    assert_eq!(image_of(&full, &made_by_none()).len(), IMAGE_MOST);
    // All but the first and the last.
    let (first, last) = (c(3, 3, 3, 1), c(0, 69, 7, 9));
    let mut pending = made_by_none();
    (pending[0], pending[63]) = (first, last);
    reads_without(&keys, &pending, &[first, last]);
}

/// "left out once the image has passed 1 as before" and 14 before it.
#[test]
fn what_is_left_out_is_judged_first() {
    let (bad, worse) = (c(1, 16, 5, 3), c(1, 16, 6, 3));
    let read = |keys: &[u64], pending: &[Claim]| read_image(&image_of(keys, pending)).number;
    assert_eq!(read(&[1, 16], &[bad, worse]), 0);
    for pending in [
        // order, and strictly
        vec![worse, bad],
        vec![bad, bad],
        vec![bad, c(1, 16, 17, 2)],
        vec![c(1, 16, 19, 4), bad],
        // an end that isn't held
        vec![three(1, 20, 15)],
        vec![three(2, 20, 16)],
        // 2 to 5 of another
        vec![c(1, 16, 0, 2), bad],
        vec![bad, c(1, 16, 0, 17)],
    ] {
        assert_eq!(read(&[1, 16], &pending), 1, "{pending:?}");
    }
    assert_eq!(read(&[16, 1], &[bad]), 1);
    // A count of 65, all of which would be left out but one.
    let keys: Vec<u64> = (0..70).collect();
    let mut pending = made_by_none();
    pending.push(c(0, 69, 7, 9));
    assert_eq!(read(&keys, &pending), 14);
    assert_eq!(read(&keys, &pending[1..]), 0);
    // Counts and length as they stand, not as they will be.
    let image = image_of(&[1, 16], &[bad]);
    assert_eq!(read_image(&image[..image.len() - 26]).number, 14);
    let mut fewer = image.clone();
    fewer[19] = 0;
    assert_eq!(read_image(&fewer).number, 14);
}
