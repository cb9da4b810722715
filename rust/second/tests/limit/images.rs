//! "An image may have 18,052 bytes, and the host calls require that much
//! output."

use super::common::*;
use super::{OLD_IMAGE_MOST, OLD_LIMIT, tens};
use second::*;

/// 64 pending claims about keys 0, 10, 20, …, with counts up to the limit.
pub fn table_of_tens() -> Vec<Claim> {
    let last = 10 * (LIMIT as u64 - 1);
    let claim = |at: u16| c(10 * u64::from(at), last, u64::from(at), MOST_CNT - 63 + at);
    (0..64).map(claim).collect()
}

/// "An image may have 18,052 bytes": two counts, the keys and 64 claims.
#[test]
fn the_longest_image() {
    assert_eq!(IMAGE_MOST, 2 + 8 * LIMIT + 2 + 26 * 64);
    assert_eq!(IMAGE_MOST, OLD_IMAGE_MOST + 8 * (LIMIT - OLD_LIMIT));
    let (keys, pending) = (tens(LIMIT), table_of_tens());
    let image = image_of(&keys, &pending);
    assert_eq!(image.len(), IMAGE_MOST);
    let node = RawNode::of(RawStore::of(&keys), &pending);
    let read = read_image(&image);
    assert_eq!((read.number, &read.node), (0, &node));
    assert_eq!(image_length(&image).length, IMAGE_MOST);
    let mut out = vec![0x55; IMAGE_MOST + 1];
    assert_eq!(write_image(&node, &mut out[..IMAGE_MOST - 1]).number, 15);
    assert_eq!(out, vec![0x55; IMAGE_MOST + 1]);
    assert_eq!(write_image(&node, &mut out).length, IMAGE_MOST);
    assert_eq!(out, [&image[..], &[0x55]].concat());
    // A key less and a claim less, each count being what the length says.
    let nearly = image_of(&keys[1..], &pending[1..]);
    let read = read_image(&nearly);
    assert_eq!((read.number, read.node.store.count), (0, LIMIT - 1));
    assert_eq!(image_length(&nearly).length, IMAGE_MOST - 8 - 26);
}

/// Every call on an image refuses it.
fn refused_everywhere(image: &[u8], number: i64) {
    let mut out = vec![0x55; IMAGE_MOST + 99];
    let mut frames = vec![0x55; host::BEAT_FRAMES];
    let mut sheet = vec![0x55; SHEET_MOST + 99];
    assert_eq!(i64::from(read_image(image).number), number);
    assert_eq!(read_image(image).node, RawNode::empty());
    let frame = frame_of(&[c(0, 0, 0, 1)]);
    assert_eq!(host::take_frame(image, &frame, &mut out), -number);
    assert_eq!(host::beat(image, &mut out, &mut frames), -number);
    assert_eq!(host::enter(image, 0, &mut out), -number);
    assert_eq!(host::count(image), -number);
    assert_eq!(host::sheet(image, &mut sheet), -number);
    for lent in [out, frames, sheet] {
        assert!(lent.iter().all(|&byte| byte == 0x55));
    }
    let line = format!("refused {number}\n");
    assert_eq!(wallsheet(image), line.as_bytes());
    assert_eq!(rehearse(&[image, &[0; 4]].concat()), line);
    assert_eq!(rehearse(&[&[0; 4], image].concat()), line);
}

/// Question 14 uses the new limit: "the image's counts" (document 01), each
/// above its own, and a byte more than the longest image has.
#[test]
fn images_of_more_are_refused() {
    let (keys, pending) = (tens(LIMIT + 1), table_of_tens());
    for pending in [&[][..], &pending[..1], &pending] {
        let image = image_of(&keys, pending);
        assert!(!questions::q14_length_told(&image));
        assert_eq!(image_length(&image).number, 14);
        refused_everywhere(&image, 14);
    }
    // The length of an image of as many keys as the limit, with a count of one
    // more.
    let mut more = image_of(&keys[..LIMIT], &pending);
    more[..2].copy_from_slice(&(MOST_CNT + 1).to_be_bytes());
    refused_everywhere(&more, 14);
    let mut table = pending.clone();
    table.push(c(0, keys[LIMIT - 1], 99, MOST_CNT));
    refused_everywhere(&image_of(&keys[..LIMIT], &table), 14);
    let longer = [&image_of(&keys[..LIMIT], &pending)[..], &[0]].concat();
    assert_eq!(image_length(&longer).length, IMAGE_MOST);
    assert_eq!(host::count(&longer), -14);
    // A pending claim of more keys than the limit is out of order.
    *table.last_mut().unwrap() = c(0, keys[LIMIT - 1], 99, MOST_CNT + 1);
    refused_everywhere(&image_of(&keys[..LIMIT], &table[1..]), 1);
}

/// Every host call that writes an image, on buffers of this length; what it
/// answers and leaves there.
fn written(image: &[u8], lent: usize) -> [(i64, Vec<u8>); 3] {
    let [mut taken, mut beaten, mut entered] = [(); 3].map(|()| vec![0x55; lent]);
    let mut frames = vec![0x55; host::BEAT_FRAMES];
    let frame = frame_of(&[c(0, 0, 0, 1)]);
    [
        (host::take_frame(image, &frame, &mut taken), taken),
        (host::beat(image, &mut beaten, &mut frames), beaten),
        (host::enter(image, 0, &mut entered), entered),
    ]
}

/// "the host calls require that much output", whatever the image has.
#[test]
fn host_calls_need_as_much_as_the_longest_image() {
    for image in [
        image_of_keys(&[]),
        image_of_keys(&tens(3)),
        image_of_keys(&tens(OLD_LIMIT)),
        image_of(&tens(LIMIT), &table_of_tens()),
    ] {
        for lent in [0, image.len(), OLD_IMAGE_MOST, IMAGE_MOST - 1] {
            let lent = lent.min(IMAGE_MOST - 1);
            for (answer, out) in written(&image, lent) {
                assert_eq!((answer, out), (-15, vec![0x55; lent]));
            }
        }
        for lent in [IMAGE_MOST, IMAGE_MOST + 1] {
            for (answer, out) in written(&image, lent) {
                assert!(answer >= 0);
                let (new, kept) = out.split_at(image_length(&out).length);
                assert_eq!(read_image(new).number, 0);
                assert!(kept.iter().all(|&byte| byte == 0x55));
            }
        }
    }
}
