//! "The order of serving and the claims sent are compared with this text": "the
//! whole claim (none if empty), then in table order each pending claim's reply
//! claims" (document 01), and the table rises "by cnt, then lo, hi, sum".

use super::beaten;
use super::common::*;
use second::*;

/// Keys 0 to 99.
fn hundred() -> RawStore {
    RawStore::of(&(0..100).collect::<Vec<u64>>())
}

/// Ten claims in table order, and what each is replied with. The first two
/// fields that differ are cnt, lo, hi and sum by turns.
fn ten() -> [(Claim, Vec<Claim>); 10] {
    let of = |first: u64, last: u64| claim_of(&(first..=last).collect::<Vec<u64>>());
    [
        // A match: the key itself.
        (c(90, 90, 90, 1), vec![]),
        (c(40, 44, 4, 2), vec![of(41, 43)]),
        (c(40, 50, 26, 2), vec![of(41, 45), of(46, 49)]),
        (c(41, 45, 4, 2), vec![of(42, 44)]),
        (c(10, 14, 0, 4), vec![of(11, 13)]),
        (c(10, 14, 9, 4), vec![of(11, 13)]),
        (c(10, 15, 0, 4), vec![of(11, 13), of(14, 14)]),
        (c(2, 9, 5, 5), vec![of(3, 6), of(7, 8)]),
        (c(3, 8, 1, 6), vec![of(4, 6), of(7, 7)]),
        // The ninth that doesn't match.
        (c(0, 99, 0, 7), vec![of(1, 50), of(51, 98)]),
    ]
}

/// The claims written, one by one.
#[test]
fn the_claims_sent_and_their_order() {
    let table = ten().map(|(claim, _)| claim);
    assert!(table.is_sorted_by_key(Claim::rank));
    let (claims, after) = beaten(RawNode::of(hundred(), &table));
    let mut expected = vec![claim_of(hundred().held())];
    for (_, replies) in &ten()[..9] {
        expected.extend(replies);
    }
    assert_eq!(claims, expected);
    assert_eq!(claims.len(), 1 + 12);
    assert_eq!(after, RawNode::of(hundred(), &table[9..]));
}

/// Whatever order they come in, the one served last or not at all is the last
/// of the table.
#[test]
fn not_by_the_order_of_coming() {
    let table = ten().map(|(claim, _)| claim);
    let expected = beaten(RawNode::of(hundred(), &table));
    for_seeds(40, |rng| {
        let mut coming = table;
        for at in 1..coming.len() {
            coming.swap(at, rng.below(at + 1));
        }
        let mut node = RawNode::of(hundred(), &[]);
        for claim in coming {
            node = take(node, claim).node;
        }
        assert_eq!(node.table(), table);
        assert_eq!(beaten(node), expected);
    });
}

/// Claims of few keys come before those of many, wherever they lie.
#[test]
fn few_keys_before_many() {
    // Claims of 20 keys down to 12, from the lowest key on.
    let mut table: Vec<Claim> = (0..9).map(|at| c(at, 99 - at, 0, 20 - at as u16)).collect();
    table.reverse();
    let (claims, after) = beaten(RawNode::of(hundred(), &table));
    assert_eq!(claims.len(), 17);
    // The first one served lies innermost, and the outermost waits.
    let inner: Vec<u64> = (9..91).collect();
    let (lower, upper) = inner.split_at(42);
    assert_eq!(claims[1..3], [claim_of(lower), claim_of(upper)]);
    assert_eq!(after.table(), [c(0, 99, 0, 20)]);
}

/// The host call's frames have the same claims, "four to a frame and the rest
/// in a last one", byte by byte.
#[test]
fn the_frames_of_a_beat() {
    let table = ten().map(|(claim, _)| claim);
    let held = hundred();
    let mut out = vec![0x55; IMAGE_MOST];
    let mut frames = [0x66; 500];
    let length = host::beat(&image_of(held.held(), &table), &mut out, &mut frames);
    // Thirteen claims: three frames of four and one of one.
    assert_eq!(length, 3 * 108 + 30);
    let mut claims = vec![claim_of(held.held())];
    for (_, replies) in &ten()[..9] {
        claims.extend(replies);
    }
    let expected: Vec<u8> = claims.chunks(4).flat_map(frame_of).collect();
    assert_eq!(frames[..354], expected);
    assert_eq!(frames[354..], [0x66; 146]);
    // The image has the one that waits.
    let left = image_of(held.held(), &table[9..]);
    assert_eq!(out[..left.len()], left);
    assert!(out[left.len()..].iter().all(|&byte| byte == 0x55));
}
