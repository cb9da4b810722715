//! "a beat still adds no key" (document 02, slip 1): claims are answered by the
//! keys as they are. One of three beside just its ends is asked about, and
//! counts. Claims of three that an image leaves out (slip 2) don't.

use super::common::*;
use super::{beaten, beaten_by_host};
use second::*;

/// Keys 0, 100, 200, ….
fn hundreds() -> Vec<u64> {
    (0..40).map(|at| 100 * at).collect()
}

/// A claim of three whose ends are neighbours in the store.
fn beside_its_ends(at: u64) -> Claim {
    three(100 * at, 100 * at + 7, 100 * at + 100)
}

/// The ends alone, which is own.
fn ends(at: u64) -> Claim {
    claim_of(&[100 * at, 100 * at + 100])
}

/// A claim that is helped with by the one key between its ends.
fn helped(at: u64) -> Claim {
    three(100 * at, 100 * at + 7, 100 * at + 200)
}

fn node(table: &[Claim]) -> RawNode {
    RawNode::of(RawStore::of(&hundreds()), table)
}

#[test]
fn three_beside_just_the_ends_counts_as_asked() {
    let whole = claim_of(&hundreds());
    // Each of them tells its middle key to a reply, which would match.
    let replied = reply(RawStore::of(&hundreds()), beside_its_ends(3));
    assert_eq!(replied.reply, Some(Reply::Match));
    assert_eq!(replied.store.count, 41);

    let mut table: Vec<Claim> = (0..8).map(beside_its_ends).collect();
    table.extend([helped(8), helped(10)]);
    let (claims, after) = beaten(node(&table));
    let mut expected = vec![whole];
    expected.extend((0..8).map(ends));
    assert_eq!(claims, expected);
    assert_eq!(after, node(&table));
}

/// Seven of them, and the eighth is the first helped with.
#[test]
fn seven_of_three_and_two_helped() {
    let mut table: Vec<Claim> = (0..7).map(beside_its_ends).collect();
    table.extend([helped(8), helped(10)]);
    let (claims, after) = beaten(node(&table));
    let mut expected = vec![claim_of(&hundreds())];
    expected.extend((0..7).map(ends));
    expected.push(c(900, 900, 900, 1));
    assert_eq!(claims, expected);
    table.remove(7);
    assert_eq!(after, node(&table));
}

/// One of them after the eighth reply waits, and no key of it is added.
#[test]
fn three_beside_just_the_ends_after_the_eighth() {
    let mut table: Vec<Claim> = (0..8).map(helped).collect();
    table.push(beside_its_ends(20));
    let (claims, after) = beaten(node(&table));
    let mut expected = vec![claim_of(&hundreds())];
    expected.extend((1..9).map(|at| c(100 * at, 100 * at, 100 * at, 1)));
    assert_eq!(claims, expected);
    assert_eq!(after, node(&table[8..]));
    // Then it is asked about and stays.
    let (claims, after) = beaten(after);
    assert_eq!(claims, [claim_of(&hundreds()), ends(20)]);
    assert_eq!(after, node(&table[8..]));
}

/// With its middle key held it is a match, before and after the eighth reply.
#[test]
fn three_with_the_middle_key_held() {
    let mut keys = hundreds();
    keys.insert(1, 7);
    keys.insert(22, 2_007);
    let mut table = vec![beside_its_ends(0)];
    table.extend((1..9).map(helped));
    table.push(beside_its_ends(20));
    let (claims, after) = beaten(RawNode::of(RawStore::of(&keys), &table));
    assert_eq!(claims.len(), 9);
    assert_eq!(claims[1], c(200, 200, 200, 1));
    assert_eq!(after, RawNode::of(RawStore::of(&keys), &[]));
}

/// "left out once the image has passed 1": what isn't in the table isn't asked
/// about and doesn't count.
#[test]
fn claims_left_out_of_an_image_do_not_count() {
    let whole = claim_of(&hundreds());
    let faulty = |at: u64| three(100 * at, 100 * at, 100 * at + 100);
    assert!(!questions::q16_middle_between(&faulty(3)));
    let mut table: Vec<Claim> = (0..9).map(faulty).collect();
    table.extend((10..19).map(helped));
    let (frames, image) = beaten_by_host(&image_of(&hundreds(), &table));
    let mut expected = vec![whole];
    expected.extend((11..19).map(|at| c(100 * at, 100 * at, 100 * at, 1)));
    let expected: Vec<u8> = expected.chunks(4).flat_map(frame_of).collect();
    assert_eq!(frames, expected);
    assert_eq!(image, image_of(&hundreds(), &[helped(18)]));
}
