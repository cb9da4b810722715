//! "In table order, a match leaves the table and doesn't count."

use super::beaten;
use super::common::*;
use super::pictures::*;
use second::*;

/// Before, among and straight before the eighth, matches take no reply away.
#[test]
fn a_match_does_not_count() {
    shows("=11111111", ".11111111", ".........");
    shows("1111=1111", "1111.1111", ".........");
    shows("1111111=1", "1111111.1", ".........");
    shows("========22222222", "........22222222", "................");
    shows("=?=1=2=?=1=2=?=1", ".?.1.2.?.1.2.?.1", ".?.....?.....?..");
    // And the ninth waits all the same.
    shows("=111111112", ".11111111.", ".........2");
    shows(
        "1=1=1=1=1=1=1=1=2",
        "1.1.1.1.1.1.1.1..",
        "................2",
    );
}

/// After eight asked or helped "each remaining claim that doesn't match stays":
/// one that does leaves.
#[test]
fn a_match_after_the_eighth_reply_leaves() {
    shows("11111111=", "11111111.", ".........");
    shows("????????=", "????????.", "????????.");
    shows("22222222=2", "22222222..", ".........2");
    shows("222222222=", "22222222..", "........2.");
    shows("22222222=1=?=2=", "22222222.......", ".........1.?.2.");
}

#[test]
fn matches_alone() {
    for count in [1, 8, 9, 17, 64] {
        let none = ".".repeat(count);
        shows(&"=".repeat(count), &none, &none);
    }
}

/// A match sends nothing, whatever is pending beside it.
#[test]
fn a_match_sends_nothing() {
    let (claims, after) = beaten(node("="));
    assert_eq!(claims, [claim_of(&keys())]);
    assert_eq!(after, node(""));
    let (claims, _) = beaten(node("=?"));
    assert_eq!(claims, [claim_of(&keys()), claim_of(&six(1)[..3])]);
}

/// A claim equal in three fields of four doesn't match: it is helped with and
/// counts. Of eight such and one that matches, the table is empty afterwards.
#[test]
fn nearly_a_match_counts() {
    let nearly = |place: usize| {
        let own = claim(place, '=');
        Claim {
            sum: own.sum ^ 1,
            ..own
        }
    };
    let table: Vec<Claim> = (0..9).map(nearly).collect();
    let store = RawStore::of(&keys());
    let (claims, after) = beaten(RawNode::of(store.clone(), &table));
    let mut expected = vec![claim_of(&keys())];
    expected.extend((0..8).map(|place| claim_of(&six(place)[1..3])));
    assert_eq!(claims, expected);
    assert_eq!(after, RawNode::of(store.clone(), &table[8..]));

    let mut table = table;
    table[8] = claim(8, '=');
    let (claims, after) = beaten(RawNode::of(store.clone(), &table));
    assert_eq!(claims, expected);
    assert_eq!(after, RawNode::of(store, &[]));
}
