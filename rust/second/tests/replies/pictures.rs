//! Tables drawn as rows of signs, one for each pending claim in table order:
//! `=` for a match, `?` for one asked about, `1` and `2` for one helped with in
//! so many claims, and in rows of what a beat sends or leaves `.` for nothing.

use super::beaten;
use super::common::*;
use second::*;

/// Keys 0, 10, 20, …: six for each place of a full table, and a few more.
pub fn keys() -> Vec<u64> {
    (0..6 * 64 + 5).map(|at| 10 * at).collect()
}

/// The six keys that belong to a place of the table. No span of one place has
/// a key of another.
pub fn six(place: usize) -> Vec<u64> {
    keys()[6 * place..6 * place + 6].to_vec()
}

/// A pending claim of four keys, of the kind that the sign says. All of four,
/// they rise by lo, which is by place.
pub fn claim(place: usize, sign: char) -> Claim {
    let six = six(place);
    let ends = |last: usize, sum| c(six[0], six[last], sum, 4);
    match sign {
        '=' => claim_of(&six[..4]),
        // Own has three keys; the fourth would be just above the first.
        '?' => ends(2, claim_of(&six[..3]).sum ^ (six[0] + 1)),
        '1' => ends(4, 0),
        '2' => ends(5, 0),
        _ => panic!("no sign: {sign}"),
    }
}

/// What is replied to that claim.
pub fn replied(place: usize, sign: char) -> Reply {
    let six = six(place);
    match sign {
        '=' => Reply::Match,
        '?' => Reply::Ask(claim_of(&six[..3])),
        '1' => Reply::One(claim_of(&six[1..4])),
        '2' => Reply::Two(claim_of(&six[1..4]), claim_of(&six[4..5])),
        _ => panic!("no sign: {sign}"),
    }
}

/// The places of a row that have a sign, with it.
fn signs(row: &str) -> impl Iterator<Item = (usize, char)> {
    row.chars().enumerate().filter(|(_, sign)| *sign != '.')
}

/// The node whose table is this row.
pub fn node(row: &str) -> RawNode {
    let table: Vec<Claim> = signs(row).map(|(at, sign)| claim(at, sign)).collect();
    RawNode::of(RawStore::of(&keys()), &table)
}

/// The claims a beat writes that replies to this row: the whole one first.
pub fn sent(row: &str) -> Vec<Claim> {
    let mut claims = vec![claim_of(&keys())];
    for (at, sign) in signs(row) {
        let (count, reply) = replied(at, sign).claims();
        claims.extend_from_slice(&reply[..count]);
    }
    claims
}

/// One beat: of the claims pending, the replies to those of the second row are
/// sent, and those of the third stay.
pub fn shows(pending: &str, sends: &str, stays: &str) {
    for row in [sends, stays] {
        assert_eq!(row.len(), pending.len());
        assert!(signs(row).all(|(at, sign)| pending.as_bytes()[at] == sign as u8));
    }
    let (claims, after) = beaten(node(pending));
    assert_eq!(claims, sent(sends), "sent of {pending}");
    assert_eq!(after.table(), node(stays).table(), "left of {pending}");
    assert_eq!(after, node(stays));
}

/// The signs are what they say, in each place of a table.
#[test]
fn each_sign_in_each_place() {
    for place in 0..64 {
        for sign in ['=', '?', '1', '2'] {
            let store = RawStore::of(&keys());
            let heard = reply(store.clone(), claim(place, sign));
            assert_eq!((heard.number, heard.store), (0, store));
            assert_eq!(heard.reply, Some(replied(place, sign)));
        }
    }
    assert!(questions::q1_node_in_order(&node(&"=?12".repeat(16))));
    // By hand.
    assert_eq!(claim(1, '='), c(60, 90, 60 ^ 70 ^ 80 ^ 90, 4));
    assert_eq!(claim(1, '?'), c(60, 80, 60 ^ 61 ^ 70 ^ 80, 4));
    let (lower, upper) = (c(70, 90, 70 ^ 80 ^ 90, 3), c(100, 100, 100, 1));
    assert_eq!(sent(".2")[1..], [lower, upper]);
    assert_eq!(sent("?1")[1..], [c(0, 20, 10 ^ 20, 3), lower]);
}
