//! "The limit becomes 2,048, in stores, in cnt and in unions": stores and cnt.

use std::collections::BTreeSet;

use super::common::*;
use super::{MAX, OLD_LIMIT, tens};
use second::*;

/// "in stores": keys come up to the limit and not beyond.
#[test]
fn stores_take_keys_up_to_the_limit() {
    let rising = tens(LIMIT + 1);
    let falling: Vec<u64> = rising.iter().rev().copied().collect();
    // From both ends to the middle.
    let inward: Vec<u64> = rising
        .iter()
        .zip(&falling)
        .flat_map(|(low, high)| [*low, *high])
        .take(LIMIT + 1)
        .collect();
    for keys in [rising, falling, inward] {
        let mut store = RawStore::empty();
        for (at, &key) in keys.iter().enumerate() {
            let entered = enter(store, key);
            let expected = if at < LIMIT { (0, at + 1) } else { (6, LIMIT) };
            assert_eq!((entered.number, entered.store.count), expected);
            store = entered.store;
        }
        let held: BTreeSet<u64> = keys[..LIMIT].iter().copied().collect();
        assert!(store.held().iter().eq(&held));
        assert!(questions::q1_store_in_order(&store));
        // A key held needs no room.
        for key in [keys[0], keys[LIMIT / 2], keys[LIMIT - 1]] {
            let entered = enter(store.clone(), key);
            assert_eq!((entered.number, &entered.store), (0, &store));
        }
    }
}

/// "in stores": those of more keys than the old limit are in order, up to the
/// new one.
#[test]
fn stores_up_to_the_limit_are_in_order() {
    for count in [OLD_LIMIT, OLD_LIMIT + 1, LIMIT - 1, LIMIT] {
        let keys = tens(count);
        let store = RawStore::of(&keys);
        assert!(questions::q1_store_in_order(&store));
        let made = make(&store, 0, count - 1);
        assert_eq!((made.number, made.claim), (0, claim_of(&keys)));
        assert_eq!(usize::from(made.claim.cnt), count);
        assert_eq!(make(&store, 0, count).number, 7);
        let (replied, node) = (reply(store.clone(), made.claim), RawNode::of(store, &[]));
        assert_eq!(replied.reply, Some(Reply::Match));
        assert_eq!(write_image(&node, &mut vec![0; IMAGE_MOST]).number, 0);
        let mut run = vec![7; BEAT_WORDS];
        assert_eq!(beat(node, &mut run).written, 1);
        let Claim { lo, hi, sum, cnt } = made.claim;
        assert_eq!(run[..5], [lo, hi, sum, u64::from(cnt), 7]);
    }
    for count in [LIMIT + 1, LIMIT + 2, 2 * LIMIT, 65_536 + LIMIT] {
        let store = RawStore { count, ..full(10) };
        assert!(!questions::q1_store_in_order(&store));
        let entered = enter(store.clone(), 0);
        assert_eq!((entered.number, &entered.store), (1, &store));
        assert_eq!(make(&store, 0, 0).number, 1);
        assert_eq!(write_sheet(&store, &mut vec![0; SHEET_MOST]).number, 1);
    }
}

/// The number of a claim with lo < hi, the same wherever it is heard. In a
/// frame it is 13, pending 1.
fn gets(claim: Claim, number: u8) {
    let judged = questions::of_claim(&claim).err().unwrap_or(0);
    assert_eq!(judged, number, "{claim:?}");
    assert_eq!(questions::q3_cnt_in_limit(&claim), number != 3);
    assert_eq!(reply(RawStore::empty(), claim).number, number);
    assert_eq!(take(RawNode::empty(), claim).number, number);

    let number_or = |refused: u8| if number == 0 { 0 } else { refused };
    let frame = frame_of(&[claim]);
    assert_eq!(read_frame(&frame).number, number_or(13));
    assert_eq!(write_frame(&[claim], &mut [0; 108]).number, number_or(13));
    let mut out = vec![0x55; IMAGE_MOST];
    let answer = host::take_frame(&[0; 4], &frame, &mut out);
    assert_eq!((-answer).max(0), i64::from(number_or(13)));

    let ends = [claim.lo, claim.hi];
    let read = read_image(&image_of(&ends, &[claim]));
    assert_eq!(read.number, number_or(1));
    let node = RawNode::of(RawStore::of(&ends), &[claim]);
    assert_eq!(questions::q1_node_in_order(&node), number == 0);
    assert!(number != 0 || read.node == node);
}

/// "in cnt", and "case k's 1,025 becomes 2,049": "cnt 0 or" that "with lo < hi:
/// 3" (document 01).
#[test]
fn k_a_count_is_from_1_to_the_limit() {
    let most = LIMIT as u64;
    // Ends with room between them for the limit and one more, for just that,
    // for just the limit, for the old one, and for hardly any key.
    for (lo, hi) in [
        (0, MAX),
        (7, 8 * most),
        (0, most),
        (MAX - most, MAX),
        (0, most - 1),
        (MAX - most + 1, MAX),
        (5, 5 + most - 2),
        (5, 5 + OLD_LIMIT as u64),
        (5, 5 + OLD_LIMIT as u64 - 1),
        (3, 4),
    ] {
        for sum in [0, 3, lo ^ hi] {
            let of = |cnt| c(lo, hi, sum, cnt);
            // Room or none, the limit is asked about first.
            for cnt in [0, MOST_CNT + 1, MOST_CNT + 2, u16::MAX] {
                gets(of(cnt), 3);
            }
            for cnt in [OLD_LIMIT, OLD_LIMIT + 1, LIMIT - 1, LIMIT] {
                let room = cnt as u64 - 1 <= hi - lo;
                gets(of(cnt as u16), if room { 0 } else { 4 });
            }
        }
    }
}

/// "in cnt": claims of as many keys as the limit are asked about and helped
/// with.
#[test]
fn replies_to_claims_of_so_many_keys() {
    let keys = tens(LIMIT);
    for count in [LIMIT - 1, LIMIT] {
        let claim = claim_of(&keys[..count]);
        let (lo, hi) = (claim.lo, claim.hi);
        let replied = reply(RawStore::empty(), claim);
        assert_eq!(replied.reply, Some(Reply::Ask(c(lo, hi, lo ^ hi, 2))));
        assert_eq!(replied.store, RawStore::of(&[lo, hi]));
        // Another key in the middle: as many, so that it helps.
        let mut other = keys[..count].to_vec();
        other[count / 2] += 1;
        let replied = reply(RawStore::of(&other), claim);
        let (lower, upper) = other[1..count - 1].split_at((count - 2) / 2 + 1);
        let expected = Reply::Two(claim_of(lower), claim_of(upper));
        assert_eq!(replied.reply, Some(expected));
    }
}
