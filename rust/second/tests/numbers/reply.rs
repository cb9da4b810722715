//! The reply to one claim.

use super::common::*;
use second::*;

#[test]
fn a_full_store_is_split_in_the_middle() {
    let last = LIMIT as u64 - 1;
    let replied = reply(full(1), c(0, last, last, 2));
    // a = 1, b = last - 1
    let z = (last - 1) / 2;
    let lower: Vec<u64> = (1..=1 + z).collect();
    let upper: Vec<u64> = (2 + z..=last - 1).collect();
    let (count, claims) = replied.claims();
    assert_eq!(count, 2);
    assert_eq!(claims, [claim_of(&lower), claim_of(&upper)]);
    assert_eq!(replied.store, full(1));
}

#[test]
fn ends_that_do_not_fit_get_6() {
    let up_to = |keys: usize| RawStore::of(&full(2).keys[..keys]);
    let two_new = c(1, 3, 2, 2);
    let one_new = c(0, 3, 3, 2);
    let same_new = c(3, 3, 3, 1);
    let none_new = c(0, 4, 4, 2);
    for (keys, claim, number) in [
        (LIMIT - 2, two_new, 0),
        (LIMIT - 1, two_new, 6),
        (LIMIT, two_new, 6),
        (LIMIT - 1, one_new, 0),
        (LIMIT, one_new, 6),
        (LIMIT - 1, same_new, 0),
        (LIMIT, same_new, 6),
        (LIMIT, none_new, 0),
        // 5 and 16 before 6
        (LIMIT, c(1, 3, 0, 2), 5),
        (LIMIT, three(1, 1, 3), 16),
        (LIMIT, three(1, 3, 3), 16),
        (LIMIT - 1, three(1, 4, 3), 16),
        (LIMIT, three(0, 5, 4), 16),
        (LIMIT, three(1, 2, 3), 6),
    ] {
        let replied = reply(up_to(keys), claim);
        assert_eq!(replied.number, number);
        let taken = take(RawNode::of(up_to(keys), &[]), claim);
        assert_eq!(taken.number, number);
        if number != 0 {
            assert_eq!(replied.store, up_to(keys));
            assert_eq!(replied.claims(), (0, [Claim::ZERO; 2]));
            assert_eq!(taken.node, RawNode::of(up_to(keys), &[]));
        }
    }
}

#[test]
fn two_ends_say_all_of_their_span() {
    // The least claims about spans of 1 and 2 keys are matched or asked
    // about, never helped.
    for store in [RawStore::empty(), RawStore::of(&[4]), RawStore::of(&[4, 9])] {
        assert_eq!(
            reply(store.clone(), c(4, 4, 4, 1)).reply,
            Some(Reply::Match)
        );
        assert_eq!(
            reply(store.clone(), c(4, 9, 13, 2)).reply,
            Some(Reply::Match)
        );
        assert_eq!(
            reply(store.clone(), c(4, 9, 13, 4)).reply,
            Some(Reply::Ask(c(4, 9, 13, 2)))
        );
        // Three of which but the ends are told are none (16).
        let replied = reply(store.clone(), c(4, 9, 13, 3));
        assert_eq!((replied.number, replied.reply), (16, None));
        assert_eq!(replied.store, store);
    }
}
