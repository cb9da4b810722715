//! Claims.

use super::MAX;
use super::common::*;
use second::*;

#[test]
fn claims_of_positions() {
    let store = RawStore::of(&[1, 2, 4, 8, MAX]);
    assert_eq!(make(&store, 0, 0).claim, c(1, 1, 1, 1));
    assert_eq!(make(&store, 1, 3).claim, c(2, 8, 14, 3));
    assert_eq!(make(&store, 4, 4).claim, c(MAX, MAX, MAX, 1));
    assert_eq!(make(&store, 0, 4).claim, c(1, MAX, MAX ^ 15, 5));
    let full = full(3);
    let last = full.keys[LIMIT - 1];
    assert_eq!(make(&full, 0, LIMIT - 1).claim, claim_of(full.held()));
    assert_eq!(
        make(&full, LIMIT - 1, LIMIT - 1).claim,
        c(last, last, last, 1)
    );
}

#[test]
fn positions_not_held_get_7() {
    let store = RawStore::of(&[1, 2, 4]);
    let refused = [
        (1, 0),
        (0, 3),
        (3, 3),
        (2, 1),
        (0, 65_536),
        (65_536, 65_536),
        (65_536, 0),
        (0, usize::MAX),
        (usize::MAX, usize::MAX),
    ];
    for (first, last) in refused {
        let made = make(&store, first, last);
        assert_eq!((made.number, made.claim), (7, Claim::ZERO));
    }
    assert_eq!(make(&RawStore::empty(), 0, 0).number, 7);
    assert_eq!(make(&full(1), 0, LIMIT).number, 7);
    assert_eq!(make(&full(1), 65_536, 65_536).number, 7);
}

/// The last of as many keys from 0 on as the limit says.
const LAST: u64 = LIMIT as u64 - 1;

/// Claims and the numbers that they get, each question on both sides of its
/// edge.
const ASKED: &[(Claim, u8)] = &[
    // 2 before 3, 4 and 5
    (c(2, 1, 0, 0), 2),
    (c(MAX, 0, 0, 2), 2),
    // 3 before 4 and 5
    (c(5, 5, 0, 0), 3),
    (c(5, 5, 0, MOST_CNT + 1), 3),
    (c(0, MAX, 0, MOST_CNT + 1), 3),
    // 4 before 5
    (c(5, 5, 0, 2), 4),
    (c(5, 5, 5, MOST_CNT), 4),
    (c(5, 6, 0, 1), 4),
    (c(5, 6, 5, 1), 4),
    (c(0, LAST - 1, 0, MOST_CNT), 4),
    (c(MAX - 1, MAX, 1, 3), 4),
    (c(5, 6, 3, 3), 4),
    (c(5, 5, 5, 3), 4),
    (c(0, MAX, 0, 1), 4),
    // 5
    (c(0, 0, 1, 1), 5),
    (c(5, 6, 0, 2), 5),
    (c(0, MAX, 0, 2), 5),
    (c(5, 7, 99, 2), 5),
    // 16, of three keys alone
    (c(5, 7, 99, 3), 16),
    (c(0, MAX, MAX, 3), 16),
    // none
    (c(0, 0, 0, 1), 0),
    (c(MAX, MAX, MAX, 1), 0),
    (c(5, 6, 3, 2), 0),
    (c(5, 7, 4, 3), 0),
    (c(5, 8, 99, 4), 0),
    (c(0, LAST, 7, MOST_CNT), 0),
    (c(0, MAX, MAX, 2), 0),
    (c(0, MAX, 0, MOST_CNT), 0),
    (c(MAX - LAST, MAX, 0, MOST_CNT), 0),
];

#[test]
fn questions_2_to_5_and_16() {
    for &(claim, number) in ASKED {
        claim_gets(claim, number);
    }
}

/// The number of a claim, the same wherever it is heard; in a frame 13.
fn claim_gets(claim: Claim, number: u8) {
    let judged = questions::of_claim(&claim).err().unwrap_or(0);
    assert_eq!(judged, number, "{claim:?}");
    assert_eq!(reply(RawStore::empty(), claim).number, number);
    assert_eq!(take(RawNode::empty(), claim).number, number);
    let frame = frame_of(&[claim]);
    let thirteen = if number == 0 { 0 } else { 13 };
    assert_eq!(read_frame(&frame).number, thirteen);
    assert_eq!(write_frame(&[claim], &mut [0; 108]).number, thirteen);
}

#[test]
fn a_middle_key_not_strictly_between_gets_16() {
    // The ends, what lies strictly between them and what doesn't: first and
    // last of it, the ends themselves, and one beside them.
    for (ends, between, others) in [
        ((4, 16), &[5, 15, 10][..], &[4, 16, 3, 17, 0, MAX][..]),
        ((4, 6), &[5], &[4, 6, 3, 7, 1 << 63]),
        ((0, 2), &[1], &[0, 2, 3, MAX]),
        ((MAX - 2, MAX), &[MAX - 1], &[MAX - 2, MAX, MAX - 3, 0]),
        ((0, MAX), &[1, MAX - 1, 1 << 63], &[0, MAX]),
    ] {
        let (lo, hi) = ends;
        for (middles, number) in [(between, 0), (others, 16)] {
            for &middle in middles {
                let claim = three(lo, middle, hi);
                claim_gets(claim, number);
                // Of other counts it says nothing.
                let wide = hi - lo >= 3;
                claim_gets(Claim { cnt: 4, ..claim }, if wide { 0 } else { 4 });
            }
        }
    }
}
