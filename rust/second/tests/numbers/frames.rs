//! Frames.

use super::MAX;
use super::common::*;
use second::*;

#[test]
fn a_frame_byte_by_byte() {
    let claim = c(
        0x0102_0304_0506_0708,
        0x1112_1314_1516_1718,
        MAX - 1,
        0x0203,
    );
    let bytes = [
        0x4C, 0x43, 1, 1, // mark, version, n
        1, 2, 3, 4, 5, 6, 7, 8, // lo
        0x11, 0x12, 0x13, 0x14, 0x15, 0x16, 0x17, 0x18, // hi
        0xFF, 0xFF, 0xFF, 0xFF, 0xFF, 0xFF, 0xFF, 0xFE, // sum
        2, 3, // cnt
    ];
    let mut out = [0x55; 40];
    let written = write_frame(&[claim], &mut out);
    assert_eq!((written.number, written.length), (0, 30));
    assert_eq!(out[..30], bytes);
    assert_eq!(out[30..], [0x55; 10]);
    let read = read_frame(&bytes);
    assert_eq!((read.number, read.count), (0, 1));
    assert_eq!(read.claims, [claim, Claim::ZERO, Claim::ZERO, Claim::ZERO]);
}

#[test]
fn a_frame_has_1_to_4_claims_and_at_most_108_bytes() {
    let claims = [c(1, 1, 1, 1), c(2, 3, 1, 2), c(0, 9, 5, 7), c(0, 0, 0, 1)];
    for n in 1..=4 {
        let frame = frame_of(&claims[..n]);
        let length = [30, 56, 82, 108][n - 1];
        assert_eq!(frame.len(), length);
        let read = read_frame(&frame);
        assert_eq!((read.number, read.count), (0, n));
        assert_eq!(read.claims[..n], claims[..n]);
        assert!(read.claims[n..].iter().all(|place| *place == Claim::ZERO));

        let mut out = vec![0; length];
        assert_eq!(write_frame(&claims[..n], &mut out).length, length);
        assert_eq!(out, frame);
        // 15: one byte short.
        let mut out = vec![9; length - 1];
        let written = write_frame(&claims[..n], &mut out);
        assert_eq!((written.number, written.length), (15, 0));
        assert_eq!(out, vec![9; length - 1]);
    }
    assert_eq!(FRAME_MOST, frame_of(&claims).len());
}

/// A frame is refused with this number, and zeros for the claims.
fn refused(bytes: &[u8], number: u8) {
    let refused = FrameRead {
        number,
        claims: [Claim::ZERO; 4],
        count: 0,
    };
    assert_eq!(read_frame(bytes), refused);
}

#[test]
fn frames_refused() {
    let good = frame_of(&[c(1, 1, 1, 1), c(2, 3, 1, 2)]);
    let with = |at: usize, byte: u8| {
        let mut frame = good.clone();
        frame[at] = byte;
        frame
    };
    // 10: fewer than 4 bytes, or another mark.
    for length in 0..4 {
        refused(&good[..length], 10);
    }
    refused(&with(0, 0x4D), 10);
    refused(&with(1, 0x4C), 10);
    refused(&[0x43, 0x4C, 1, 1], 10);
    // 11 before 12.
    for version in [0, 2, 255] {
        refused(&with(2, version), 11);
        refused(&[0x4C, 0x43, version, 0], 11);
    }
    // 12: n of 0 or 5, even with a length of 4 + 26n; length off by one.
    refused(&[0x4C, 0x43, 1, 0], 12);
    refused(&frame_of(&[c(1, 1, 1, 1); 5]), 12);
    refused(&frame_of(&[c(1, 1, 1, 1); 255]), 12);
    for n in [0, 1, 3, 4, 5, 255] {
        refused(&with(3, n), 12);
    }
    refused(&good[..good.len() - 1], 12);
    refused(&[good.as_slice(), &[0]].concat(), 12);
    refused(&good[..4], 12);
}

#[test]
fn frames_with_a_claim_that_does_not_pass_get_13() {
    // 12 before 13.
    for bad in [c(3, 2, 1, 2), three(1, 1, 16)] {
        let bent = frame_of(&[c(1, 1, 1, 1), bad]);
        refused(&bent[..bent.len() - 1], 12);
        refused(&bent, 13);
    }
    // 13, whichever claim it is.
    for at in 0..4 {
        let mut claims = [c(1, 1, 1, 1); 4];
        claims[at].sum = 0;
        refused(&frame_of(&claims), 13);
        // By 16, which is "part of what 13 asks" (document 02, slip 2).
        claims[at] = three(1, 20, 16);
        refused(&frame_of(&claims), 13);
        claims[at] = three(1, 2, 16);
        assert_eq!(read_frame(&frame_of(&claims)).claims, claims);
    }
}

#[test]
fn writing_a_frame_asks_12_then_13_then_15() {
    for bad in [c(2, 1, 3, 2), three(1, 20, 16), three(1, 16, 16)] {
        writing_it_is_refused(bad);
    }
}

fn writing_it_is_refused(bad: Claim) {
    let number = |claims: &[Claim]| {
        let mut out = [];
        let written = write_frame(claims, &mut out);
        assert_eq!(written.length, 0);
        written.number
    };
    assert_eq!(number(&[]), 12);
    assert_eq!(number(&[bad; 5]), 12);
    assert_eq!(number(&[bad; 300]), 12);
    assert_eq!(number(&[bad]), 13);
    assert_eq!(number(&[c(1, 1, 1, 1), c(1, 1, 1, 1), bad]), 13);
    assert_eq!(number(&[c(1, 1, 1, 1)]), 15);
}
