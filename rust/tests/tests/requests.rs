//! Requests that `drill` itself refuses.

use tests::card::*;
use tests::drill::{Call, Card, Drill, MOST_BYTES, MOST_WORDS, request_bytes};

/// A request whose words are all the same.
fn request_of(word: u64, call: u64, words: usize, bytes: usize) -> Vec<u8> {
    let card = Card {
        words: vec![word; words],
        bytes: vec![0; bytes],
    };
    request_bytes(call, &card)
}

/// Requests that can't be read get the byte '?', and nothing after it.
#[test]
fn refuses_requests_that_it_cannot_read() {
    let judge = request_bytes(
        4,
        &Card {
            words: vec![7; 20],
            bytes: vec![],
        },
    );
    let cut = |bytes: &[u8], at: usize| bytes[..at].to_vec();
    let with = |call, words, bytes| request_of(u64::MAX, call, words, bytes);
    let head = |numbers: [u64; 3]| numbers.map(u64::to_be_bytes).concat();
    let malformed = [
        cut(&judge, 1),
        cut(&judge, 23),
        cut(&judge, 24),
        cut(&judge, judge.len() - 1),
        with(0, 20, 0),
        with(18, PAST_BOTH, 0),
        with(u64::MAX, PAST_BOTH, 0),
        // Too few words.
        with(1, PAST_STORE - 1, 0),
        with(2, PAST_STORE - 1, 0),
        with(3, PAST_STORE - 1, 0),
        with(4, 19, 0),
        with(5, PAST_NODE - 1, 0),
        with(13, PAST_NODE - 1, 0),
        with(14, PAST_STORE - 1, 0),
        with(15, PAST_BOTH - 1, 0),
        request_of(0, 16, PAST_STORE - 1, 0),
        with(17, 19, 0),
        // More lent than is there.
        with(6, PAST_NODE, 0),
        with(7, PAST_BOTH, 0),
        with(8, 20, 9),
        with(9, 20, 9),
        with(10, PAST_NODE, 9),
        with(11, PAST_NODE, 9),
        with(12, 20, 9),
        with(16, PAST_STORE, 9),
        // More than the drill has room for.
        head([4, MOST_WORDS as u64 + 1, 0]),
        head([4, u64::MAX, 0]),
        head([12, 0, MOST_BYTES as u64 + 1]),
        head([12, 0, u64::MAX]),
    ];
    for request in malformed {
        let mut drill = Drill::start();
        let before = Card {
            words: vec![1; 20],
            bytes: vec![],
        };
        let _ = drill.ask(Call::Judge, &before);
        drill.send(&request);
        assert_eq!(drill.end(), b"?", "{:?}", &request[..request.len().min(24)]);
    }
    assert_eq!(Drill::start().end(), b"", "no request, no reply");
}
