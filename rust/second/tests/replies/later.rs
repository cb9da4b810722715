//! Beats after the first: those that waited are served in table order, as ever,
//! and nothing is remembered of who was served before.

use super::beaten;
use super::common::*;
use super::pictures::*;
use second::*;

/// Beats that follow each other; a row for what each sends, and what is left.
fn beats_show(pending: &str, sends: &[&str], stays: &str) {
    let mut kiosk = node(pending);
    for row in sends {
        let (claims, after) = beaten(kiosk);
        assert_eq!(claims, sent(row), "{row} of {pending}");
        kiosk = after;
    }
    assert_eq!(kiosk, node(stays));
}

#[test]
fn a_second_beat_serves_those_that_waited() {
    beats_show("111111112", &["11111111.", "........2", "........."], "");
    beats_show("22222222=1", &["22222222..", ".........1"], "");
    beats_show(
        "12121212?=1",
        &["12121212...", "........?.1", "........?.."],
        "........?",
    );
}

/// Asked ones stay and are asked about again, each time before those behind
/// them.
#[test]
fn asked_ones_count_again() {
    beats_show(
        "????111111",
        &["????1111..", "????....11", "????......"],
        "????",
    );
    beats_show(
        "1111111122222222????",
        &[
            "11111111............",
            "........22222222....",
            "................????",
        ],
        "................????",
    );
}

/// Eight asked ones keep the ninth waiting for as long as they are pending, and
/// let it in when one of them matches.
#[test]
fn behind_eight_asked_ones() {
    let mut kiosk = node("????????2");
    for _ in 0..5 {
        let (claims, after) = beaten(kiosk.clone());
        assert_eq!(claims, sent("????????."));
        assert_eq!(after, kiosk);
        kiosk = after;
    }
    // The key that the fourth of them says comes in: it matches, leaves and
    // doesn't count, and so the ninth is the eighth.
    let key = six(3)[0] + 1;
    kiosk.store = enter(kiosk.store, key).store;
    let (claims, after) = beaten(kiosk.clone());
    let mut expected = sent("???.????2");
    expected[0] = claim_of(kiosk.store.held());
    assert_eq!(claims, expected);
    assert_eq!(after.table(), node("???.????").table());
}

/// A claim that waits may have become a match meanwhile, and leaves then.
#[test]
fn one_that_waited_matches() {
    let (_, mut kiosk) = beaten(node("????????=?"));
    assert_eq!(kiosk, node("????????.?"));
    kiosk.store = enter(kiosk.store, six(9)[0] + 1).store;
    let (claims, after) = beaten(kiosk);
    assert_eq!(claims.len(), 9);
    assert_eq!(after.table(), node("????????").table());
}

/// A claim that is taken goes to its place in the table, and there it comes
/// before those that waited.
#[test]
fn a_claim_taken_before_those_that_wait() {
    let (_, kiosk) = beaten(node("...111111112"));
    assert_eq!(kiosk, node("...........2"));
    let mut kiosk = kiosk;
    for place in [9, 4, 7, 5, 8, 3, 10, 6] {
        let taken = take(kiosk, claim(place, '1'));
        assert_eq!(taken.number, 0);
        kiosk = taken.node;
    }
    assert_eq!(kiosk, node("...111111112"));
    let (claims, kiosk) = beaten(kiosk);
    assert_eq!(claims, sent("...11111111."));
    assert_eq!(kiosk, node("...........2"));
    // Alone it is served.
    assert_eq!(beaten(kiosk), (sent("...........2"), node("")));
}

/// A table of 64 in eight beats, eight of them each time.
#[test]
fn a_full_table_takes_eight_beats() {
    let row = "12".repeat(32);
    let mut kiosk = node(&row);
    for at in 0..8 {
        let mut sends = ".".repeat(64);
        sends.replace_range(8 * at..8 * at + 8, "12121212");
        let (claims, after) = beaten(kiosk);
        assert_eq!((claims.len(), &claims), (13, &sent(&sends)));
        assert_eq!(after.pending_count, 64 - 8 * (at + 1));
        kiosk = after;
    }
    assert_eq!(beaten(kiosk), (sent(""), node("")));
}
