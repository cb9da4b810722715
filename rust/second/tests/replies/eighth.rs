//! "The radio plan now allows a kiosk its whole claim and the replies to eight
//! pending claims each beat" and "After eight asked or helped, each remaining
//! claim that doesn't match stays pending and sends nothing."

use super::beaten;
use super::common::*;
use super::pictures::*;
use second::*;

#[test]
fn no_more_than_eight_are_all_replied_to() {
    for count in 0..=8 {
        for (sign, left) in [("1", "."), ("2", "."), ("?", "?")] {
            let row = sign.repeat(count);
            shows(&row, &row, &left.repeat(count));
        }
    }
    shows("?12?12?1", "?12?12?1", "?..?..?.");
    shows("21?21?21", "21?21?21", "..?..?..");
}

/// The ninth waits, whatever it and the eight before it are.
#[test]
fn of_nine_the_last_waits() {
    for last in ["?", "1", "2"] {
        for (eight, left) in [
            ("11111111", "........"),
            ("22222222", "........"),
            ("????????", "????????"),
            ("?12?12?1", "?..?..?."),
            ("2???????", ".???????"),
            ("???????2", "???????."),
        ] {
            shows(
                &format!("{eight}{last}"),
                &format!("{eight}."),
                &format!("{left}{last}"),
            );
        }
    }
}

#[test]
fn all_from_the_ninth_on_wait() {
    shows("1111111112", "11111111..", "........12");
    shows("22222222?12?12", "22222222......", "........?12?12");
    shows("????????222222", "????????......", "????????222222");
}

/// "asked or helped": asked ones count though they stay.
#[test]
fn asked_ones_count() {
    shows("???????12", "???????1.", "???????.2");
    shows("?1?1?1?1?1", "?1?1?1?1..", "?.?.?.?.?1");
    shows("1???????1", "1???????.", ".???????1");
}

/// "A beat needs 17 places": eight helped with in two claims each, and the
/// whole claim, are exactly as many.
#[test]
fn the_most_written_is_17_claims() {
    for row in [
        "2".repeat(8),
        "2".repeat(9),
        "2".repeat(64),
        "=".repeat(28) + &"2".repeat(8) + &"=".repeat(28),
    ] {
        let (claims, _) = beaten(node(&row));
        assert_eq!(claims.len(), 17);
        assert_eq!(claims[0], claim_of(&keys()));
        let mut run = [7; 4 * 17];
        assert_eq!(beat(node(&row), &mut run).written, 17);
        let mut frames = [0x66; 462];
        let image = image_of(&keys(), node(&row).table());
        let mut out = vec![0x55; IMAGE_MOST];
        assert_eq!(host::beat(&image, &mut out, &mut frames), 462);
        assert!(
            frames[..432]
                .chunks(108)
                .eq(claims[..16].chunks(4).map(frame_of))
        );
        assert_eq!(frames[432..], frame_of(&claims[16..]));
    }
}

/// With one claim fewer in a reply there are 16, and none in the place after.
#[test]
fn one_claim_less() {
    for row in ["12222222", "22222221", "2222?2222", "222222212222"] {
        let mut run = [7; 4 * 17];
        assert_eq!(beat(node(row), &mut run).written, 16);
        assert_eq!(run[64..], [7; 4]);
        assert_eq!(beaten(node(row)).0.len(), 16);
    }
}

/// "none if empty": a kiosk that holds nothing has nothing pending either.
#[test]
fn the_empty_store_and_the_empty_table() {
    assert_eq!(beaten(RawNode::empty()), (vec![], RawNode::empty()));
    shows("", "", "");
    let one = RawNode::of(RawStore::of(&[0]), &[]);
    assert_eq!(beaten(one.clone()), (vec![c(0, 0, 0, 1)], one));
}
