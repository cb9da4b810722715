//! "The rehearsal program still lends 2,048 records, so unions of 1,025 to
//! 2,048 keys get 9 there."

use super::common::*;
use super::images::table_of_tens;
use super::unions::{pairs_of, refused_round};
use super::{drawn, tens};
use second::*;

/// The most keys that a rehearsal has records for, two for each.
const REHEARSED_MOST: usize = REHEARSAL_RECORDS / 2;

/// The rehearsal of two stores with nothing pending.
fn rehearsed(pair: &[RawStore; 2]) -> String {
    let images = pair.each_ref().map(|store| image_of_keys(store.held()));
    rehearse(&images.concat())
}

/// "still lends 2,048 records": unions of up to half as many keys run, as the
/// round does that is lent as many.
#[test]
fn unions_that_the_records_are_enough_for() {
    assert_eq!(REHEARSAL_RECORDS, 2_048);
    for_seeds(1, |rng| {
        for union in [REHEARSED_MOST - 1, REHEARSED_MOST] {
            for pair in pairs_of(&drawn(rng, union)) {
                let lines = rehearsed(&pair);
                let [left, right] = pair;
                let mut records = vec![Delivery::default(); REHEARSAL_RECORDS];
                let rounded = round(left, right, &mut records);
                assert_eq!(rounded.number, 0);
                let (left, right) = (rounded.left.count, rounded.right.count);
                let claims = rounded.deliveries;
                let last = format!("left {left} right {right} claims {claims}");
                assert_eq!(lines.lines().last(), Some(last.as_str()));
                assert_eq!(lines.lines().count(), claims + 1);
            }
        }
    });
}

/// "so unions of 1,025 to 2,048 keys get 9 there", and larger ones 8, as the
/// round does that is lent as many records.
#[test]
fn unions_that_the_records_are_too_few_for() {
    for_seeds(1, |rng| {
        for (union, number) in [
            (REHEARSED_MOST + 1, 9),
            (LIMIT - 1, 9),
            (LIMIT, 9),
            (LIMIT + 1, 8),
        ] {
            for pair in pairs_of(&drawn(rng, union)) {
                assert_eq!(rehearsed(&pair), format!("refused {number}\n"));
                assert_eq!(refused_round(pair, REHEARSAL_RECORDS), number);
            }
        }
    });
}

/// The images are judged first, then the union by 8 and 9.
#[test]
fn rehearsals_of_full_images_are_judged_in_order() {
    let (keys, pending) = (tens(LIMIT), table_of_tens());
    let full = image_of(&keys, &pending);
    let empty = image_of_keys(&[]);
    let join = |parts: [&[u8]; 2]| rehearse(&parts.concat());
    assert_eq!(join([&full, &full]), "refused 9\n");
    assert_eq!(join([&full, &empty]), "refused 9\n");
    assert_eq!(join([&empty, &full]), "refused 9\n");
    assert_eq!(join([&full, &image_of_keys(&[1])]), "refused 8\n");
    assert_eq!(join([&full, &image_of_keys(&[2, 1])]), "refused 1\n");
    assert_eq!(join([&full, &empty[1..]]), "refused 14\n");
    assert_eq!(join([&full[..IMAGE_MOST - 1], &[]]), "refused 14\n");
    let more = image_of_keys(&tens(LIMIT + 1));
    assert_eq!(join([&full, &more]), "refused 14\n");
    assert_eq!(join([&more, &full]), "refused 14\n");
}
