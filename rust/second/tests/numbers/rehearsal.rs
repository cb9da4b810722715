//! The rehearsal program.

use super::MAX;
use super::common::*;
use second::*;

#[test]
fn rehearsals_refused() {
    let good = image_of_keys(&[1, 2]);
    let bad = image_of_keys(&[2, 1]);
    let many: Vec<u64> = (0..=LIMIT as u64).collect();
    let join = |parts: &[&[u8]]| rehearse(&parts.concat());
    // No input, and input that stops anywhere in the first.
    for length in 0..good.len() {
        assert_eq!(rehearse(&good[..length]), "refused 14\n");
    }
    // The rest is the second: none, cut, too long.
    assert_eq!(rehearse(&good), "refused 14\n");
    assert_eq!(join(&[&good, &good[..19]]), "refused 14\n");
    assert_eq!(join(&[&good, &good, &[0]]), "refused 14\n");
    assert_eq!(join(&[&good, &good, &good]), "refused 14\n");
    // The first is judged by 14 and 1 before the second.
    assert_eq!(join(&[&bad, &good]), "refused 1\n");
    assert_eq!(join(&[&bad, &good[..5]]), "refused 1\n");
    assert_eq!(rehearse(&bad), "refused 1\n");
    assert_eq!(join(&[&good, &bad]), "refused 1\n");
    assert_eq!(join(&[&image_of_keys(&many), &bad]), "refused 14\n");
    // A table out of order is an image out of order.
    let table = image_of(&[1, 2], &[c(1, 2, 0, 2)]);
    assert_eq!(join(&[&good, &table]), "refused 1\n");
    assert_eq!(join(&[&table, &good]), "refused 1\n");
    // A union of one key more than the limit.
    let (last, full) = many.split_last().unwrap();
    let (full, last) = (image_of_keys(full), image_of_keys(&[*last]));
    assert_eq!(join(&[&full, &last]), "refused 8\n");
}

/// Two equal stores of as many keys as "2,048 records" are enough for.
#[test]
fn the_longest_rehearsal() {
    let most = REHEARSAL_RECORDS / 2;
    let keys: Vec<u64> = (0..most as u64).collect();
    let Claim { lo, hi, sum, cnt } = claim_of(&keys);
    let lines = ["L", "R"].map(|sender| format!("{sender} {lo} {hi} {sum} {cnt}\n"));
    let counts = format!("left {most} right {most} claims 2\n");
    let image = image_of_keys(&keys);
    assert_eq!(
        rehearse(&[&image[..], &image].concat()),
        lines.concat() + &counts
    );
}

#[test]
fn rehearsals_without_deliveries_and_with_tables() {
    let empty: &[u8] = &[0, 0, 0, 0];
    assert_eq!(
        rehearse(&[empty, empty].concat()),
        "left 0 right 0 claims 0\n"
    );
    // Only stores take part.
    let table = image_of(&[1, 2], &[c(1, 2, 3, 2)]);
    assert_eq!(
        rehearse(&[&table, empty].concat()),
        "L 1 2 3 2\nR 1 2 3 2\nleft 2 right 2 claims 2\n"
    );
    // Base ten, all 64 bits.
    let largest = image_of_keys(&[MAX]);
    assert_eq!(
        rehearse(&[empty, &largest].concat()),
        "R 18446744073709551615 18446744073709551615 18446744073709551615 1\n\
         left 1 right 1 claims 1\n"
    );
}

#[test]
fn rehearsals_of_images_with_claims_left_out() {
    // The first is as long as its counts say, what is left out counted.
    let pending = [c(1, 16, 17, 2), three(1, 20, 16)];
    let image = image_of(&[1, 16], &pending);
    let empty: &[u8] = &[0, 0, 0, 0];
    let lines = "L 1 16 17 2\nR 1 16 17 2\nleft 2 right 2 claims 2\n";
    assert_eq!(rehearse(&[&image, empty].concat()), lines);
    assert_eq!(rehearse(&[&image[..], &image[..]].concat()), lines);
    assert_eq!(
        rehearse(&[empty, &image].concat()),
        "R 1 16 17 2\nleft 2 right 2 claims 1\n"
    );
    let swapped = image_of(&[1, 16], &[pending[1], pending[0]]);
    let not_held = image_of(&[1, 16], &[three(1, 20, 15)]);
    for bad in [swapped, not_held] {
        assert_eq!(rehearse(&[&bad, empty].concat()), "refused 1\n");
        assert_eq!(rehearse(&[empty, &bad].concat()), "refused 1\n");
    }
    assert_eq!(rehearse(&image), "refused 14\n");
    assert_eq!(rehearse(&[empty, &image[1..]].concat()), "refused 14\n");
}
