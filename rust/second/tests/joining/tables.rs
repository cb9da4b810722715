//! "Its pending claims are those of both, equal ones once, in table order, the
//! first 64 kept."

use super::common::*;
use super::joined;
use second::*;

/// The keys of every image here.
fn keys() -> Vec<u64> {
    (0..200).collect()
}

fn image(table: &[Claim]) -> Vec<u8> {
    image_of(&keys(), table)
}

/// So many claims in table order, with cnt 1, 2 and more, none to leave out.
fn in_order(count: usize) -> Vec<Claim> {
    let ones = (0..20).map(|key| c(key, key, key, 1));
    let twos = (0..20).map(|lo| c(lo, lo + 9, lo ^ (lo + 9), 2));
    let threes = (0..20).map(|lo| three(lo, lo + 1, lo + 9));
    let more = (0..70).map(|sum| c(7, 190, sum, 60));
    let all = ones.chain(twos).chain(threes).chain(more);
    let all: Vec<Claim> = all.take(count).collect();
    assert!(all.is_sorted_by(|one, other| one.rank() < other.rank()));
    assert_eq!(all.len(), count);
    all
}

/// What two tables become, in images of the same keys.
fn become_of(first: &[Claim], second: &[Claim], expected: &[Claim]) {
    assert_eq!(joined(&image(first), &image(second)), image(expected));
}

/// Claims at every other place, from the first or the second on.
fn every_other(claims: &[Claim], from: usize) -> Vec<Claim> {
    claims[from..].iter().step_by(2).copied().collect()
}

#[test]
fn full_tables_with_no_equal_claims() {
    let all = in_order(128);
    let (lower, upper) = all.split_at(64);
    become_of(lower, upper, lower);
    become_of(&every_other(&all, 0), &every_other(&all, 1), lower);
    let ends = [&all[..32], &all[96..]].concat();
    become_of(&ends, &all[32..96], lower);
}

/// 30 of both, 34 of each alone: 98 different ones.
#[test]
fn full_tables_with_thirty_equal_claims() {
    let all = in_order(98);
    become_of(&all[..64], &all[34..], &all[..64]);
    // The equal ones before all others, and after them.
    let (lower, rest) = all.split_at(30);
    let one = [lower, &every_other(rest, 0)].concat();
    let other = [lower, &every_other(rest, 1)].concat();
    assert_eq!((one.len(), other.len()), (64, 64));
    become_of(&one, &other, &all[..64]);
    let (rest, upper) = all.split_at(68);
    let one = [&every_other(rest, 0), upper].concat();
    let other = [&every_other(rest, 1), upper].concat();
    become_of(&one, &other, &all[..64]);
}

#[test]
fn full_tables_with_all_claims_equal() {
    let all = in_order(90);
    become_of(&all[..64], &all[..64], &all[..64]);
    become_of(&all[26..], &all[26..], &all[26..]);
}

/// Two tables with so many different claims together, parted at each place or
/// with one claim alone: of 65 the last falls, whosever it is.
#[test]
fn tables_with_64_or_65_different_claims() {
    for count in [63, 64, 65] {
        let all = in_order(count);
        let kept = &all[..count.min(64)];
        for at in 0..count {
            let mut others = all.clone();
            let alone = others.remove(at);
            become_of(&others, &[alone], kept);
        }
        for at in 2..count {
            become_of(&all[..at], &all[at..], kept);
            // The one before that place in both.
            become_of(&all[..at], &all[at - 1..], kept);
        }
    }
}

/// Table order is "by cnt, then lo, hi, sum" (document 01): of two claims after
/// 63 others the one that is less by each in turn is kept, though the fields
/// after that one are greater.
#[test]
fn of_65_the_last_by_each_field_falls() {
    let others = &in_order(63);
    for (less, more) in [
        (c(80, 190, 9, 70), c(70, 180, 8, 71)),
        (c(70, 190, 9, 70), c(80, 180, 8, 70)),
        (c(70, 180, 9, 70), c(70, 190, 8, 70)),
        (c(70, 180, 8, 70), c(70, 180, 9, 70)),
        (c(70, 180, 255, 70), c(70, 180, 256, 70)),
        (c(7, 190, 9_999, 60), c(7, 190, 10_000, 60)),
    ] {
        let kept = [&others[..], &[less]].concat();
        become_of(&kept, &[more], &kept);
        become_of(&[&others[..], &[more]].concat(), &[less], &kept);
        become_of(others, &[less, more], &kept);
    }
}

/// What slip 2 leaves out takes none of the 64 places, whichever image it was
/// in; it comes before the claims of more than three in table order.
#[test]
fn what_is_left_out_makes_room() {
    let bad: Vec<Claim> = (2..66).map(|hi| three(0, hi, hi)).collect();
    let good: Vec<Claim> = (0..64).map(|sum| c(7, 190, sum, 60)).collect();
    become_of(&bad, &good, &good);
    become_of(&bad, &bad, &[]);
    become_of(&bad, &[], &[]);
    for at in [1, 32, 63] {
        let one = [&bad[at..], &good[..at]].concat();
        become_of(&one, &good, &good);
        become_of(&one, &good[at..], &good);
        let other = [&bad[64 - at..], &good[at..]].concat();
        become_of(&one, &other, &good);
        become_of(&one, &one, &good[..at]);
    }
}

/// The claims of one image have their ends in it, and so in the union.
#[test]
fn tables_over_different_keys() {
    let first = image_of(&[5, 8], &[c(5, 5, 5, 1), c(5, 8, 1, 4)]);
    let second = image_of(&[0, 6], &[c(6, 6, 6, 1), c(0, 6, 6, 2), c(0, 6, 1, 4)]);
    let both = image_of(
        &[0, 5, 6, 8],
        &[
            c(5, 5, 5, 1),
            c(6, 6, 6, 1),
            c(0, 6, 6, 2),
            c(0, 6, 1, 4),
            c(5, 8, 1, 4),
        ],
    );
    assert_eq!(joined(&first, &second), both);
}
