//! "Its pending claims are those of both, equal ones once, in table order, the
//! first 64 kept": tables by hand.

use second::{Claim, PENDING};
use tests::draw::{claim_of, image_of};
use tests::middle::three;

use super::{LIMIT, joined, longest};

/// The keys of all images here.
fn keys() -> Vec<u64> {
    (0..600).collect()
}

/// So many claims in table order, of one key, of two, of three and of more.
fn in_order(count: usize) -> Vec<Claim> {
    let ones = (0..20).map(|key| claim_of(&[key]));
    let twos = (0..20).map(|lo| claim_of(&[lo, lo + 9]));
    let threes = (0..20).map(|lo| three(lo, lo + 1, lo + 9));
    let more = (0..80).map(|sum| Claim::new(7, 190, sum, 60));
    let all = ones.chain(twos).chain(threes).chain(more);
    let all: Vec<Claim> = all.take(count).collect();
    assert!(all.is_sorted_by(|one, other| one.rank() < other.rank()));
    assert_eq!(all.len(), count);
    all
}

/// What two tables become.
fn expect(first: &[Claim], second: &[Claim], expected: &[Claim]) {
    let [first, second, expected] = [first, second, expected].map(|it| image_of(&keys(), it));
    assert!(joined(&first, &second) == expected);
}

/// Two tables of 64 with so many equal claims; the others go to the tables in
/// turns, or first to the one and then to the other.
fn full_tables(equal: usize) {
    let all = in_order(2 * PENDING - equal);
    // The equal ones before all others, among them and after them.
    for at in [0, (all.len() - equal) / 2, all.len() - equal] {
        let (shared, others) = (
            &all[at..at + equal],
            [&all[..at], &all[at + equal..]].concat(),
        );
        let (lower, upper) = others.split_at(others.len() / 2);
        let [even, odd] = [0, 1]
            .map(|first| -> Vec<Claim> { others.iter().copied().skip(first).step_by(2).collect() });
        for [one, other] in [[lower, upper], [&even, &odd]] {
            let [one, other] = [one, other].map(|own| {
                let mut table = [own, shared].concat();
                table.sort_by_key(Claim::rank);
                assert_eq!(table.len(), PENDING);
                table
            });
            expect(&one, &other, &all[..PENDING]);
        }
    }
}

#[test]
fn full_tables_with_0_30_and_64_equal_claims() {
    [0, 30, PENDING].into_iter().for_each(full_tables);
}

/// Of 65 the last in order is dropped, whosever it is; of fewer none.
#[test]
fn tables_with_63_to_65_different_claims() {
    for count in [63, 64, 65] {
        let all = in_order(count);
        let first_64 = &all[..count.min(PENDING)];
        for at in 0..count {
            let mut others = all.clone();
            let alone = others.remove(at);
            expect(&others, &[alone], first_64);
        }
        for at in 2..count {
            expect(&all[..at], &all[at..], first_64);
            expect(&all[..at], &all[at - 1..], first_64);
        }
    }
}

/// "by cnt, then lo, hi, sum" (document 01): after 63 others the lesser of two
/// is kept, by each of these in turn, though what comes behind it is greater.
#[test]
fn of_65_the_last_by_each_field_is_dropped() {
    let others = in_order(63);
    for (less, more) in [
        (Claim::new(80, 190, 9, 70), Claim::new(70, 180, 8, 71)),
        (Claim::new(70, 190, 9, 70), Claim::new(80, 180, 8, 70)),
        (Claim::new(70, 180, 9, 70), Claim::new(70, 190, 8, 70)),
        (Claim::new(70, 180, 8, 70), Claim::new(70, 180, 9, 70)),
        (Claim::new(70, 180, 255, 70), Claim::new(70, 180, 256, 70)),
        (Claim::new(70, 580, 9, 255), Claim::new(60, 570, 8, 256)),
    ] {
        let kept = [&others[..], &[less]].concat();
        expect(&kept, &[more], &kept);
        expect(&[&others[..], &[more]].concat(), &[less], &kept);
        expect(&others, &[less, more], &kept);
    }
}

/// What slip 2 leaves out takes no place from others, whichever image has it.
#[test]
fn what_is_left_out_makes_room() {
    let bad: Vec<Claim> = (2..66).map(|hi| three(0, hi, hi)).collect();
    let good: Vec<Claim> = (0..64).map(|sum| Claim::new(7, 190, sum, 60)).collect();
    expect(&bad, &good, &good);
    expect(&bad, &bad, &[]);
    expect(&bad, &[], &[]);
    for at in [1, 32, 63] {
        let one = [&bad[at..], &good[..at]].concat();
        let other = [&bad[64 - at..], &good[at..]].concat();
        expect(&one, &good, &good);
        expect(&one, &good[at..], &good);
        expect(&one, &other, &good);
        expect(&one, &one, &good[..at]);
    }
}

/// Beside all the keys that fit: tables of claims with other sums, and of claims
/// of fewer keys, which come before.
#[test]
fn full_tables_of_full_images() {
    const ALL: u16 = LIMIT as u16;
    let image = longest(ALL, 0);
    assert!(joined(&image, &longest(ALL, 64)) == image);
    assert!(joined(&image, &longest(ALL, 30)) == image);
    let fewer = longest(ALL - 1, 500);
    assert!(joined(&image, &fewer) == fewer);
}
