//! Full tables: "each remaining claim", to the last of 64.

use super::pictures::*;

/// Rows written one after another.
fn row(parts: &[(&str, usize)]) -> String {
    parts
        .iter()
        .map(|(part, times)| part.repeat(*times))
        .collect()
}

#[test]
fn of_64_alike_eight_are_replied_to() {
    for sign in ["1", "2"] {
        shows(
            &row(&[(sign, 64)]),
            &row(&[(sign, 8), (".", 56)]),
            &row(&[(".", 8), (sign, 56)]),
        );
    }
    shows(
        &row(&[("?", 64)]),
        &row(&[("?", 8), (".", 56)]),
        &row(&[("?", 64)]),
    );
}

/// Matches before the first reply, among the eight, and after the eighth, also
/// in the last place of all.
#[test]
fn matches_before_among_and_after() {
    shows(
        &row(&[("=", 5), ("2=", 7), ("2", 1), ("=1", 21), ("=", 2)]),
        &row(&[(".", 5), ("2.", 7), ("2", 1), ("..", 21), (".", 2)]),
        &row(&[(".", 5), ("..", 7), (".", 1), (".1", 21), (".", 2)]),
    );
    shows(
        &row(&[("=?12", 16)]),
        &row(&[(".?12", 2), (".?1.", 1), ("....", 13)]),
        &row(&[(".?..", 2), (".?.2", 1), (".?12", 13)]),
    );
    shows(
        &row(&[("?=", 8), ("=", 47), ("2", 1)]),
        &row(&[("?.", 8), (".", 48)]),
        &row(&[("?.", 8), (".", 47), ("2", 1)]),
    );
}

/// All of the eight at the end, behind matches.
#[test]
fn eight_at_the_end() {
    shows(
        &row(&[("=", 56), ("2", 8)]),
        &row(&[(".", 56), ("2", 8)]),
        &row(&[(".", 64)]),
    );
    shows(
        &row(&[("=", 55), ("2", 9)]),
        &row(&[(".", 55), ("2", 8), (".", 1)]),
        &row(&[(".", 63), ("2", 1)]),
    );
}

/// A match in each place behind eight helped with, and one in each place of
/// the table before claims that wait.
#[test]
fn one_match_in_each_place() {
    for place in 0..64 {
        let mut pending = row(&[("1", 64)]);
        pending.replace_range(place..place + 1, "=");
        // Eight are replied to: with a match among them they reach one on.
        let reach = if place <= 8 { 9 } else { 8 };
        let mut sends = row(&[("1", reach), (".", 64 - reach)]);
        let mut stays = row(&[(".", reach), ("1", 64 - reach)]);
        sends.replace_range(place..place + 1, ".");
        stays.replace_range(place..place + 1, ".");
        if place == 8 {
            // Just behind the eighth: nothing is in its stead.
            assert_eq!(sends, row(&[("1", 8), (".", 56)]));
        }
        shows(&pending, &sends, &stays);
    }
}
