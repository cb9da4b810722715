//! "Two images become one. Its keys are the union. Its pending claims are those
//! of both, equal ones once, in table order, the first 64 kept. The images
//! given in the other order make the same bytes": random pairs.

use super::common::*;
use super::drawn::pair;
use super::model::{Sets, together, told, used};
use super::{NEEDED, answered, joined, refused};
use second::*;

/// Notes which way the keys of a pair go.
fn saw_keys(ways: &Ways, first: &Sets, second: &Sets) {
    let both = (&first.keys & &second.keys).len();
    let counts = [first.keys.len(), second.keys.len()];
    match counts {
        [0, 0] => ways.saw("both empty"),
        [0, _] => ways.saw("first empty"),
        [_, 0] => ways.saw("second empty"),
        _ if both == 0 => ways.saw("no key of both"),
        [one, other] if one == both && other == both => ways.saw("the same keys"),
        [one, _] if one == both => ways.saw("all keys of the first in the second"),
        [_, other] if other == both => ways.saw("all keys of the second in the first"),
        _ => ways.saw("some keys of both"),
    }
    if (&first.keys | &second.keys).len() == LIMIT {
        ways.saw("a full union");
    }
}

const KEY_WAYS: [&str; 8] = [
    "both empty",
    "first empty",
    "second empty",
    "no key of both",
    "the same keys",
    "all keys of the first in the second",
    "all keys of the second in the first",
    "some keys of both",
];

/// Notes which way the tables of a pair go.
fn saw_tables(ways: &Ways, images: [&[u8]; 2]) {
    let [first, second] = images.map(used);
    let both = first.union(&second).claims;
    match (&first.claims & &second.claims).len() {
        0 => ways.saw("no equal claims"),
        equal if equal == both.len() => ways.saw("all claims equal"),
        _ => ways.saw("some equal claims"),
    }
    match both.len() {
        ..64 => ways.saw("fewer than 64"),
        64 => ways.saw("just 64"),
        65.. => ways.saw("more than 64"),
    }
    for dropped in both.iter().skip(64) {
        match (
            first.claims.contains(dropped),
            second.claims.contains(dropped),
        ) {
            (true, false) => ways.saw("dropped, of the first"),
            (false, true) => ways.saw("dropped, of the second"),
            _ => ways.saw("dropped, of both"),
        }
    }
    saw_left_out(ways, images);
}

/// Notes what slip 2 leaves out of a pair, and whether that comes before 64
/// are kept.
fn saw_left_out(ways: &Ways, images: [&[u8]; 2]) {
    let [first, second] = images.map(|image| &Sets::of(image).claims - &used(image).claims);
    match (first.is_empty(), second.is_empty()) {
        (true, true) => ways.saw("nothing left out"),
        (false, true) => ways.saw("left out of the first"),
        (true, false) => ways.saw("left out of the second"),
        _ if first.is_disjoint(&second) => ways.saw("left out of either"),
        _ => ways.saw("one left out of both"),
    }
    let [first, second] = images;
    let all = Sets::of(first).union(&Sets::of(second)).cut().image();
    if without_left_out(&all) != told(first, second) {
        ways.saw("another image if left out later");
    }
}

const TABLE_WAYS: [&str; 15] = [
    "no equal claims",
    "all claims equal",
    "some equal claims",
    "fewer than 64",
    "just 64",
    "more than 64",
    "dropped, of the first",
    "dropped, of the second",
    "dropped, of both",
    "nothing left out",
    "left out of the first",
    "left out of the second",
    "left out of either",
    "one left out of both",
    "another image if left out later",
];

/// Each pair becomes the image told by sets, or has too many keys by them; so
/// does the pair turned, which answers the same.
#[test]
fn random_pairs_and_the_pairs_turned() {
    let ways = Ways::default();
    for_seeds(600, |rng| {
        let [first, second] = pair(rng);
        assert_eq!([&first, &second].map(|it| read_image(it).number), [0, 0]);
        if together(&first, &second).keys.len() > LIMIT {
            ways.saw("too many keys");
            assert_eq!(refused(&first, &second, NEEDED), 8);
            assert_eq!(refused(&second, &first, NEEDED), 8);
            return;
        }
        saw_keys(&ways, &used(&first), &used(&second));
        saw_tables(&ways, [&first, &second]);
        assert_eq!(joined(&first, &second), told(&first, &second));
        assert_eq!(
            answered(&first, &second, NEEDED),
            answered(&second, &first, NEEDED)
        );
    });
    ways.all_of(&KEY_WAYS);
    ways.all_of(&TABLE_WAYS);
    ways.all_of(&["too many keys", "a full union"]);
}

/// Of three cards it makes no difference which two are joined first, nor
/// whether one of them is joined again.
#[test]
fn three_cards_in_any_order() {
    let ways = Ways::default();
    for_seeds(150, |rng| {
        let [first, second] = pair(rng);
        let [third, _] = pair(rng);
        let [one, two, three] = [first, second, third].map(|it| used(&it));
        let all = one.union(&two).union(&three);
        if all.keys.len() > LIMIT {
            ways.saw("too many keys");
            return;
        }
        ways.saw(if all.claims.len() > 64 { "cut" } else { "all" });
        let [one, two, three] = [one, two, three].map(|it| it.image());
        let left = joined(&joined(&one, &two), &three);
        assert_eq!(left, all.cut().image());
        assert_eq!(joined(&one, &joined(&two, &three)), left);
        assert_eq!(joined(&left, &two), left);
    });
    ways.all_of(&["cut", "all"]);
}
