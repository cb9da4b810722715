//! Both READMEs have numbers for people: each is the one of the calls and
//! constants.

#[path = "../../second/tests/common/mod.rs"]
mod common;

use common::{c, frame_of};
use minutefrost::{FRAME_MOST, IMAGE_MOST, KEYS_MOST, SHEET_MOST, opening_cost};

const OWN: &str = include_str!("../README.md");
const TOP: &str = include_str!("../../../README.md");

/// A number below a million, with a comma before its last three digits.
fn with_comma(number: usize) -> String {
    match number {
        0..1_000 => number.to_string(),
        _ => format!("{},{:03}", number / 1_000, number % 1_000),
    }
}

/// Fails unless a README has these words, wherever its lines end.
fn expect(readme: &str, words: &str) {
    let told = readme.split_whitespace().collect::<Vec<_>>().join(" ");
    assert!(told.contains(words), "{words}");
}

#[test]
fn both_tell_the_sizes() {
    let [keys, image, sheet] = [KEYS_MOST, IMAGE_MOST, SHEET_MOST].map(with_comma);
    for readme in [OWN, TOP] {
        expect(readme, &format!("at most {image} bytes"));
        expect(readme, &format!("{keys} keys"));
    }
    expect(OWN, &format!("at most {FRAME_MOST} bytes"));
    expect(OWN, &format!("the longest, of {keys} keys"));
    expect(OWN, &format!("has `SHEET_MOST`, {sheet}."));
}

/// A line for each of some numbers of keys, in columns, where a delivery has so
/// many bytes.
fn lines_of_costs(bytes: usize) -> Vec<String> {
    let rows = [100, 1_000, KEYS_MOST].map(|keys| {
        let deliveries = opening_cost(keys).unwrap();
        [keys, deliveries, bytes * deliveries].map(with_comma)
    });
    let width = |column: usize| rows.iter().map(|row| row[column].len()).max().unwrap();
    let [keys, deliveries, bytes] = [0, 1, 2].map(width);
    let line = |row: &[String; 3]| {
        let [k, d, b] = row;
        format!("{k:>keys$} keys: {d:>deliveries$} deliveries, {b:>bytes$} bytes\n")
    };
    rows.iter().map(line).collect()
}

#[test]
fn both_tell_costs() {
    let bytes = frame_of(&[c(7, 7, 7, 1)]).len();
    let lines = lines_of_costs(bytes);
    let fenced = format!("\n```text\n{}```\n", lines.concat());
    let indented = format!("\n    {}\n", lines.join("    "));
    for (readme, block) in [(OWN, fenced), (TOP, indented)] {
        assert!(readme.contains(&block), "{block}");
        expect(readme, &format!("takes {bytes} bytes"));
    }
}
