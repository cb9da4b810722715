//! The wall sheet of an image by hand: line by line, at the ends of pages, and
//! with buffers that are exactly long enough, too short and longer.

#[path = "../../second/tests/common/mod.rs"]
mod common;

use common::{PAGES, c, even, full_image, image_of, image_of_keys, three};
use minutefrost::*;
use second::Claim;

const LIMIT: u64 = KEYS_MOST as u64;

/// The bytes of a sheet's line, the line feed with them.
const LINE: usize = 63;

/// The sheet of an image, which has so many lines: a buffer of just its length
/// is enough, one byte less is refused, and behind it nothing is written.
fn sheet_of(image: &[u8], lines: usize) -> String {
    let length = LINE * lines;
    let mut short = vec![0xA5; length - 1];
    assert_eq!(sheet(image, &mut short).unwrap_err().number(), 15);
    assert!(short.iter().all(|&byte| byte == 0xA5));
    let sheets = [0, 1, 40, SHEET_MOST].map(|spare| {
        let mut out = vec![0xA5; length + spare];
        assert_eq!(sheet(image, &mut out), Ok(length));
        assert!(out[length..].iter().all(|&byte| byte == 0xA5));
        out.truncate(length);
        out
    });
    let [text, ..] = &sheets;
    assert!(sheets.iter().all(|other| other == text));
    String::from_utf8(text.clone()).unwrap()
}

#[test]
fn a_sheet_is_laid_out_line_by_line() {
    let head = "page    1 of    1                                             ";
    let max = u64::MAX;
    for (keys, lines) in [
        (&[][..], &[][..]),
        (
            &[0],
            &["                   0                                          "],
        ),
        (
            &[max],
            &["18446744073709551615                                          "],
        ),
        (
            &[0, max],
            &["                   0 18446744073709551615                     "],
        ),
        (
            &[9, 10, 100],
            &["                   9                   10                  100"],
        ),
        (
            &[0, 7, max - 1, max],
            &[
                "                   0                    7 18446744073709551614",
                "18446744073709551615                                          ",
            ],
        ),
    ] {
        let expected = [&[head], lines, &[""]].concat().join("\n");
        let told = sheet_of(&image_of_keys(keys), 1 + lines.len());
        assert_eq!(told, expected, "{keys:?}");
    }
}

/// The sheet of these keys by way of strings, where it has so many pages.
fn sheet_by_strings(keys: &[u64], pages: usize) -> String {
    let fields: Vec<String> = keys.iter().map(|key| format!("{key:>20}")).collect();
    let lines: Vec<String> = fields.chunks(3).map(|line| line.join(" ")).collect();
    let mut rest = lines.chunks(40);
    let mut sheet = String::new();
    for page in 1..=pages {
        let head = format!("page {page:>4} of {pages:>4}");
        let lines = rest.next().unwrap_or_default();
        for line in [&head].into_iter().chain(lines) {
            sheet += &format!("{line:<62}\n");
        }
    }
    assert_eq!(rest.next(), None);
    sheet
}

/// The head line isn't one of a page's 40.
#[test]
fn a_page_has_forty_lines() {
    for (count, pages, on_the_last) in PAGES {
        // 0, 1, 32, 243, … and the largest key.
        let mut keys: Vec<u64> = (0..count as u64).map(|at| at.pow(5)).collect();
        if let Some(last) = keys.last_mut() {
            *last = u64::MAX;
        }
        let lines = 41 * (pages - 1) + 1 + on_the_last;
        let told = sheet_of(&image_of_keys(&keys), lines);
        assert_eq!(told, sheet_by_strings(&keys, pages), "{count} keys");
    }
}

#[test]
fn keys_of_every_length_are_told_on_a_sheet() {
    let powers = (0..20).map(|digits| 10_u64.pow(digits));
    let mut keys: Vec<u64> = powers.flat_map(|power| [power - 1, power]).collect();
    keys.extend([u64::MAX - 1, u64::MAX]);
    let told = sheet_of(&image_of_keys(&keys), 15);
    assert_eq!(told, sheet_by_strings(&keys, 1));
}

#[test]
fn the_longest_sheet_fits() {
    let (lines, pages) = (KEYS_MOST.div_ceil(3), KEYS_MOST.div_ceil(3 * 40));
    let told = sheet_of(&image_of_keys(&even(LIMIT)), lines + pages);
    assert_eq!(told.len(), SHEET_MOST);
    assert_eq!(told, sheet_by_strings(&even(LIMIT), pages));
}

/// Those that 16 refuses don't keep an image from having a sheet.
#[test]
fn pending_claims_are_not_on_the_sheet() {
    let [own, good] = [c(1, 16, 17, 2), three(1, 2, 16)];
    let [above, at_hi] = [three(1, 20, 16), three(1, 16, 16)];
    let told = sheet_of(&image_of_keys(&[1, 16]), 2);
    for mut pending in [
        vec![own],
        vec![own, good],
        vec![above],
        vec![above, at_hi],
        vec![own, above, at_hi, good],
    ] {
        pending.sort_by_key(Claim::rank);
        let image = image_of(&[1, 16], &pending);
        assert_eq!(sheet_of(&image, 2), told, "{pending:?}");
    }
    // Full, with full tables: 16 refuses each of the claims of three.
    let lines = SHEET_MOST / LINE;
    let told = sheet_of(&image_of_keys(&even(LIMIT)), lines);
    for cnt in [2, 3, KEYS_MOST as u16] {
        assert_eq!(sheet_of(&full_image(cnt), lines), told);
    }
}
