//! Of document 02 slip 4, "The wall sheet": as a call on a store, as a host
//! call on an image and as the program `wallsheet`.

mod common;

use std::cell::RefCell;
use std::collections::BTreeSet;

use common::*;
use second::*;

const MAX: u64 = u64::MAX;

/// The sheet of keys in order by a call on their store, in a buffer of just
/// its length. The other two ways give the same bytes.
fn sheet_of(keys: &[u64], length: usize) -> String {
    let mut sheet = vec![0x55; length];
    let written = write_sheet(&RawStore::of(keys), &mut sheet);
    assert_eq!((written.number, written.length), (0, length));
    let image = image_of_keys(keys);
    let mut out = vec![0x66; length];
    assert_eq!(host::sheet(&image, &mut out), length as i64);
    assert_eq!(out, sheet);
    assert_eq!(wallsheet(&image), sheet);
    String::from_utf8(sheet).unwrap()
}

/// The sheet of these keys is these lines, each with a line feed.
fn prints(keys: &[u64], lines: &[&str]) {
    let expected: String = lines.iter().map(|line| format!("{line}\n")).collect();
    assert_eq!(sheet_of(keys, 63 * lines.len()), expected);
}

// ---- small stores, line by line ----

/// The head line of a sheet of one page.
const ONLY: &str = "page    1 of    1                                             ";

/// "An empty store is one page with its head line only."
#[test]
fn the_sheet_of_the_empty_store() {
    prints(&[], &[ONLY]);
}

#[test]
fn sheets_of_one_key() {
    prints(
        &[7],
        &[
            ONLY,
            "                   7                                          ",
        ],
    );
    // A key of one digit.
    prints(
        &[0],
        &[
            ONLY,
            "                   0                                          ",
        ],
    );
    // A key that takes up its field.
    prints(
        &[MAX],
        &[
            ONLY,
            "18446744073709551615                                          ",
        ],
    );
}

/// "Keys go in rising order along the line, and unused fields are spaces."
#[test]
fn sheets_of_two_three_and_four_keys() {
    prints(
        &[0, MAX],
        &[
            ONLY,
            "                   0 18446744073709551615                     ",
        ],
    );
    prints(
        &[9, 10, 100],
        &[
            ONLY,
            "                   9                   10                  100",
        ],
    );
    prints(
        &[MAX - 2, MAX - 1, MAX],
        &[
            ONLY,
            "18446744073709551613 18446744073709551614 18446744073709551615",
        ],
    );
    prints(
        &[1, 2, 3, 10_000_000_000_000_000_000],
        &[
            ONLY,
            "                   1                    2                    3",
            "10000000000000000000                                          ",
        ],
    );
}

/// "base-ten digits" of every length, right-aligned, beside the edges where
/// they become one more.
#[test]
fn keys_of_every_length() {
    let mut keys = vec![0];
    for exponent in 0..20 {
        let power = 10_u64.pow(exponent);
        keys.extend([power - 1, power, power + 1]);
    }
    keys.extend([MAX / 10, MAX - 1, MAX]);
    keys.sort_unstable();
    keys.dedup();
    let sheet = sheet_of(&keys, 63 * (1 + keys.len().div_ceil(3)));
    let fields = fields_of(sheet.lines().skip(1));
    for (field, key) in fields.iter().zip(&keys) {
        assert_eq!(*field, format!("{key:>20}"));
    }
    assert_eq!(keys_on(&fields), keys);
}

// ---- sheets of one page and more ----

/// The three fields of each line.
fn fields_of<'a>(lines: impl Iterator<Item = &'a str>) -> Vec<&'a str> {
    lines
        .flat_map(|line| {
            assert_eq!((&line[20..21], &line[41..42]), (" ", " "));
            [&line[..20], &line[21..41], &line[42..]]
        })
        .collect()
}

/// The keys that fields tell, the unused ones behind them.
fn keys_on(fields: &[&str]) -> Vec<u64> {
    let used = fields.partition_point(|field| !field.trim().is_empty());
    assert!(fields[used..].iter().all(|field| *field == " ".repeat(20)));
    let key = |field: &&str| field.trim_start().parse().unwrap();
    fields[..used].iter().map(key).collect()
}

/// So many keys of one digit and of twenty, and of all lengths between.
fn spread(count: usize) -> Vec<u64> {
    let mut keys: Vec<u64> = (0..count as u64)
        .map(|at| match at % 3 {
            0 => at,
            1 => MAX - at,
            _ => (1_000_003 + at) << (at % 40),
        })
        .collect();
    keys.sort_unstable();
    assert!(keys.is_sorted_by(|lower, upper| lower < upper));
    keys
}

/// "A page has 40 lines, the last page only those it needs. Above each page
/// stands a line of 62".
#[test]
fn pages_with_their_heads_lines_and_keys() {
    for (count, pages, last) in PAGES {
        let keys = spread(count);
        let lines = (pages - 1) * 41 + 1 + last;
        let sheet = sheet_of(&keys, 63 * lines);
        for line in sheet.as_bytes().chunks(63) {
            assert_eq!((line.len(), line[62]), (63, b'\n'));
            let digits = |byte: &u8| *byte == b' ' || byte.is_ascii_digit();
            assert!(line.starts_with(b"page ") || line[..62].iter().all(digits));
        }
        let lines: Vec<&str> = sheet.lines().collect();
        let mut held = Vec::new();
        for (at, page) in lines.chunks(41).enumerate() {
            let head = format!("page {:>4} of {pages:>4}", at + 1);
            assert_eq!(page[0], format!("{head:<62}"));
            let full = at + 1 < pages;
            assert_eq!(page.len() - 1, if full { 40 } else { last });
            let page_keys = keys_on(&fields_of(page[1..].iter().copied()));
            assert!(!full || page_keys.len() == 120);
            held.extend(page_keys);
        }
        assert_eq!(lines.chunks(41).len(), pages);
        assert_eq!(held, keys);
        let heads = lines.iter().filter(|line| line.starts_with('p'));
        assert_eq!(heads.count(), pages);
    }
}

/// The lines around the ends of pages of 241 keys.
#[test]
fn a_sheet_of_three_pages() {
    let keys: Vec<u64> = (1..=241).collect();
    let sheet = sheet_of(&keys, 5_292);
    let lines: Vec<&str> = sheet.lines().collect();
    let first_page = [
        "page    1 of    3                                             ",
        "                   1                    2                    3",
    ];
    let first_to_second = [
        "                 118                  119                  120",
        "page    2 of    3                                             ",
        "                 121                  122                  123",
    ];
    let second_to_third = [
        "                 238                  239                  240",
        "page    3 of    3                                             ",
        "                 241                                          ",
    ];
    assert_eq!(lines[..2], first_page);
    assert_eq!(lines[40..43], first_to_second);
    assert_eq!(lines[81..], second_to_third);
}

#[test]
fn the_longest_sheet() {
    // The lines with keys and the head lines.
    let (key_lines, pages) = (LIMIT.div_ceil(3), LIMIT.div_ceil(120));
    assert_eq!(SHEET_MOST, 63 * (key_lines + pages));
    let keys = full(3).keys;
    let sheet = sheet_of(&keys[..], SHEET_MOST);
    let lines: Vec<&str> = sheet.lines().collect();
    let last_head = format!("page {pages:>4} of {pages:>4}");
    assert_eq!(lines[41 * (pages - 1)], format!("{last_head:<62}"));
    let last: Vec<String> = keys[3 * (key_lines - 1)..]
        .iter()
        .map(|key| format!("{key:>20}"))
        .collect();
    let last = format!("{:<62}", last.join(" "));
    assert_eq!(lines.last(), Some(&last.as_str()));
    // No sheet is shorter than one of fewer keys.
    let mut before = 0;
    for count in 0..=LIMIT {
        let store = RawStore::of(&full(1).keys[..count]);
        let length = write_sheet(&store, &mut vec![0; SHEET_MOST]).length;
        assert!(before <= length && length.is_multiple_of(63));
        before = length;
    }
    assert_eq!(before, SHEET_MOST);
}

// ---- lent output ----

/// "15 wants the sheet's own length of lent output, and that length is
/// returned." "On success, output past what was written keeps its contents."
#[test]
fn a_sheet_needs_its_own_length() {
    for (count, pages, last) in PAGES {
        let keys = spread(count);
        let (store, image) = (RawStore::of(&keys), image_of_keys(&keys));
        let length = 63 * ((pages - 1) * 41 + 1 + last);
        let sheet = sheet_of(&keys, length);
        for lent in [0, 62, length - 63, length - 1] {
            let mut out = vec![0x55; lent];
            let written = write_sheet(&store, &mut out);
            assert_eq!((written.number, written.length), (15, 0));
            assert_eq!(host::sheet(&image, &mut out), -15);
            assert_eq!(out, vec![0x55; lent]);
        }
        for lent in [length, length + 1, length + 63, SHEET_MOST + 63] {
            let expected = [sheet.as_bytes(), &vec![0x55; lent - length]].concat();
            let mut out = vec![0x55; lent];
            let written = write_sheet(&store, &mut out);
            assert_eq!((written.number, written.length), (0, length));
            assert_eq!(out, expected);
            let mut out = vec![0x55; lent];
            assert_eq!(host::sheet(&image, &mut out), length as i64);
            assert_eq!(out, expected);
        }
    }
}

// ---- refusals ----

/// Stores out of order: in a place not in use, in the count, in the keys. The
/// sums are those of the keys as they stand, but in two: in a place in use, in
/// one not in use (document 02, slip 7).
fn out_of_order() -> Vec<RawStore> {
    let mut unused = RawStore::of(&[1, 2]);
    unused.keys[LIMIT - 1] = 1;
    let mut fewer = RawStore::of(&[1, 2]);
    fewer.count = 1;
    let mut more = full(1);
    more.count = LIMIT + 1;
    let mut most = full(1);
    most.count = usize::MAX;
    let mut zeros = RawStore::empty();
    zeros.count = 2;
    let descending = RawStore::of(&[2, 1]);
    let twice = RawStore::of(&[1, 1]);
    let mut bad = vec![unused, fewer, more, most, zeros, descending, twice];
    bad.iter_mut().for_each(RawStore::resum);
    for place in [1, 2] {
        let mut sums = RawStore::of(&[1, 2]);
        sums.sums[place] ^= 1;
        bad.push(sums);
    }
    bad
}

/// 1, then 15.
#[test]
fn writing_a_sheet_asks_1_15() {
    let check = |store: &RawStore, lent: usize, number: u8, length: usize| {
        let mut out = vec![0x55; lent];
        let given = store.clone();
        let written = write_sheet(store, &mut out);
        assert_eq!((written.number, written.length), (number, length));
        assert_eq!(*store, given);
        assert!(out[length..].iter().all(|&byte| byte == 0x55));
        let asked = questions::of_write_sheet(store, lent);
        assert_eq!(asked.err().unwrap_or(0), number);
    };
    for store in out_of_order() {
        check(&store, 0, 1, 0);
        check(&store, 62, 1, 0);
        check(&store, SHEET_MOST, 1, 0);
    }
    check(&RawStore::empty(), 62, 15, 0);
    check(&RawStore::empty(), 63, 0, 63);
    check(&RawStore::of(&[0]), 125, 15, 0);
    check(&RawStore::of(&[0]), 126, 0, 126);
    check(&full(1), SHEET_MOST - 1, 15, 0);
    check(&full(1), SHEET_MOST, 0, SHEET_MOST);
}

/// "images come first: 14, 1, then … 15".
#[test]
fn the_host_call_asks_14_1_15() {
    let check = |image: &[u8], lent: usize, answer: i64| {
        let mut out = vec![0x55; lent];
        assert_eq!(host::sheet(image, &mut out), answer);
        let written = answer.max(0) as usize;
        assert!(out[written..].iter().all(|&byte| byte == 0x55));
        let asked = questions::of_host_sheet(image, lent);
        assert_eq!(asked.err().map_or(0, i64::from), (-answer).max(0));
    };
    let good = image_of(&[1, 2], &[c(1, 2, 3, 2)]);
    let many: Vec<u64> = (0..=LIMIT as u64).collect();
    for lent in [0, SHEET_MOST] {
        check(&[], lent, -14);
        check(&good[..good.len() - 1], lent, -14);
        check(&[&good[..], &[0]].concat(), lent, -14);
        check(&image_of_keys(&many), lent, -14);
        check(&image_of_keys(&[2, 1])[..19], lent, -14);
        check(&image_of_keys(&[2, 1]), lent, -1);
        check(&image_of_keys(&[1, 1]), lent, -1);
        check(&image_of(&[1, 2], &[c(1, 3, 2, 2)]), lent, -1);
    }
    check(&[0, 0, 0, 0], 62, -15);
    check(&[0, 0, 0, 0], 63, 63);
    check(&good, 125, -15);
    check(&good, 126, 126);
    let full = image_of_keys(&many[..LIMIT]);
    check(&full, SHEET_MOST - 1, -15);
    check(&full, SHEET_MOST, SHEET_MOST as i64);
}

/// The sheet is of the keys: the pending claims, those that are left out with
/// them, are not on it.
#[test]
fn pending_claims_are_not_on_the_sheet() {
    let sheet = sheet_of(&[1, 16], 126);
    for pending in [
        vec![c(1, 16, 17, 2), three(1, 2, 16)],
        vec![three(1, 20, 16)],
        vec![c(1, 1, 1, 1), three(1, 20, 16), c(1, 16, 0, 9)],
    ] {
        let image = image_of(&[1, 16], &pending);
        let mut out = vec![0x55; 127];
        assert_eq!(host::sheet(&image, &mut out), 126);
        assert_eq!((&out[..126], out[126]), (sheet.as_bytes(), 0x55));
        assert_eq!(wallsheet(&image), sheet.as_bytes());
    }
}

#[test]
fn the_program_refuses() {
    let refused = |input: &[u8], line: &str| assert_eq!(wallsheet(input), line.as_bytes());
    let good = image_of_keys(&[1, 2]);
    for length in 0..good.len() {
        refused(&good[..length], "refused 14\n");
    }
    refused(&[&good[..], b"\n"].concat(), "refused 14\n");
    refused(&[&good[..], &good].concat(), "refused 14\n");
    let many: Vec<u64> = (0..=LIMIT as u64).collect();
    refused(&image_of_keys(&many), "refused 14\n");
    refused(&image_of_keys(&[2, 1]), "refused 1\n");
    refused(&image_of(&[1, 2], &[c(1, 2, 0, 2)]), "refused 1\n");
}

// ---- any store, any bytes ----

/// The sheet of keys in order by way of strings.
fn sheet_by_strings(keys: &[u64]) -> String {
    let fields: Vec<String> = keys.iter().map(|key| format!("{key:>20}")).collect();
    let lines: Vec<String> = fields.chunks(3).map(|line| line.join(" ")).collect();
    let mut pages: Vec<&[String]> = lines.chunks(40).collect();
    if pages.is_empty() {
        pages.push(&[]);
    }
    let mut sheet = String::new();
    for (at, page) in pages.iter().enumerate() {
        let head = format!("page {:>4} of {:>4}", at + 1, pages.len());
        for line in [&head].into_iter().chain(*page) {
            sheet += &format!("{line:<62}\n");
        }
    }
    sheet
}

#[test]
fn sheets_of_any_store() {
    let ways = Ways::default();
    for_seeds(200, |rng| {
        let density = rng.density();
        let keys = rng.keys(LIMIT, density);
        ways.saw(match keys.len() {
            0 => "empty",
            LIMIT => "full",
            _ => "some keys",
        });
        let expected = sheet_by_strings(&keys);
        assert_eq!(sheet_of(&keys, expected.len()), expected);
    });
    ways.all_of(&["empty", "full", "some keys"]);
}

#[test]
fn images_of_any_content_are_answered() {
    let seen = RefCell::new(BTreeSet::new());
    for_seeds(300, |rng| {
        let node = rng.node();
        let mut image = image_of(node.store.held(), node.table());
        for _ in 0..rng.below(3) {
            rng.damage(&mut image);
        }
        let read = read_image(&image);
        let expected = match read.number {
            0 => sheet_by_strings(read.node.store.held()),
            number => format!("refused {number}\n"),
        };
        assert_eq!(wallsheet(&image), expected.as_bytes());

        let mut out = vec![0x55; *rng.pick(&[SHEET_MOST, expected.len(), 2_000, 62])];
        let answer = host::sheet(&image, &mut out);
        let asked = questions::of_host_sheet(&image, out.len());
        let short = out.len() < expected.len();
        let no = match read.number {
            0 if short => 15,
            number => number,
        };
        assert_eq!(asked.err().unwrap_or(0), no);
        seen.borrow_mut().insert(no);
        let written = if no == 0 { expected.len() } else { 0 };
        assert_eq!(answer, written as i64 - i64::from(no));
        assert_eq!(out[..written], expected.as_bytes()[..written]);
        assert!(out[written..].iter().all(|&byte| byte == 0x55));
    });
    if std::env::var("SECOND_SEED").is_err() {
        assert_eq!(*seen.borrow(), BTreeSet::from([0, 1, 14, 15]));
    }
}
