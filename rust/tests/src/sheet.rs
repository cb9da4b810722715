//! The wall sheet (document 02, slip 4), read by neither program: how long it
//! is, the keys that its text tells, and the ways that a sheet can go, read
//! off the slip's sentences once more; and keys and buffers for sheets drawn
//! so that all of them are gone.

use std::collections::BTreeSet;

use second::{RawStore, SHEET_MOST};

use crate::draw::{Density, Rng};
use crate::drill::MOST_BYTES;
use crate::sums;

/// "lines of exactly 62 characters and a line feed"
pub const WIDTH: usize = 62;
pub const LINE: usize = WIDTH + 1;

/// "three fields of 20 characters"
pub const LINE_KEYS: usize = 3;
pub const FIELD: usize = 20;

/// "A page has 40 lines", and its head line "above".
pub const PAGE_LINES: usize = 40;
pub const PAGE: usize = 1 + PAGE_LINES;

/// The keys of a full page.
pub const PAGE_KEYS: usize = LINE_KEYS * PAGE_LINES;

/// How many pages so many keys take: "An empty store is one page".
pub fn pages(keys: usize) -> usize {
    keys.div_ceil(PAGE_KEYS).max(1)
}

/// How long the sheet of so many keys is.
pub fn length(keys: usize) -> usize {
    LINE * (pages(keys) + keys.div_ceil(LINE_KEYS))
}

// ---- a sheet read ----

/// The keys that a sheet tells, or what isn't laid out as the slip says. There
/// is just one text for each run of keys.
pub fn keys_on(sheet: &[u8]) -> Result<Vec<u64>, &'static str> {
    let (lines, rest) = sheet.as_chunks::<LINE>();
    expect(rest.is_empty(), "a part of a line at the end")?;
    let pages: Vec<_> = lines.chunks(PAGE).collect();
    let mut fields = Vec::new();
    for (at, page) in pages.iter().enumerate() {
        let told = format!("page {:>4} of {:>4}", at + 1, pages.len());
        let head = format!("{told:<WIDTH$}\n");
        expect(page[0] == head.as_bytes(), "a head line")?;
        for line in &page[1..] {
            fields.extend(fields_on(line)?);
        }
    }
    let used = fields.iter().take_while(|key| key.is_some()).count();
    let (keys, unused) = fields.split_at(used);
    expect(unused.iter().all(Option::is_none), "a key behind spaces")?;
    expect(unused.len() < LINE_KEYS, "a line without keys")?;
    expect(pages.len() == self::pages(used), "a page without keys")?;
    let keys: Vec<u64> = keys.iter().copied().flatten().collect();
    let rise = keys.is_sorted_by(|lower, upper| lower < upper);
    expect(rise, "keys that don't rise")?;
    Ok(keys)
}

fn expect(holds: bool, otherwise: &'static str) -> Result<(), &'static str> {
    if holds { Ok(()) } else { Err(otherwise) }
}

/// What stands in the fields of a line: a key, or spaces.
fn fields_on(line: &[u8; LINE]) -> Result<Vec<Option<u64>>, &'static str> {
    let (fields, rest) = line.as_chunks::<{ FIELD + 1 }>();
    let behind: Vec<u8> = fields.iter().map(|field| field[FIELD]).collect();
    expect(rest.is_empty() && behind == *b"  \n", "behind a field")?;
    fields.iter().map(|field| key_in(&field[..FIELD])).collect()
}

/// The key in a field, none if that is spaces.
fn key_in(field: &[u8]) -> Result<Option<u64>, &'static str> {
    let field = str::from_utf8(field).map_err(|_| "no text")?;
    let digits = field.trim_start_matches(' ');
    if digits.is_empty() {
        return Ok(None);
    }
    let key: u64 = digits.parse().map_err(|_| "no number of 64 bits")?;
    // No zero before it, and no sign.
    expect(digits == key.to_string(), "more than its digits")?;
    Ok(Some(key))
}

// ---- the ways of a sheet ----

/// How much is lent.
pub const EXACTLY: &str = "exactly long enough";
pub const LONGER: &str = "longer than the sheet";
pub const SHORT: &str = "15, a byte too short";
pub const SHORTER: &str = "15, shorter yet";
pub const NOTHING: &str = "15, nothing lent";

pub const LENT: [&str; 5] = [EXACTLY, LONGER, SHORT, SHORTER, NOTHING];

/// How the keys lie on the pages, and which are the first and the last.
pub const LAYOUTS: [&str; 12] = [
    "no key",
    "one key in the last line",
    "two keys in the last line",
    "three keys in the last line",
    "a part of a page",
    "a full page alone",
    "two pages",
    "three pages and more",
    "as many pages as there can be",
    "all the keys that fit",
    "key 0",
    "the largest key",
];

/// A key of so many digits is on the sheet, from one digit to twenty.
pub const DIGITS: [&str; FIELD] = [
    "1 digit",
    "2 digits",
    "3 digits",
    "4 digits",
    "5 digits",
    "6 digits",
    "7 digits",
    "8 digits",
    "9 digits",
    "10 digits",
    "11 digits",
    "12 digits",
    "13 digits",
    "14 digits",
    "15 digits",
    "16 digits",
    "17 digits",
    "18 digits",
    "19 digits",
    "20 digits",
];

/// Why question 1 refuses a store, where there is no other reason.
pub const TOO_MANY: &str = "1, the count is too high";
pub const EQUAL: &str = "1, two keys are equal";
pub const FALLING: &str = "1, keys fall";
pub const PAST: &str = "1, something past the count";
pub const SUMS: &str = "1, the sums are wrong";

pub const OUT_OF_ORDER: [&str; 5] = [TOO_MANY, EQUAL, FALLING, PAST, SUMS];

/// A store is out of order, and what is lent is too short as well.
pub const BEFORE_15: &str = "1 before 15";

/// The ways of a sheet of keys in order, lent so many bytes and answered with
/// this number.
pub fn ways(keys: &[u64], lent: usize, number: u8) -> Vec<&'static str> {
    let need = length(keys.len());
    assert_eq!(number == 15, lent < need, "15 wants the sheet's own length");
    let lent = match lent {
        0 => NOTHING,
        _ if lent + 1 == need => SHORT,
        _ if lent < need => SHORTER,
        _ if lent == need => EXACTLY,
        _ => LONGER,
    };
    let mut ways = vec![lent];
    if number == 0 {
        ways.extend(ways_of_layout(keys));
        let digits: BTreeSet<usize> = keys.iter().map(|key| digits(*key)).collect();
        ways.extend(digits.into_iter().map(|digits| DIGITS[digits - 1]));
    }
    ways
}

fn digits(key: u64) -> usize {
    key.checked_ilog10().map_or(1, |power| power as usize + 1)
}

fn ways_of_layout(keys: &[u64]) -> impl Iterator<Item = &'static str> {
    let (count, most) = (keys.len(), pages(RawStore::LIMIT));
    let pages = pages(count);
    let last = |used: usize| count > 0 && count % LINE_KEYS == used % LINE_KEYS;
    let gone = [
        count == 0,
        last(1),
        last(2),
        last(3),
        0 < count && count < PAGE_KEYS,
        count == PAGE_KEYS,
        pages == 2,
        (3..most).contains(&pages),
        pages == most,
        count == RawStore::LIMIT,
        keys.first() == Some(&0),
        keys.last() == Some(&u64::MAX),
    ];
    let ways = LAYOUTS.into_iter().zip(gone);
    ways.filter_map(|(way, gone)| gone.then_some(way))
}

/// The reason why a store is out of order, if it is, and for one alone. Of a
/// count that is too high no other is sought.
pub fn way_out_of_order(store: &RawStore) -> Option<&'static str> {
    if store.count > RawStore::LIMIT {
        return Some(TOO_MANY);
    }
    let (held, past) = store.keys.split_at(store.count);
    let reasons = [
        (EQUAL, held.windows(2).any(|two| two[0] == two[1])),
        (FALLING, held.windows(2).any(|two| two[0] > two[1])),
        (PAST, past.iter().any(|&place| place != 0)),
        (SUMS, !sums::are_right(store)),
    ];
    let mut reasons = reasons.into_iter().filter(|(_, holds)| *holds);
    match (reasons.next(), reasons.next()) {
        (Some((reason, _)), None) => Some(reason),
        _ => None,
    }
}

// ---- keys and buffers for sheets ----

/// Keys beside each power of ten, and the last of all: with them are the first
/// and the last of every number of digits.
pub fn edges() -> Vec<u64> {
    let powers = (0..FIELD as u32).map(|exponent| 10_u64.pow(exponent));
    let mut keys: BTreeSet<u64> = powers
        .flat_map(|power| [power - 1, power, power + 1])
        .collect();
    keys.extend([u64::MAX - 1, u64::MAX]);
    keys.into_iter().collect()
}

impl Rng {
    /// A key with each number of digits as often as with any other.
    fn key_of_any_length(&mut self) -> u64 {
        let digits = 1 + self.below(FIELD);
        let least = match digits {
            1 => 0,
            _ => 10_u64.pow(digits as u32 - 1),
        };
        let past = 10_u64.checked_pow(digits as u32);
        least + self.next() % (past.unwrap_or(u64::MAX) - least)
    }

    /// The keys of a store for a sheet: few or many, some pages or all; close
    /// together or not, or of every number of digits.
    pub fn keys_for_sheet(&mut self) -> Vec<u64> {
        let count = match self.below(8) {
            0 => self.below(LINE_KEYS + 2),
            1 => PAGE_KEYS - 1 + self.below(3),
            2 => {
                let full_pages = pages(RawStore::LIMIT) - 1;
                PAGE_KEYS * (1 + self.below(full_pages)) + self.below(2)
            }
            3 => RawStore::LIMIT - self.below(2),
            4 => self.below(RawStore::LIMIT + 1),
            _ => {
                let density = self.density();
                return self.keys(density);
            }
        };
        if self.one_in(2) {
            return self.keys_of(count, Density::WIDE);
        }
        let mut keys = BTreeSet::new();
        while keys.len() < count {
            keys.insert(self.key_of_any_length());
        }
        keys.into_iter().collect()
    }

    /// How much to lend for the sheet of so many keys: as much as it needs,
    /// less, or more.
    pub fn room_for_sheet(&mut self, keys: usize) -> usize {
        let need = length(keys);
        match self.below(10) {
            0 => need - 1,
            1 => self.below(need),
            2 => 0,
            3 => need + 1 + self.below(LINE),
            4 => SHEET_MOST + self.below(LINE),
            5 if self.one_in(8) => MOST_BYTES,
            _ => need,
        }
    }
}
