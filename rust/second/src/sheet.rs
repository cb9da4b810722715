//! The wall sheet (document 02, slip 4): "Staff pin up the keys held."

use crate::image::Length;
use crate::questions;
use crate::store::RawStore;

/// "lines of exactly 62 characters"
const WIDTH: usize = 62;

/// "and a line feed"
const LINE: usize = WIDTH + 1;

/// "Each line has three fields"
const LINE_KEYS: usize = 3;

/// "of 20 characters"
const FIELD: usize = 20;

/// A field and the character behind it: "one space between fields", the line
/// feed behind the last.
const STEP: usize = FIELD + 1;

/// "A page has 40 lines": those with keys, since the head line stands "above"
/// the page.
const PAGE_LINES: usize = 40;

/// The keys of a full page.
const PAGE_KEYS: usize = LINE_KEYS * PAGE_LINES;

/// The bytes of a full page and of the head line above it.
const PAGE: usize = LINE * (1 + PAGE_LINES);

/// A page's number "right-aligned in 4" and "the number of pages likewise".
const HEAD_FIELD: usize = 4;

// The fields take up the line, and are written by two digits at a time.
const _: () = assert!(LINE_KEYS * STEP == LINE);
const _: () = assert!(FIELD.is_multiple_of(2) && HEAD_FIELD.is_multiple_of(2));

/// The length of the sheet of a full store, the longest there is.
pub const SHEET_MOST: usize = sheet_length(RawStore::LIMIT);

/// The pages of so many keys. "An empty store is one page".
const fn page_count(keys: usize) -> usize {
    if keys == 0 {
        1
    } else {
        keys.div_ceil(PAGE_KEYS)
    }
}

/// The length of the sheet of so many keys: a head line for each page, and
/// the lines with keys, "the last page only those it needs".
pub(crate) const fn sheet_length(keys: usize) -> usize {
    LINE * (page_count(keys) + keys.div_ceil(LINE_KEYS))
}

/// The two base-ten digits of each number below 100.
static PAIRS: [[u8; 2]; 100] = {
    let mut pairs = [[b'0'; 2]; 100];
    let mut at = 0;
    while at < pairs.len() {
        pairs[at] = [b'0' + at as u8 / 10, b'0' + at as u8 % 10];
        at += 1;
    }
    pairs
};

/// Writes a number "right-aligned" to a field of spaces that is long enough.
fn put_number(mut number: u64, field: &mut [u8]) {
    for place in field.rchunks_exact_mut(2) {
        let pair = (number % 100) as usize;
        place.copy_from_slice(&PAIRS[pair]);
        number /= 100;
        if number == 0 {
            if pair < 10 {
                place[0] = b' ';
            }
            return;
        }
    }
}

/// Writes a head line to one of spaces: "`page `, its number right-aligned in
/// 4, ` of `, the number of pages likewise, then spaces".
fn put_head(number: usize, pages: usize, line: &mut [u8]) {
    let mut at = 0;
    for (word, number) in [("page ", number), (" of ", pages)] {
        line[at..at + word.len()].copy_from_slice(word.as_bytes());
        at += word.len();
        put_number(number as u64, &mut line[at..at + HEAD_FIELD]);
        at += HEAD_FIELD;
    }
    line[WIDTH] = b'\n';
}

/// Writes at most three keys to a line of spaces, "in rising order along the
/// line".
fn put_keys(keys: &[u64], line: &mut [u8]) {
    for (step, &key) in line.chunks_exact_mut(STEP).zip(keys) {
        put_number(key, &mut step[..FIELD]);
    }
    line[WIDTH] = b'\n';
}

/// Writes the sheet of keys in order, where there is room for it; its length.
pub(crate) fn put_sheet(keys: &[u64], out: &mut [u8]) -> usize {
    let length = sheet_length(keys.len());
    let sheet = &mut out[..length];
    // "unused fields are spaces", and so is all that isn't written below.
    sheet.fill(b' ');

    let pages = page_count(keys.len());
    // One page more has no keys: the only one of an empty store.
    let page_keys = keys.chunks(PAGE_KEYS).chain([&[][..]]);
    for ((at, page), keys) in sheet.chunks_mut(PAGE).enumerate().zip(page_keys) {
        let (head, lines) = page.split_at_mut(LINE);
        put_head(at + 1, pages, head);
        let line_keys = keys.chunks(LINE_KEYS);
        for (line, keys) in lines.chunks_exact_mut(LINE).zip(line_keys) {
            put_keys(keys, line);
        }
    }
    length
}

/// Writes the wall sheet of a store and returns its length. Asks 1 and 15:
/// "15 wants the sheet's own length of lent output, and that length is
/// returned."
pub fn write_sheet(store: &RawStore, out: &mut [u8]) -> Length {
    Length::from(questions::of_write_sheet(store, out.len()).map(|()| put_sheet(store.held(), out)))
}
