//! The wall sheet (document 02, slip 4) beside the second program: of stores of
//! any content by `drill`, of images by the archive and by the program
//! `wallsheet`; every byte that is lent is compared. Each sheet is read back by
//! a reader that is neither program's, and some stand here as they are told.
//!
//! Sheets of more images, in order, bent and damaged, come with the other calls
//! in `host`, those of saved images in `left_out`, and those of old cards in
//! `old_cards` and `faulty_cards`.

mod archive;
mod wallsheet;

use archive::{Asked, written_by};
use minutefrost::IMAGE_MOST;
use second::{Claim, PENDING, RawNode, RawStore, SHEET_MOST, read_image};
use tests::card::write_sheet_case;
use tests::cases::{Seen, compare, digit, for_seeds, noise, one_seed};
use tests::draw::{Density, Rng, claim_of, image_of};
use tests::drill::{Drill, MOST_BYTES};
use tests::left_out;
use tests::middle::three;
use tests::program::printed_for;
use tests::sheet::*;
use tests::sums;

const LIMIT: usize = RawStore::LIMIT;

/// How often each number and each way must have been seen.
const OFTEN: usize = 40;

/// How often where cases aren't drawn but told one by one.
const OFTEN_TOLD: usize = 10;

/// Fills the places that mean nothing to a call, and the buffers.
const NOISE: u64 = 0x5A5A_0101_F0F0_3C3C;

/// How many keys there are: around the ends of lines and pages.
const COUNTS: [usize; 12] = [
    0,
    1,
    LINE_KEYS - 1,
    LINE_KEYS,
    LINE_KEYS + 1,
    PAGE_KEYS - 1,
    PAGE_KEYS,
    PAGE_KEYS + 1,
    2 * PAGE_KEYS,
    2 * PAGE_KEYS + 1,
    LIMIT - 1,
    LIMIT,
];

/// So many keys: the first of all, the last of all, from the first to the last,
/// and drawn.
const KINDS: [fn(usize) -> Vec<u64>; 4] = [first_keys, last_keys, keys_far_apart, keys_drawn];

fn first_keys(count: usize) -> Vec<u64> {
    (0..count as u64).collect()
}

fn last_keys(count: usize) -> Vec<u64> {
    first_keys(count).iter().rev().map(|key| !key).collect()
}

fn keys_far_apart(count: usize) -> Vec<u64> {
    let (lower, upper) = (count.div_ceil(2), count / 2);
    let step = u64::MAX / LIMIT as u64;
    let mut keys: Vec<u64> = first_keys(lower).iter().map(|at| step * at).collect();
    keys.extend(last_keys(upper));
    keys
}

fn keys_drawn(count: usize) -> Vec<u64> {
    Rng(count as u64).keys_of(count, Density::WIDE)
}

/// How much is lent for a sheet of so many bytes.
const ROOMS: [fn(usize) -> usize; 9] = [
    |need| need,
    |need| need - 1,
    |need| need + 1,
    |need| need - LINE,
    |need| need + LINE,
    |_| 0,
    |_| 1,
    |_| SHEET_MOST,
    |_| MOST_BYTES,
];

// ---- sheets as they are told ----

/// The sheet of some keys by each of the three ways to it, and by the second
/// program with each.
fn sheet_of(keys: &[u64]) -> String {
    let case = write_sheet_case(&RawStore::of(keys), SHEET_MOST, &mut || NOISE);
    let reply = Drill::start().ask(case.call, &case.given);
    assert_eq!(case.differs(&reply), None);
    assert_eq!(reply.number(), 0);
    let image = image_of(keys, &[]);
    let printed = wallsheet::compare(&wallsheet::program(), &image);
    assert_eq!(reply.bytes[..reply.count()], *printed.as_bytes());
    let written = written_by(&Asked::Sheet(image, SHEET_MOST), NOISE);
    assert_eq!(written.as_deref(), Ok(printed.as_bytes()));
    printed
}

/// "An empty store is one page with its head line only."
#[test]
fn an_empty_store_is_a_head_line() {
    let sheet = sheet_of(&[]);
    assert_eq!(sheet.len(), 63);
    assert_eq!(sheet, format!("page    1 of    1{}\n", " ".repeat(45)));
}

#[test]
fn four_keys_are_two_lines() {
    let sheet = "\
page    1 of    1                                             \n\
\x20                  0                   99                  100\n\
18446744073709551615                                          \n";
    assert_eq!(sheet_of(&[0, 99, 100, u64::MAX]), sheet);
}

/// "lines of exactly 62 characters and a line feed"
#[test]
fn lines_have_62_characters_and_a_line_feed() {
    for kind in KINDS {
        for count in COUNTS {
            let sheet = sheet_of(&kind(count));
            assert!(sheet.is_ascii() && sheet.ends_with('\n'));
            assert!(sheet.lines().all(|line| line.len() == 62));
            assert_eq!(sheet.len(), 63 * sheet.lines().count());
        }
    }
}

/// "A page has 40 lines, the last page only those it needs. Above each page
/// stands a line of 62".
#[test]
fn a_page_ends_with_120_keys() {
    let [full, more] = [120, 121].map(|count| sheet_of(&first_keys(count)));
    let [full, more] = [&full, &more].map(|sheet| sheet.lines().collect::<Vec<_>>());
    assert_eq!((full.len(), more.len()), (41, 43));
    assert_eq!(full[0].trim_end(), "page    1 of    1");
    assert_eq!(more[0].trim_end(), "page    1 of    2");
    assert_eq!(more[41].trim_end(), "page    2 of    2");
    assert_eq!(full[1..], more[1..41]);
    assert_eq!(more[40].split_whitespace().last(), Some("119"));
    assert_eq!(more[42], format!("{:>20}{}", 120, " ".repeat(42)));
    let heads = |lines: &[&str]| lines.iter().filter(|line| line.contains("page")).count();
    assert_eq!((heads(&full), heads(&more)), (1, 2));
}

#[test]
fn the_longest_sheet() {
    let sheet = sheet_of(&last_keys(LIMIT));
    assert_eq!([SHEET_MOST, minutefrost::SHEET_MOST], [sheet.len(); 2]);
    let lines: Vec<&str> = sheet.lines().collect();
    let pages = pages(LIMIT);
    assert_eq!(lines.len(), LIMIT.div_ceil(3) + pages);
    let last_head = format!("page {pages:>4} of {pages:>4}");
    assert_eq!(lines[(pages - 1) * 41].trim_end(), last_head);
    let last_line = lines[lines.len() - 1];
    assert!(last_line.trim_end().ends_with(&u64::MAX.to_string()));
    assert_eq!(length(LIMIT), sheet.len());
}

/// What reads sheets back in these tests reads nothing else as a sheet of the
/// same keys.
#[test]
fn no_other_text_tells_the_same_keys() {
    for keys in [
        vec![],
        vec![0, 99, 100, u64::MAX],
        first_keys(PAGE_KEYS + 1),
    ] {
        let sheet = sheet_of(&keys).into_bytes();
        let told = Ok(keys);
        assert_eq!(keys_on(&sheet), told);
        for at in 0..sheet.len() {
            for byte in *b" 0189+-\n\r\0" {
                let mut other = sheet.clone();
                other[at] = byte;
                assert_eq!(keys_on(&other) == told, other == sheet);
            }
            assert_ne!(keys_on(&sheet[..at]), told);
        }
        for more in [b" ".repeat(LINE), b"\n".to_vec(), sheet.clone()] {
            assert_ne!(keys_on(&[&sheet[..], &more].concat()), told);
        }
    }
}

// ---- stores in order ----

/// Each count with each kind of keys, and each length that is lent.
#[test]
fn sheets_of_stores_as_told() {
    let cases = COUNTS.len() * KINDS.len() * ROOMS.len();
    let seen = compare(cases as u64, |rng| {
        let mut number = rng.0;
        let count = digit(&mut number, &COUNTS);
        let keys = digit(&mut number, &KINDS)(count);
        assert_eq!(keys.len(), count);
        let lent = digit(&mut number, &ROOMS)(length(count));
        write_sheet_case(&RawStore::of(&keys), lent, &mut || NOISE)
    });
    if !one_seed() {
        seen.expect(&[0, 15], &LENT, OFTEN_TOLD);
        seen.expect_ways(&LAYOUTS, OFTEN_TOLD);
    }
}

/// From none to all that fit, exactly enough lent and a byte too few.
#[test]
fn sheets_of_every_count() {
    let counts: Vec<usize> = (0..=LIMIT).collect();
    let seen = compare(2 * counts.len() as u64, |rng| {
        let mut number = rng.0;
        let count = digit(&mut number, &counts);
        let lent = length(count) - digit(&mut number, &[0, 1]);
        write_sheet_case(&RawStore::of(&first_keys(count)), lent, &mut || NOISE)
    });
    if !one_seed() {
        seen.expect(&[0, 15], &[EXACTLY, SHORT], LIMIT);
    }
}

/// Each key beside a power of ten, in each field of a line where as many keys
/// are below it; and all of them on one sheet.
#[test]
fn sheets_of_every_number_of_digits() {
    let keys = edges();
    let seen = compare((LINE_KEYS * keys.len()) as u64, |rng| {
        let mut number = rng.0;
        let key = digit(&mut number, &keys);
        let before = digit(&mut number, &[0, 1, 2]).min(key);
        let store: Vec<u64> = (key - before..=key).collect();
        let lent = length(store.len());
        write_sheet_case(&RawStore::of(&store), lent, &mut || NOISE)
    });
    let digits: Vec<usize> = keys.iter().map(|key| key.to_string().len()).collect();
    assert!((1..=FIELD).all(|number| digits.contains(&number)));
    assert_eq!(
        keys_on(sheet_of(&keys).as_bytes()).as_deref(),
        Ok(&keys[..])
    );
    if !one_seed() {
        seen.expect(&[0], &["key 0", "the largest key"], LINE_KEYS);
        seen.expect_ways(&DIGITS, LINE_KEYS);
    }
}

/// Stores drawn, once in five bent.
#[test]
fn sheets_of_any_store() {
    let seen = compare(6_000, |rng| {
        let mut store = RawStore::of(&rng.keys_for_sheet());
        if rng.one_in(5) {
            let density = rng.density();
            rng.bend_store(&mut store, density);
        }
        let lent = rng.room_for_sheet(store.held().len());
        write_sheet_case(&store, lent, &mut noise(rng))
    });
    if !one_seed() {
        seen.expect(&[0, 1, 15], &LENT, OFTEN);
        seen.expect_ways(&LAYOUTS, OFTEN);
        seen.expect_ways(&DIGITS, OFTEN);
        seen.expect_ways(&OUT_OF_ORDER, OFTEN);
        seen.expect_ways(&[BEFORE_15], OFTEN);
        seen.expect_ways(&sums::KINDS, OFTEN / 4);
    }
}

// ---- stores out of order ----

/// A count of more than there are places, with none of them in use, some, all;
/// some such counts have low bits that a store could have.
fn counted_too_high() -> Vec<RawStore> {
    let high = [LIMIT, 1 << 16, 1 << 17, 1 << 32, 1 << 63];
    let counts = high
        .into_iter()
        .flat_map(|count| [count + 1, count + LINE_KEYS]);
    let counts: Vec<usize> = counts.chain([usize::MAX]).collect();
    let keys = [0, LINE_KEYS, LIMIT].map(|count| RawStore::of(&first_keys(count)));
    let with = |count: &usize| {
        keys.clone().map(|store| RawStore {
            count: *count,
            ..store
        })
    };
    counts.iter().flat_map(with).collect()
}

/// A key of a store of so many that is the one before it, or is swapped with
/// that, at each place from one on.
fn not_rising(count: usize, from: usize) -> Vec<RawStore> {
    let store = RawStore::of(&last_keys(count));
    let broken = |at: usize| {
        let [mut equal, mut falling] = [store.clone(), store.clone()];
        equal.keys[at] = equal.keys[at - 1];
        falling.keys.swap(at - 1, at);
        [equal, falling]
    };
    (from..count).flat_map(broken).collect()
}

/// Something in each place past the count of a store of so many.
fn with_something_past(count: usize) -> Vec<RawStore> {
    let store = RawStore::of(&first_keys(count));
    let with = |at: usize| {
        let mut store = store.clone();
        store.keys[at] = at as u64;
        store
    };
    (count.max(1)..LIMIT).map(with).collect()
}

/// A bit of one sum wrong, for places in use and others: the first ones, those
/// around the count, the last.
fn with_a_wrong_sum(count: usize) -> Vec<RawStore> {
    let store = RawStore::of(&keys_drawn(count));
    let places = [0, 1, count.saturating_sub(1), count, count + 1, LIMIT - 1];
    let with = |at: usize| {
        let mut store = store.clone();
        store.sums[at] ^= 1 << (at % 64);
        store
    };
    places.map(|at| with(at.min(LIMIT - 1))).to_vec()
}

/// All of them, and stores whose count is one off. Where the keys or the count
/// are wrong, the sums are those of the keys as they stand.
fn out_of_order() -> Vec<RawStore> {
    let mut stores = counted_too_high();
    stores.extend(not_rising(LINE_KEYS, 1));
    stores.extend(not_rising(PAGE_KEYS + 2, 1));
    stores.extend(not_rising(LIMIT, LIMIT - 3));
    for count in [0, LINE_KEYS, LIMIT - 5] {
        stores.extend(with_something_past(count));
    }
    for count in [LINE_KEYS, PAGE_KEYS + 1, LIMIT - 1] {
        let store = RawStore::of(&last_keys(count));
        let one_off = [count - 1, count + 1];
        stores.extend(one_off.map(|count| RawStore {
            count,
            ..store.clone()
        }));
    }
    stores.iter_mut().for_each(RawStore::resum);
    stores.extend(COUNTS.into_iter().flat_map(with_a_wrong_sum));
    stores
}

/// 1 and not 15, whatever is lent.
#[test]
fn stores_out_of_order_get_1() {
    let stores = out_of_order();
    let stores: Vec<&RawStore> = stores.iter().collect();
    let rooms: [fn(&RawStore) -> usize; 4] = [
        |_| 0,
        |store| length(store.held().len()) - 1,
        |store| length(store.held().len()),
        |_| SHEET_MOST,
    ];
    let seen = compare((stores.len() * rooms.len()) as u64, |rng| {
        let mut number = rng.0;
        let lent = digit(&mut number, &rooms);
        let store = digit(&mut number, &stores);
        write_sheet_case(store, lent(store), &mut || NOISE)
    });
    if !one_seed() {
        seen.expect(&[1], &OUT_OF_ORDER, OFTEN);
        seen.expect_ways(&[BEFORE_15], 2 * stores.len());
    }
}

// ---- images ----

/// Nothing pending, claims of the keys, as many as fit, and claims of three
/// that no store could make (slip 2), each in order with the keys.
fn pending_with(keys: &[u64]) -> Vec<Vec<Claim>> {
    let mut tables = vec![Vec::new()];
    if let [first, .., last] = *keys {
        let whole = claim_of(keys);
        let ones = keys.iter().take(PENDING).map(|key| claim_of(&[*key]));
        tables.extend([vec![claim_of(&[first]), whole], ones.collect()]);
        if last - first > 1 {
            let faulty = [first, last].map(|middle| three(first, middle, last));
            let mut faulty = faulty.to_vec();
            faulty.sort_by_key(Claim::rank);
            tables.push(faulty);
        }
    }
    tables
}

/// The sheet of an image is the one of its keys, whatever is pending.
#[test]
fn sheets_of_images_as_told() {
    let mut seen = Seen::default();
    for (count, kind) in COUNTS
        .iter()
        .flat_map(|count| KINDS.map(|kind| (*count, kind)))
    {
        let keys = kind(count);
        for pending in pending_with(&keys) {
            let image = image_of(&keys, &pending);
            for room in ROOMS {
                let lent = room(length(count));
                let sheet = written_by(&Asked::Sheet(image.clone(), lent), NOISE);
                let number = sheet.as_ref().err().copied().unwrap_or(0);
                if let Ok(sheet) = sheet {
                    assert_eq!(keys_on(&sheet).as_deref(), Ok(&keys[..]));
                }
                seen.number(number);
                seen.all(ways(&keys, lent, number));
                seen.all(left_out::ways_of_image(&image, number));
            }
        }
    }
    seen.expect(&[0, 15], &LENT, OFTEN_TOLD);
    seen.expect_ways(&LAYOUTS, OFTEN_TOLD);
    seen.expect_ways(&[left_out::ALL, left_out::LATER], OFTEN_TOLD);
}

/// {1, 16} with three claims pending, of which the one in the middle is left
/// out.
fn small_image() -> Vec<u8> {
    let [own, faulty, good] = [Claim::new(1, 16, 17, 2), three(1, 20, 16), three(1, 2, 16)];
    image_of(&[1, 16], &[own, faulty, good])
}

/// The number that refuses an image, whatever is lent.
fn refused(image: &[u8]) -> u8 {
    let number = [0, LINE, SHEET_MOST].map(|lent| {
        let sheet = written_by(&Asked::Sheet(image.to_vec(), lent), NOISE);
        sheet.expect_err("such an image is refused")
    });
    assert!(number.iter().all(|other| *other == number[0]));
    number[0]
}

/// 14 before 1, and both before 15.
#[test]
fn images_are_judged_first() {
    let image = small_image();
    for end in 0..image.len() {
        assert_eq!(refused(&image[..end]), 14);
    }
    assert_eq!(refused(&[&image[..], &[0]].concat()), 14);
    let keys = first_keys(LIMIT + 1);
    let ones: Vec<Claim> = keys.iter().map(|key| claim_of(&[*key])).collect();
    assert_eq!(refused(&image_of(&keys, &[])), 14);
    assert_eq!(refused(&image_of(&keys[..LIMIT], &ones[..=PENDING])), 14);
    // Out of order as well, and then that alone.
    let falling = image_of(&[16, 1], &[]);
    assert_eq!(refused(&falling[..falling.len() - 1]), 14);
    assert_eq!(refused(&falling), 1);
    assert_eq!(refused(&image_of(&[16, 16], &[])), 1);
    // The claims of an image are judged, those to leave out with them.
    assert_eq!(refused(&image_of(&[1, 16], &[claim_of(&[2])])), 1);
    assert_eq!(refused(&image_of(&[1, 15], &[three(1, 20, 16)])), 1);
}

/// Each byte of a small image as each other byte.
#[test]
fn sheets_of_damaged_images() {
    let image = small_image();
    let mut seen = Seen::default();
    for at in 0..image.len() {
        for byte in 0..=u8::MAX {
            let mut image = image.clone();
            image[at] = byte;
            let sheet = written_by(&Asked::Sheet(image.clone(), SHEET_MOST), NOISE);
            seen.number(sheet.as_ref().err().copied().unwrap_or(0));
            if let Ok(sheet) = sheet {
                let (keys, _) = left_out::contents(&image).expect("an image");
                assert_eq!(keys_on(&sheet), Ok(keys));
            }
        }
    }
    seen.expect(&[0, 1, 14], &[], OFTEN);
}

// ---- the program ----

/// No input, inputs cut at each byte of a small image, and such as are too
/// long.
#[test]
fn prints_refusals_of_cut_inputs() {
    let program = wallsheet::program();
    let image = small_image();
    for end in 0..image.len() {
        let printed = wallsheet::compare(&program, &image[..end]);
        assert_eq!(printed, "refused 14\n");
    }
    for more in [1, 2, image.len(), IMAGE_MOST, 100_000, 300_000] {
        let mut long = image.clone();
        long.resize(image.len() + more, 0);
        assert_eq!(wallsheet::compare(&program, &long), "refused 14\n");
    }
    let twice = [&image[..], &image].concat();
    assert_eq!(wallsheet::compare(&program, &twice), "refused 14\n");
    let falling = image_of(&[16, 1], &[]);
    assert_eq!(wallsheet::compare(&program, &falling), "refused 1\n");
    let printed = wallsheet::compare(&program, &image);
    assert_eq!(keys_on(printed.as_bytes()), Ok(vec![1, 16]));
}

/// All keys and all claims that fit, whether these are kept or left out; then
/// a byte more, which the program reads, and many.
#[test]
fn prints_the_longest_sheet() {
    let program = wallsheet::program();
    let keys = last_keys(LIMIT);
    let kept = keys.iter().take(PENDING).map(|key| claim_of(&[*key]));
    let kept: Vec<Claim> = kept.collect();
    let his = keys[2..].iter().take(PENDING);
    let left_out: Vec<Claim> = his.map(|hi| three(keys[0], keys[0], *hi)).collect();
    for pending in [kept, left_out] {
        let mut image = image_of(&keys, &pending);
        assert_eq!(image.len(), IMAGE_MOST);
        let printed = wallsheet::compare(&program, &image);
        assert_eq!(printed.len(), SHEET_MOST);
        assert_eq!(keys_on(printed.as_bytes()).as_deref(), Ok(&keys[..]));
        for more in [1, 100_000] {
            image.resize(IMAGE_MOST + more, 0);
            assert_eq!(wallsheet::compare(&program, &image), "refused 14\n");
        }
    }
}

/// As a slow line would bring it.
#[test]
fn prints_sheets_of_images_in_pieces() {
    let program = wallsheet::program();
    let image = image_of(&keys_drawn(LIMIT), &[]);
    for size in [1_000, 4_099, image.len() - 1] {
        let pieces: Vec<&[u8]> = image.chunks(size).collect();
        let sheet = printed_for(&program, &pieces);
        assert!(sheet == second::wallsheet(&image));
        assert_eq!(sheet.len(), SHEET_MOST);
    }
}

/// An image for the program: of any store, with anything pending, bent or
/// damaged.
fn input(rng: &mut Rng) -> Vec<u8> {
    let keys = rng.keys_for_sheet();
    let mut node = match rng.one_in(3) {
        true => RawNode::of(RawStore::of(&keys), &rng.saved_table(&keys)),
        false => rng.node_of(&keys),
    };
    if rng.one_in(6) {
        rng.bend_node(&mut node);
    }
    let mut image = image_of(node.store.held(), node.table());
    if rng.one_in(6) {
        rng.damage(&mut image);
    }
    image
}

#[test]
fn prints_what_the_second_program_prints() {
    let program = wallsheet::program();
    let mut seen = Seen::default();
    for_seeds(1_500, |_, rng| {
        let input = input(rng);
        let printed = wallsheet::compare(&program, &input);
        if let Some(number) = printed.strip_prefix("refused ") {
            seen.number(number.trim_end().parse().expect("a number"));
            return;
        }
        let store = read_image(&input).node.store;
        let told = keys_on(printed.as_bytes());
        assert_eq!(told.as_deref(), Ok(store.held()));
        seen.number(0);
        seen.all(ways(store.held(), SHEET_MOST, 0));
        seen.all(left_out::ways_of_image(&input, 0));
    });
    if !one_seed() {
        let kept = [left_out::NONE, left_out::SOME, left_out::ALL];
        seen.expect(&[0, 1, 14], &kept, OFTEN);
        seen.expect_ways(&DIGITS, OFTEN);
        seen.expect_ways(&LAYOUTS, OFTEN / 4);
    }
}
