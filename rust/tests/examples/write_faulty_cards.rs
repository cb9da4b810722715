//! Writes cards of kiosks that heard a faulty radio: claims of three whose
//! middle key would not lie between lo and hi. `cargo run -p tests --example
//! write_faulty_cards -- FOLDER` writes them and prints the rows for that
//! folder's README, each run the same.
//!
//! The calls must be those of a state before slip 2 of document 02: later ones
//! refuse such frames by 13, so that the program ends at the first. To write
//! them in a later state, let `MINUTEFROST_ARCHIVE_DIR` name the folder of an
//! archive that `rt staticlib host` made in a checkout of commit 9cf3c90.

mod kiosk;

use std::path::Path;
use std::{env, io};

use kiosk::Kiosk;
use second::Claim;
use tests::OLD_LIMIT;
use tests::draw::{Density, Rng, frame_of};

/// The claim of three keys with this one as the middle.
fn three(lo: u64, middle: u64, hi: u64) -> Claim {
    Claim::new(lo, hi, lo ^ middle ^ hi, 3)
}

/// One that a store could make.
fn sound(lo: u64, hi: u64) -> Claim {
    three(lo, lo.midpoint(hi), hi)
}

/// One whose middle key isn't between its ends: lo, hi, below and above them in
/// turns.
fn faulty(turn: usize, lo: u64, hi: u64) -> Claim {
    let middles = [lo, hi, lo.wrapping_sub(1), hi.wrapping_add(1)];
    three(lo, middles[turn % 4], hi)
}

/// A card to write, and how many faulty claims are pending there.
struct Card {
    name: &'static str,
    kiosk: Kiosk,
    faulty: usize,
}

/// The card of a kiosk that hears some claims from its neighbour, and then
/// faulty ones.
fn card(name: &'static str, mut kiosk: Kiosk, sound: &[Claim], faulty: &[Claim]) -> Card {
    for claims in [sound, faulty] {
        let sent: Vec<u8> = claims.chunks(4).flat_map(frame_of).collect();
        kiosk.hear(&sent);
    }
    Card {
        name,
        kiosk,
        faulty: faulty.len(),
    }
}

/// Each way in which a middle key isn't between its ends.
fn small_cards() -> [Card; 7] {
    // {1, 16} with (1, 16, 19, 3) pending, as the base left it.
    let heard_three = Kiosk(include_bytes!("../tests/data/base/heard_three.image").to_vec());
    let empty = || Kiosk::of([]);
    let pair = Claim::new(1, 16, 17, 2);
    // All the same but cnt: of four keys the rule asks nothing like it.
    let [above, of_four] = [3, 4].map(|cnt| Claim::new(1, 16, 5, cnt));
    let close = [5, 6, 8, 9].map(|middle| three(6, middle, 8));
    let far = [0, u64::MAX].map(|middle| three(0, middle, u64::MAX));
    [
        card("one_among", heard_three, &[pair], &[above]),
        card("at_lo", empty(), &[], &[three(1, 1, 16)]),
        card("at_hi", empty(), &[], &[three(1, 16, 16)]),
        card("below_lo", empty(), &[], &[three(4, 2, 16)]),
        card("above_hi", empty(), &[of_four], &[above]),
        card("two_apart", empty(), &[three(6, 7, 8)], &close),
        card("widest", empty(), &[three(0, 1 << 63, u64::MAX)], &far),
    ]
}

/// As many claims pending as fit, each between two neighbours of 65 keys, the
/// faulty ones at these places of the table.
fn table(name: &'static str, rng: &mut Rng, is_faulty: impl Fn(usize) -> bool) -> Card {
    let keys = rng.keys_of(65, Density::WIDE);
    let places = keys.windows(2).enumerate();
    let (ill, well): (Vec<_>, Vec<_>) = places.partition(|(at, _)| is_faulty(*at));
    let ill = ill.iter().map(|(at, ends)| faulty(*at, ends[0], ends[1]));
    let well = well.iter().map(|(_, ends)| sound(ends[0], ends[1]));
    let [well, ill] = [well.collect::<Vec<Claim>>(), ill.collect()];
    card(name, Kiosk::of(keys), &well, &ill)
}

/// A kiosk with a full table of a neighbour's claims, which then hears eight
/// faulty ones: half of them of neighbouring keys, half with others between.
fn busy(name: &'static str, kiosk: Kiosk, sound: &[Claim]) -> Card {
    let keys: Vec<u64> = kiosk.keys().collect();
    let eight: [Claim; 8] = std::array::from_fn(|at| {
        let first = 20 * at;
        let last = first + if at < 4 { 1 } else { 4 };
        faulty(at, keys[first], keys[last])
    });
    card(name, kiosk, sound, &eight)
}

fn cards() -> Vec<Card> {
    let mut rng = Rng(16);
    let mut cards = Vec::from(small_cards());
    cards.push(table("table_all", &mut rng, |_| true));
    let places = |at| matches!(at, 0 | 1 | 20..30 | 40 | 63);
    cards.push(table("table_some", &mut rng, places));
    let mixed = Kiosk::hearer(&mut rng, 200, 9);
    cards.push(busy("table_mixed", mixed, &[]));
    let full = Kiosk::hearer(&mut rng, 200, 9).filled(&mut rng, OLD_LIMIT);
    let keys: Vec<u64> = full.keys().collect();
    // Without space for its middle key it is asked about.
    let waiting = sound(keys[0], keys[1]);
    cards.push(busy("full_store", full, &[waiting]));
    cards
}

fn main() -> io::Result<()> {
    let folder = env::args().nth(1).expect("the folder to write to");
    for card in cards() {
        let left = card.kiosk.pending() - card.faulty;
        let row = card.kiosk.write(Path::new(&folder), card.name)?;
        println!("{row} {left} |");
    }
    Ok(())
}
