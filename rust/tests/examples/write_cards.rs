//! Writes the cards of this state, to which the test `old_cards` holds every
//! later one: `cargo run -p tests --example write_cards -- FOLDER`. Then prints
//! the rows for that folder's README. All bytes come from the archive's calls,
//! and each run writes the same.

mod kiosk;

use std::path::Path;
use std::{env, io};

use kiosk::Kiosk;
use minutefrost::KEYS_MOST;
use second::PENDING;
use tests::draw::Rng;

/// A kiosk that heard others until its table had no place left. In turns with
/// one other it would not come to that: a beat replies to eight.
fn with_full_table(rng: &mut Rng) -> Kiosk {
    let mut kiosk = Kiosk::hearer(rng, 200, 9);
    while kiosk.pending() < PENDING {
        kiosk.hear(&Kiosk::hearer(rng, 40, 9).beat());
    }
    kiosk
}

fn cards() -> [(&'static str, Kiosk); 7] {
    let mut rng = Rng(1_024);
    let mut small = Kiosk::hearer(&mut rng, 4, 3);
    [0, u64::MAX].into_iter().for_each(|key| small.enter(key));
    let [mut three, mut heard_three] = [Kiosk::of([1, 2, 16]), Kiosk::of([])];
    // Sends (1, 16, 19, 3) and, with nothing pending, keeps its image.
    heard_three.hear(&three.beat());
    [
        ("empty", Kiosk::of([])),
        ("small", small),
        ("full", Kiosk::of([]).filled(&mut rng, KEYS_MOST)),
        ("table", with_full_table(&mut rng)),
        (
            "full_table",
            with_full_table(&mut rng).filled(&mut rng, KEYS_MOST),
        ),
        ("three", three),
        ("heard_three", heard_three),
    ]
}

fn main() -> io::Result<()> {
    let folder = env::args().nth(1).expect("the folder to write to");
    for (name, kiosk) in cards() {
        println!("{}", kiosk.write(Path::new(&folder), name)?);
    }
    Ok(())
}
