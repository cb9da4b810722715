//! Cards of any two states in one image (document 02, slip 9): a branch may have
//! closed long ago, and its card may be older than the program that joins it.
//! What they become is told by the bytes of both, and by neither program.

mod archive;
mod cards;

use std::collections::BTreeSet;

use archive::{Asked, written_by};
use cards::{
    Card, cards_of, claim_in, faulty_cards, keys_in, pending_in, sound_cards, without_faulty,
};
use second::{Claim, IMAGE_MOST, PENDING, RawStore};
use tests::OLD_LIMIT;
use tests::cases::Seen;
use tests::draw::image_of;

const LIMIT: usize = RawStore::LIMIT;

/// Fills the buffers that are lent.
const NOISE: u64 = 0x6978_8796_A5B4_C3D2;

/// The image that two cards become, by both programs and in either order, or the
/// number of the refusal.
fn join(first: &Card, second: &Card) -> Result<Vec<u8>, u8> {
    let [image, turned] = [[first, second], [second, first]].map(|pair| {
        let [first, second] = pair.map(|card| card.image.clone());
        written_by(&Asked::Join(first, second, IMAGE_MOST), NOISE)
    });
    assert!(image == turned, "{} and {}", first.name, second.name);
    image
}

/// The keys that stand on either card.
fn keys_of_both(first: &Card, second: &Card) -> Vec<u64> {
    let keys: BTreeSet<u64> = [first, second]
        .iter()
        .flat_map(|card| keys_in(&card.image))
        .collect();
    keys.into_iter().collect()
}

/// The claims that wait on either card, by their rank, without faulty ones.
fn claims_of_both(first: &Card, second: &Card) -> Vec<Claim> {
    let rest = [first, second].map(|card| without_faulty(&card.image));
    let mut claims: Vec<Claim> = rest
        .iter()
        .flat_map(|image| pending_in(image))
        .map(claim_in)
        .collect();
    claims.sort_by_key(Claim::rank);
    claims.dedup();
    claims
}

/// Whether a card is of a state whose stores held 1,024 keys, and full.
fn was_full(card: &Card) -> bool {
    card.holds.0 == OLD_LIMIT
}

/// The state that wrote a card.
fn state_of(card: &Card) -> &str {
    card.name
        .rsplit('/')
        .nth(1)
        .expect("a folder for each state")
}

/// Each card with each, of the same state or of others.
#[test]
fn any_two_cards_become_one() {
    let mut seen = Seen::default();
    let cards: Vec<Card> = sound_cards().into_iter().chain(faulty_cards()).collect();
    for (at, first) in cards.iter().enumerate() {
        for second in &cards[at..] {
            let told = format!("{} and {}", first.name, second.name);
            let (keys, mut claims) = (keys_of_both(first, second), claims_of_both(first, second));
            let image = join(first, second);
            seen.number(image.as_ref().err().copied().unwrap_or(0));
            if keys.len() > LIMIT {
                assert_eq!(image, Err(8), "{told}");
                continue;
            }
            seen.way(if state_of(first) == state_of(second) {
                "one state"
            } else {
                "two states"
            });
            if claims.len() > PENDING {
                seen.way("more than 64 claims");
            }
            claims.truncate(PENDING);
            assert!(image == Ok(image_of(&keys, &claims)), "{told}");
        }
    }
    seen.expect(
        &[0, 8],
        &["one state", "two states", "more than 64 claims"],
        100,
    );
}

/// A kiosk that was full under the old limit closes, and a kiosk of today with a
/// few keys gets its card: it has room for all of them.
#[test]
fn cards_that_were_full_go_to_a_new_kiosk() {
    let newest = cards_of("slip8");
    let small = newest.iter().find(|card| card.name.ends_with("/small"));
    let small = small.expect("it is told");
    let full: Vec<Card> = sound_cards().into_iter().filter(was_full).collect();
    assert_eq!(full.len(), 12);
    for card in &full {
        let image = join(card, small).expect("they fit");
        assert_eq!(keys_in(&image), keys_of_both(card, small), "{}", card.name);
        assert!(keys_in(&image).len() > OLD_LIMIT, "{}", card.name);
    }
}

/// Joined with itself a card is what it was, but for faulty claims.
#[test]
fn cards_with_themselves() {
    for card in sound_cards().into_iter().chain(faulty_cards()) {
        let image = join(&card, &card).expect("a card");
        assert!(image == without_faulty(&card.image), "{}", card.name);
        assert_eq!(
            image == card.image,
            card.left == card.holds.2,
            "{}",
            card.name
        );
    }
}
