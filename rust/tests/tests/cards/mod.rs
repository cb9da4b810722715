//! Cards that earlier states wrote, each state's in a folder of `data`, and
//! what stands in their bytes, read by neither program.

#![allow(dead_code)] // Each test file is a program that uses a part of this.

use std::fs;
use std::path::Path;

use minutefrost::frames;
use second::Claim;
use tests::replies::REPLIES;

const DATA: &str = concat!(env!("CARGO_MANIFEST_DIR"), "/tests/data");

/// The folder of cards with claims pending that no store could make.
const FAULTY: &str = "faulty";

/// An image and the frames that its beat sent, end to end; what it holds, as
/// the README beside them tells it.
pub struct Card {
    pub name: String,
    pub image: Vec<u8>,
    pub sent: Vec<u8>,
    /// How many keys, their XOR, and how many claims are pending.
    pub holds: (usize, u64, usize),
    /// How many of these claims are used: all where the README tells no number.
    pub left: usize,
}

impl Card {
    /// The card of a row of the README's table.
    fn of_row(folder: &Path, row: &str) -> Option<Card> {
        let row = row.strip_prefix("| ")?.strip_suffix(" |")?;
        let mut cells = row.split(" | ");
        let file = folder.join(cells.next()?);
        let mut number = || cells.next()?.parse::<u64>().ok();
        let holds = (number()? as usize, number()?, number()? as usize);
        let _bytes_and_frames = (number()?, number()?);
        let left = number().map_or(holds.2, |left| left as usize);
        let read = |kind| fs::read(file.with_extension(kind)).expect("the README names files");
        Some(Card {
            name: file.display().to_string(),
            image: read("image"),
            sent: read("frames"),
            holds,
            left,
        })
    }
}

/// The cards of a folder. None lies there untold, for it would go untested.
pub fn cards_of(folder: &str) -> Vec<Card> {
    let folder = &Path::new(DATA).join(folder);
    let readme = fs::read_to_string(folder.join("README.md")).expect("each folder has one");
    let cards = readme.lines().filter_map(|row| Card::of_row(folder, row));
    let cards: Vec<Card> = cards.collect();
    let files = fs::read_dir(folder).expect("a folder").count();
    assert_eq!(files, 1 + 2 * cards.len(), "files in {}", folder.display());
    cards
}

/// The cards of all states, none with a faulty claim.
pub fn sound_cards() -> Vec<Card> {
    let folders = fs::read_dir(DATA).expect("a folder");
    let folders = folders.map(|folder| folder.expect("a folder").file_name());
    let folders = folders.map(|name| name.into_string().expect("a plain name"));
    let sound = folders.filter(|name| name != FAULTY);
    let cards: Vec<Card> = sound.flat_map(|name| cards_of(&name)).collect();
    for card in &cards {
        assert!(without_faulty(&card.image) == card.image, "{}", card.name);
    }
    cards
}

/// The cards of kiosks that heard a faulty radio, each with a faulty claim.
pub fn faulty_cards() -> Vec<Card> {
    let cards = cards_of(FAULTY);
    for card in &cards {
        assert!(without_faulty(&card.image) != card.image, "{}", card.name);
    }
    cards
}

/// A claim's bytes: lo, hi and sum in 8 each, cnt in 2.
pub type ClaimBytes = [u8; 26];

/// The keys as they stand in an image: how many in 2 bytes, then 8 bytes each.
pub fn keys_in(image: &[u8]) -> Vec<u64> {
    let count = usize::from(u16::from_be_bytes([image[0], image[1]]));
    let (keys, _) = image[2..][..8 * count].as_chunks();
    keys.iter().map(|key| u64::from_be_bytes(*key)).collect()
}

/// The pending claims as they stand behind the keys: how many in 2 bytes, then
/// the claims, to the image's end.
pub fn pending_in(image: &[u8]) -> &[ClaimBytes] {
    let (count, claims) = image[2 + 8 * keys_in(image).len()..].split_at(2);
    let (claims, rest) = claims.as_chunks();
    assert_eq!(count, (claims.len() as u16).to_be_bytes());
    assert!(rest.is_empty());
    claims
}

/// The claims of frames that stand end to end.
pub fn claims_sent(sent: &[u8]) -> Vec<ClaimBytes> {
    let claims = frames(sent).flat_map(|frame| frame[4..].as_chunks().0);
    claims.copied().collect()
}

/// What an image's beats send if its pending claims are taken by eights, the
/// whole claim once. A beat adds no key: so these are the replies to all of
/// them, as one beat sent them until slip 8 of document 02.
pub fn sent_for_all(image: &[u8], beat: impl Fn(&[u8]) -> Vec<u8>) -> Vec<ClaimBytes> {
    let keys = &image[..2 + 8 * keys_in(image).len()];
    let beat_of = |claims: &[ClaimBytes]| {
        let count = (claims.len() as u16).to_be_bytes();
        claims_sent(&beat(&[keys, &count, claims.as_flattened()].concat()))
    };
    let mut sent = beat_of(&[]);
    let whole = sent.len();
    for eight in pending_in(image).chunks(REPLIES) {
        sent.extend(&beat_of(eight)[whole..]);
    }
    sent
}

/// The claim of its bytes.
pub fn claim_in(bytes: &ClaimBytes) -> Claim {
    let number = |at: usize| {
        let bytes = bytes[at..at + 8].try_into().expect("eight bytes");
        u64::from_be_bytes(bytes)
    };
    let cnt = u16::from_be_bytes([bytes[24], bytes[25]]);
    Claim::new(number(0), number(8), number(16), cnt)
}

/// Whether no store could make a claim: it is of three keys, and the one in
/// the middle would not lie between the others (document 02, slip 2).
pub fn is_faulty(claim: &Claim) -> bool {
    let Claim { lo, hi, sum, cnt } = *claim;
    let middle = sum ^ lo ^ hi;
    cnt == 3 && !(lo < middle && middle < hi)
}

/// An image's bytes without those of its faulty claims, the count of claims
/// being that of the others.
pub fn without_faulty(image: &[u8]) -> Vec<u8> {
    let claims = pending_in(image);
    let keys = &image[..image.len() - 2 - claims.as_flattened().len()];
    let left = claims.iter().filter(|claim| !is_faulty(&claim_in(claim)));
    let left: Vec<ClaimBytes> = left.copied().collect();
    let count = (left.len() as u16).to_be_bytes();
    [keys, &count, left.as_flattened()].concat()
}
