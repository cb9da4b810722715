//! Images and frames that earlier states wrote, each state's in a folder of
//! `data`. Kiosks keep their cards when they get a new program, and hear
//! others that haven't got it: so no state may read these otherwise than the
//! one that wrote them.
//!
//! What every state owes to an old card is stated here. What a state's own
//! rules make of it is compared between the archive and the second program.
//! Cards with claims that later states leave out have a test of their own,
//! `faulty_cards`; here their kiosks are heard, and hear the others.

mod cards;
mod wallsheet;

use cards::{Card, cards_of, claims_sent, faulty_cards, keys_in, sent_for_all, sound_cards};
use minutefrost::{BEAT_FRAMES, IMAGE_MOST, Refusal, SHEET_MOST, frames};
use second::{Claim, RawStore, host};
use tests::OLD_LIMIT;
use tests::card::{Case, read_image_case, write_image_case};
use tests::draw::{claim_of, claims_in, frame_of, image_of};
use tests::drill::{self, Drill};
use tests::{sheet, sums};

/// What a call leaves: its answer, the image it wrote, and the buffer for
/// frames.
type Left = (usize, Vec<u8>, Vec<u8>);

/// One call by both programs, which must answer and write the same.
fn same(
    archive: impl FnOnce(&mut [u8], &mut [u8]) -> Result<usize, Refusal>,
    second: impl FnOnce(&mut [u8], &mut [u8]) -> i64,
) -> Result<Left, Refusal> {
    let (mut image, mut frames) = (vec![0xA5; IMAGE_MOST], vec![0xA5; BEAT_FRAMES]);
    let (mut other, mut other_frames) = (image.clone(), frames.clone());
    let answer = archive(&mut image, &mut frames);
    let number = answer.map_or_else(|no| -i64::from(no.number()), |length| length as i64);
    assert_eq!(number, second(&mut other, &mut other_frames), "the answers");
    assert!((&image, &frames) == (&other, &other_frames), "the buffers");
    let answer = answer?;
    image.truncate(second::image_length(&image).length);
    Ok((answer, image, frames))
}

fn take(image: &[u8], frame: &[u8]) -> Result<Vec<u8>, Refusal> {
    let (_, taken, _) = same(
        |out, _| minutefrost::take_frame(image, frame, out),
        |out, _| host::take_frame(image, frame, out),
    )?;
    Ok(taken)
}

fn enter(image: &[u8], key: u64) -> Result<Vec<u8>, Refusal> {
    let (_, entered, _) = same(
        |out, _| minutefrost::enter(image, key, out),
        |out, _| host::enter(image, key, out),
    )?;
    Ok(entered)
}

/// The image after a beat, and the frames sent.
fn beat(image: &[u8]) -> Result<(Vec<u8>, Vec<u8>), Refusal> {
    let (length, beaten, mut sent) = same(
        |out, frames| Ok(minutefrost::beat(image, out, frames)?.frames),
        |out, frames| host::beat(image, out, frames),
    )?;
    sent.truncate(length);
    Ok((beaten, sent))
}

#[test]
fn images_hold_what_they_held() -> Result<(), Refusal> {
    for card in sound_cards() {
        let keys = keys_in(&card.image);
        let sum = keys.iter().fold(0, |sum, key| sum ^ key);
        let read = second::read_image(&card.image);
        let held = (keys.len(), sum, read.node.pending_count);
        assert_eq!((read.number, held), (0, card.holds), "{}", card.name);
        assert_eq!(read.node.store.held(), keys, "{}", card.name);
        assert!(minutefrost::keys(&card.image)?.eq(keys), "{}", card.name);
    }
    Ok(())
}

/// The bytes of the longest image before slip 6 of document 02.
const OLD_IMAGE_MOST: usize = 9_860;

/// "Images saved under the old limit mean the same" (document 02, slip 6). Of a
/// kiosk that was full there are two cards of each state until then, one of them
/// as long as an image could be. They are read as just the keys and claims that
/// stand in their bytes; only that there is room again is new.
#[test]
fn full_cards_mean_the_same_and_have_room() -> Result<(), Refusal> {
    let full = |card: &Card| card.holds.0 == OLD_LIMIT;
    let cards: Vec<Card> = sound_cards().into_iter().filter(full).collect();
    let longest = cards
        .iter()
        .filter(|card| card.image.len() == OLD_IMAGE_MOST);
    assert_eq!((cards.len(), longest.count()), (12, 6));
    for card in cards {
        let mut keys = keys_in(&card.image);
        let pending = claims_in(&card.image[4 + 8 * keys.len()..]);
        let read = second::read_image(&card.image);
        assert_eq!(read.node.table(), pending, "{}", card.name);
        let new = keys[keys.len() / 2] + 1;
        assert!(keys.binary_search(&new).is_err(), "{}", card.name);
        let taken = take(&card.image, &frame_of(&[claim_of(&[new])]))?;
        keys.insert(keys.len() / 2 + 1, new);
        assert_eq!(enter(&card.image, new)?, image_of(&keys, &pending));
        assert_eq!(keys_in(&taken), keys, "{}", card.name);
    }
    Ok(())
}

/// Of a state since slip 6 the same two cards are of stores that hold all they
/// can now. A key that they lack is refused, entered or heard; one that they
/// have is not, and the card stays as it is.
#[test]
fn full_cards_stay_full() -> Result<(), Refusal> {
    let full = |card: &Card| card.holds.0 == RawStore::LIMIT;
    let cards: Vec<Card> = sound_cards().into_iter().filter(full).collect();
    let longest = cards.iter().filter(|card| card.image.len() == IMAGE_MOST);
    let states = longest.count();
    assert!(states > 0 && cards.len() == 2 * states);
    for card in cards {
        let keys = keys_in(&card.image);
        let (held, new) = (keys[keys.len() / 2], keys[keys.len() / 2] + 1);
        assert!(keys.binary_search(&new).is_err(), "{}", card.name);
        let heard = take(&card.image, &frame_of(&[claim_of(&[new])]));
        for grown in [enter(&card.image, new), heard] {
            assert_eq!(grown.map_err(|no| no.number()), Err(6), "{}", card.name);
        }
        assert!(enter(&card.image, held)? == card.image, "{}", card.name);
    }
    Ok(())
}

/// Fills the places of a request that mean nothing to its call.
const NOISE: u64 = 0x2D3C_4B5A_6978_8796;

/// The drill's reply, which is what the second program expects, to a call that
/// passes its questions.
fn ask(drill: &mut Drill, case: &Case, told: &str) -> drill::Card {
    let reply = drill.ask(case.call, &case.given);
    assert_eq!((case.differs(&reply), reply.number()), (None, 0), "{told}");
    reply
}

/// "The image doesn't hold them; reading works them out" (document 02, slip 7):
/// beside the keys of a card stand their running sums, whichever state wrote
/// it, and the node is written as the card's own bytes.
#[test]
fn reading_works_running_sums_out() {
    let mut drill = Drill::start();
    for card in sound_cards() {
        let (length, keys) = (card.image.len(), keys_in(&card.image));
        let read = read_image_case(card.image.clone(), length, &mut || NOISE);
        let node = ask(&mut drill, &read, &card.name).node();
        let right = node.store.sums[..] == sums::right_beside(&keys);
        assert!(right && node.store.held() == keys, "{}", card.name);
        let write = write_image_case(&node, length, &mut || NOISE);
        let written = ask(&mut drill, &write, &card.name);
        assert_eq!(written.count(), length, "{}", card.name);
        assert!(written.bytes.starts_with(&card.image), "{}", card.name);
    }
}

/// The wall sheet of an image, by both programs; past it nothing is written.
fn sheet_of(image: &[u8]) -> Result<Vec<u8>, Refusal> {
    let mut out = vec![0xA5; SHEET_MOST];
    let mut other = out.clone();
    let length = minutefrost::sheet(image, &mut out)?;
    assert_eq!(host::sheet(image, &mut other), length as i64, "the answers");
    assert!(out == other, "the buffers");
    let rest = out.split_off(length);
    assert!(rest.iter().all(|byte| *byte == 0xA5), "the rest stays");
    Ok(out)
}

/// Whatever is pending. The program for staff prints the same.
#[test]
fn sheets_tell_the_keys_held() -> Result<(), Refusal> {
    let program = wallsheet::program();
    for card in sound_cards() {
        let sheet = sheet_of(&card.image)?;
        assert_eq!(sheet.len(), sheet::length(card.holds.0), "{}", card.name);
        let keys = keys_in(&card.image);
        assert_eq!(sheet::keys_on(&sheet), Ok(keys), "{}", card.name);
        let printed = wallsheet::compare(&program, &card.image);
        assert!(printed.as_bytes() == sheet, "{}", card.name);
    }
    Ok(())
}

/// By calls that have nothing to change: so all that an image holds is read,
/// and a card is no worse for being used. Since slip 2 of document 02 this is
/// for images without claims that are left out.
#[test]
fn images_are_written_again_as_the_same_bytes() -> Result<(), Refusal> {
    for card in sound_cards() {
        for key in keys_in(&card.image) {
            assert!(enter(&card.image, key)? == card.image, "{}", card.name);
        }
        let replies = card.holds.2 > 0;
        assert!(replies || beat(&card.image)?.0 == card.image);
    }
    Ok(())
}

/// Every kiosk hears every other one, frame after frame. Only where there may
/// be no room for its keys a frame is refused, by 6.
#[test]
fn frames_are_taken() {
    let cards: Vec<Card> = sound_cards().into_iter().chain(faulty_cards()).collect();
    let pairs = cards
        .iter()
        .flat_map(|it| cards.iter().map(move |by| (it, by)));
    for (hearer, speaker) in pairs {
        let told = format!("{} hears {}", hearer.name, speaker.name);
        let walked: usize = frames(&speaker.sent).map(<[u8]>::len).sum();
        assert_eq!(walked, speaker.sent.len(), "{told}: whole frames alone");
        let mut image = hearer.image.clone();
        for frame in frames(&speaker.sent) {
            // Four claims have at most eight ends and four keys between them;
            // the ends of its own claims the hearer has.
            let room = keys_in(&image).len() + 12 <= RawStore::LIMIT;
            let owed = room || hearer.name == speaker.name;
            match take(&image, frame) {
                Ok(taken) => image = taken,
                Err(no) => assert!(!owed && no.number() == 6, "{told}: {no}"),
            }
        }
    }
}

/// An old image sends what it sent or, if a state before slip 8 of document 02
/// wrote it, the front of that: then all pending claims were replied to, and now
/// eight are. Taken by eights, they are replied to as they were.
#[test]
fn beats_send_what_they_sent() -> Result<(), Refusal> {
    let mut shorter = 0;
    for card in sound_cards() {
        let (image, sent) = beat(&card.image)?;
        let (now, then) = (claims_sent(&sent), claims_sent(&card.sent));
        let by_eights = sent_for_all(&card.image, |part| beat(part).expect("an image").1);
        assert!(then.starts_with(&now), "{} sends others", card.name);
        assert!(then == now || then == by_eights, "{}", card.name);
        assert_eq!(keys_in(&image), keys_in(&card.image), "{}", card.name);
        shorter += usize::from(then != now);
    }
    // `table` and `full_table` of the base and of slips 1 to 7.
    assert_eq!(shorter, 16);
    Ok(())
}

/// Since slip 8 a beat replies to eight: a card of that state sends the bytes
/// that it sent, whatever waits behind the eight.
#[test]
fn beats_of_eight_replies_send_the_same_bytes() -> Result<(), Refusal> {
    for card in cards_of("slip8") {
        assert_eq!(beat(&card.image)?.1, card.sent, "{}", card.name);
    }
    Ok(())
}

/// The base left a claim of three pending with but its ends held. No beat adds
/// the middle key, so the claim is asked about and kept. Whether hearing it
/// once more adds that key is the state's own rule.
#[test]
fn a_pending_claim_of_three_is_asked_about() -> Result<(), Refusal> {
    let base = cards_of("base");
    let [three, heard] = ["/three", "/heard_three"].map(|name| {
        let found = base.iter().find(|card| card.name.ends_with(name));
        found.expect("the base wrote it")
    });
    let [claim, own] = [Claim::new(1, 16, 19, 3), Claim::new(1, 16, 17, 2)];
    assert_eq!(three.sent, frame_of(&[claim]));
    assert_eq!(heard.image, image_of(&[1, 16], &[claim]));
    let (image, sent) = beat(&heard.image)?;
    assert_eq!((image, sent), (heard.image.clone(), frame_of(&[own, own])));
    let keys = keys_in(&take(&heard.image, &three.sent)?);
    assert!(keys == [1, 16] || keys == [1, 2, 16], "{keys:?}");
    Ok(())
}
