//! Cards of kiosks that heard a faulty radio (`data/faulty`): claims of three
//! that no store could make are pending there. Once such an image has passed
//! 14 and 1 as before, they are left out and the rest of it is used (document
//! 02, slip 2). So each call does with it what it does with its bytes without
//! theirs, and these are worked out by neither program.

mod archive;
mod cards;
mod rehearse;
mod wallsheet;

use std::collections::BTreeSet;

use archive::{Asked, compare, written_by};
use cards::*;
use minutefrost::{BEAT_FRAMES, EMPTY_IMAGE, IMAGE_MOST, SHEET_MOST, frames};
use second::{Claim, PENDING, RawNode, RawStore};
use tests::OLD_LIMIT;
use tests::card::{image_length_case, read_image_case, write_image_case};
use tests::draw::{claim_of, frame_of, image_of};
use tests::drill::Drill;
use tests::sheet;

const LIMIT: usize = RawStore::LIMIT;

/// Fills the buffers that are lent, and the places that mean nothing.
const NOISE: u64 = 0x5A5A_0101_F0F0_3C3C;

/// Claims from 1 to 16, in their order: of both ends, of three keys with the
/// middle one above hi, and of {1, 2, 16}.
const PAIR: Claim = Claim::new(1, 16, 17, 2);
const FAULTY: Claim = Claim::new(1, 16, 5, 3);
const THREE: Claim = Claim::new(1, 16, 19, 3);

// ---- the calls, and what they leave ----

fn take(image: &[u8], frame: &[u8]) -> Asked {
    Asked::Take(image.to_vec(), frame.to_vec(), IMAGE_MOST)
}

fn beat(image: &[u8]) -> Asked {
    Asked::Beat(image.to_vec(), IMAGE_MOST, BEAT_FRAMES)
}

fn enter(image: &[u8], key: u64) -> Asked {
    Asked::Enter(image.to_vec(), key, IMAGE_MOST)
}

fn count(image: &[u8]) -> Asked {
    Asked::Count(image.to_vec())
}

fn sheet(image: &[u8]) -> Asked {
    Asked::Sheet(image.to_vec(), SHEET_MOST)
}

fn join(first: &[u8], second: &[u8]) -> Asked {
    Asked::Join(first.to_vec(), second.to_vec(), IMAGE_MOST)
}

/// Both programs write this image, and answer its length.
fn expect_written(asked: &Asked, image: &[u8], told: &str) {
    let wanted = asked.leaving(NOISE, image.len() as i64, image, &[]);
    assert!(compare(asked, NOISE) == wanted, "{told}");
}

/// Both programs write this image and these frames, and answer their length.
fn expect_beaten(asked: &Asked, image: &[u8], sent: &[u8], told: &str) {
    let wanted = asked.leaving(NOISE, sent.len() as i64, image, sent);
    assert!(compare(asked, NOISE) == wanted, "{told}");
}

/// Both programs refuse the call by this number. What was lent stays as it
/// was, and so does the card.
fn expect_refused(asked: &Asked, number: u8, told: &str) {
    let image = asked.image().to_vec();
    let left = compare(asked, NOISE);
    assert_eq!(left.answer, -i64::from(number), "{told}");
    assert!(
        left == asked.leaving(NOISE, left.answer, &[], &[]),
        "{told}"
    );
    assert!(asked.image() == image, "{told}");
}

/// What the drill reads from an image, and the second program with it: the
/// number and the node.
fn read_image(drill: &mut Drill, image: &[u8]) -> (u8, RawNode) {
    let case = read_image_case(image.to_vec(), image.len(), &mut || NOISE);
    let reply = drill.ask(case.call, &case.given);
    assert_eq!(case.differs(&reply), None);
    (reply.number(), reply.node())
}

/// The node of an image's bytes as they stand.
fn node_in(image: &[u8]) -> RawNode {
    let pending: Vec<Claim> = pending_in(image).iter().map(claim_in).collect();
    RawNode::of(RawStore::of(&keys_in(image)), &pending)
}

// ---- the cards ----

#[test]
fn images_hold_what_they_held() {
    for card in faulty_cards() {
        let keys = keys_in(&card.image);
        let sum = keys.iter().fold(0, |sum, key| sum ^ key);
        let held = (keys.len(), sum, pending_in(&card.image).len());
        assert_eq!(held, card.holds, "{}", card.name);
        let left = pending_in(&without_faulty(&card.image)).len();
        assert_eq!(left, card.left, "{}", card.name);
        let answer = compare(&count(&card.image), NOISE).answer;
        assert_eq!(answer, keys.len() as i64, "{}", card.name);
        let told = minutefrost::keys(&card.image);
        assert!(told.is_ok_and(|told| told.eq(keys)), "{}", card.name);
    }
}

/// Read, they are nodes without the faulty claims, which are written as the
/// bytes without theirs. How long an image is still follows from its counts.
#[test]
fn nodes_are_without_faulty_claims() {
    let mut drill = Drill::start();
    for card in faulty_cards() {
        let image = without_faulty(&card.image);
        let (number, node) = read_image(&mut drill, &card.image);
        assert_eq!(number, 0, "{}", card.name);
        assert!(node == node_in(&image), "{}", card.name);
        let written = write_image_case(&node, image.len(), &mut || NOISE);
        let reply = drill.ask(written.call, &written.given);
        assert_eq!(written.differs(&reply), None, "{}", card.name);
        assert!(reply.bytes.starts_with(&image), "{}", card.name);
        let length = image_length_case(card.image.clone(), card.image.len(), &mut || NOISE);
        let reply = drill.ask(length.call, &length.given);
        assert_eq!(length.differs(&reply), None, "{}", card.name);
        let told = (reply.number(), reply.count());
        assert_eq!(told, (0, card.image.len()), "{}", card.name);
    }
}

/// By calls that have nothing else to change; the second use of a card leaves
/// the bytes that the first one left.
#[test]
fn images_are_written_again_without_faulty_claims() {
    for card in faulty_cards() {
        let image = without_faulty(&card.image);
        for key in keys_in(&card.image) {
            expect_written(&enter(&card.image, key), &image, &card.name);
            expect_written(&enter(&image, key), &image, &card.name);
        }
        for other in [&card.image[..], &image, &EMPTY_IMAGE] {
            expect_written(&join(&card.image, other), &image, &card.name);
            expect_written(&join(other, &card.image), &image, &card.name);
        }
        if card.left == 0 {
            let sent = frame_of(&[claim_of(&keys_in(&image))]);
            expect_beaten(&beat(&card.image), &image, &sent, &card.name);
            expect_beaten(&beat(&image), &image, &sent, &card.name);
        }
    }
}

/// The program for staff prints the same sheet.
#[test]
fn sheets_tell_the_keys_held() {
    let program = wallsheet::program();
    for card in faulty_cards() {
        let keys = keys_in(&card.image);
        let length = sheet::length(keys.len());
        let written = written_by(&Asked::Sheet(card.image.clone(), length), NOISE);
        let written = written.expect("the card is taken");
        assert_eq!(written.len(), length, "{}", card.name);
        assert_eq!(sheet::keys_on(&written), Ok(keys), "{}", card.name);
        let printed = wallsheet::compare(&program, &card.image);
        assert!(printed.as_bytes() == written, "{}", card.name);
    }
}

/// Whatever a call is given with the card, and whether it is refused or not.
#[test]
fn calls_go_as_without_faulty_claims() {
    let speakers: Vec<Card> = sound_cards().into_iter().chain(faulty_cards()).collect();
    for card in faulty_cards() {
        let image = without_faulty(&card.image);
        let same = |call: &dyn Fn(&[u8]) -> Asked| {
            let [with, without] = [&card.image, &image].map(|image| compare(&call(image), NOISE));
            assert!(with == without, "{}", card.name);
        };
        same(&count);
        same(&beat);
        same(&sheet);
        for frame in speakers.iter().flat_map(|speaker| frames(&speaker.sent)) {
            same(&|image| take(image, frame));
        }
        for other in &speakers {
            same(&|image| join(image, &other.image));
            same(&|image| join(&other.image, image));
        }
        for key in [0, 2, 1 << 40, u64::MAX] {
            same(&|image| enter(image, key));
        }
    }
}

/// Nothing is sent that wasn't sent before, and for each faulty claim one or
/// two are missing: what asked about it, or helped. By eights, since a beat then
/// replied to all pending claims.
#[test]
fn beats_say_nothing_of_faulty_claims() {
    for card in faulty_cards() {
        let sent = sent_for_all(&card.image, |part| {
            let left = compare(&beat(part), NOISE);
            left.frames[..left.answer as usize].to_vec()
        });
        let before = claims_sent(&card.sent);
        assert!(!before.iter().map(claim_in).any(|claim| is_faulty(&claim)));
        let mut rest = before.iter();
        let in_order = sent.iter().all(|claim| rest.any(|it| it == claim));
        assert!(in_order, "{} sends something else", card.name);
        let (missing, faulty) = (before.len() - sent.len(), card.holds.2 - card.left);
        assert!(
            (faulty..=2 * faulty).contains(&missing),
            "{}: {missing} for {faulty}",
            card.name
        );
    }
}

/// {1, 16}, one faulty claim between two others.
#[test]
fn one_among_others() {
    let image = image_of(&[1, 16], &[PAIR, FAULTY, THREE]);
    let mut cards = faulty_cards().into_iter();
    let card = cards.find(|card| card.name.ends_with("/one_among"));
    assert_eq!(card.expect("it is told").image, image);
    // The first of the two others matches, the second is asked about.
    let (after, sent) = (image_of(&[1, 16], &[THREE]), frame_of(&[PAIR, PAIR]));
    expect_beaten(&beat(&image), &after, &sent, "beat");
    // Heard again, it tells the key 2.
    let taken = image_of(&[1, 2, 16], &[PAIR, THREE]);
    expect_written(&take(&image, &frame_of(&[THREE])), &taken, "take");
    let entered = image_of(&[1, 7, 16], &[PAIR, THREE]);
    expect_written(&enter(&image, 7), &entered, "enter");
}

/// A table that was full has space for a claim that comes last in order.
#[test]
fn faulty_claims_take_no_places() {
    let full = |card: &Card| card.holds.2 == PENDING;
    for card in faulty_cards().into_iter().filter(full) {
        let node = node_in(&without_faulty(&card.image));
        let (keys, mut pending) = (node.store.held(), node.table().to_vec());
        let last = Claim::new(keys[0], keys[keys.len() - 1], NOISE, LIMIT as u16);
        pending.push(last);
        let taken = image_of(keys, &pending);
        expect_written(&take(&card.image, &frame_of(&[last])), &taken, &card.name);
    }
}

/// Refused only where the union is too large.
#[test]
fn rehearsals_go_as_without_faulty_claims() {
    let program = rehearse::program();
    let cards = faulty_cards();
    let pairs = cards
        .iter()
        .flat_map(|left| cards.iter().map(move |right| [left, right]));
    for pair in pairs {
        let with = pair.map(|card| card.image.clone()).concat();
        let without = pair.map(|card| without_faulty(&card.image)).concat();
        let printed = rehearse::compare(&program, &with);
        let told = pair.map(|card| &card.name);
        assert_eq!(printed, rehearse::compare(&program, &without), "{told:?}");
        let union: BTreeSet<u64> = pair.iter().flat_map(|card| keys_in(&card.image)).collect();
        match rehearse::number_of(union.len()) {
            0 => assert!(printed.contains("left"), "{told:?}: {printed}"),
            number => assert_eq!(printed, format!("refused {number}\n"), "{told:?}"),
        }
    }
}

// ---- refused by a later question ----

/// A byte too few for the sheet of a card.
fn short_of_a_sheet(image: &[u8]) -> usize {
    sheet::length(keys_in(image).len()) - 1
}

/// Calls with a card, and the number that refuses each.
fn refused_calls(card: &Card) -> Vec<(Asked, u8)> {
    let image = card.image.clone();
    let key = keys_in(&image)[0];
    let held = claim_of(&[key]);
    let mut pending = pending_in(&image).iter().map(claim_in);
    let faulty = pending.find(is_faulty).expect("each card has one");
    let frame = frame_of(&[held]);
    let bent = |at: usize, byte: u8| {
        let mut frame = frame.clone();
        frame[at] = byte;
        take(&image, &frame)
    };
    vec![
        (take(&image, &[]), 10),
        (bent(1, 0x44), 10),
        (bent(2, 2), 11),
        (bent(3, 2), 12),
        (take(&image, &frame_of(&[faulty])), 13),
        (take(&image, &frame_of(&[held, held, held, faulty])), 13),
        (Asked::Take(image.clone(), frame, IMAGE_MOST - 1), 15),
        (Asked::Enter(image.clone(), key, IMAGE_MOST - 1), 15),
        (Asked::Beat(image.clone(), IMAGE_MOST - 1, BEAT_FRAMES), 15),
        (Asked::Beat(image.clone(), IMAGE_MOST, BEAT_FRAMES - 1), 15),
        (Asked::Sheet(image.clone(), short_of_a_sheet(&image)), 15),
        (Asked::Join(image.clone(), image, IMAGE_MOST - 1), 15),
    ]
}

/// An image with more keys, up to as many as fit; its claims are pending still.
fn filled(image: &[u8]) -> Vec<u8> {
    let node = node_in(image);
    let mut keys = node.store.held().to_vec();
    let others = (0..)
        .map(|at: u64| !at)
        .filter(|key| !node.store.held().contains(key));
    keys.extend(others.take(LIMIT - keys.len()));
    keys.sort_unstable();
    image_of(&keys, node.table())
}

/// Calls with the image of a full store. Claims are asked about before room, and
/// room before buffers.
fn refused_for_room(image: &[u8]) -> Vec<(Asked, u8)> {
    let keys = keys_in(image);
    let [held, new] = [keys[0], keys[0] + 1].map(|key| claim_of(&[key]));
    let faulty = Claim::new(new.lo, u64::MAX, u64::MAX, 3);
    assert!(is_faulty(&faulty) && !keys.contains(&new.lo));
    let frame = frame_of(&[held, new]);
    vec![
        (enter(image, new.lo), 6),
        (take(image, &frame), 6),
        (Asked::Take(image.to_vec(), frame, 0), 6),
        (Asked::Take(image.to_vec(), frame_of(&[new, faulty]), 0), 13),
        (join(image, &image_of(&[new.lo], &[])), 8),
    ]
}

#[test]
fn refused_calls_leave_the_card() {
    let mut full_stores = 0;
    for card in faulty_cards() {
        let mut calls = refused_calls(&card);
        // Full when it was written: there may be room by now.
        if card.holds.0 == OLD_LIMIT {
            calls.extend(refused_for_room(&filled(&card.image)));
            full_stores += 1;
        }
        for (asked, number) in calls {
            expect_refused(&asked, number, &card.name);
        }
    }
    assert!(full_stores > 0);
}

// ---- refused by 14 and 1, as before ----

/// Images that only a faulty claim puts out of order.
fn out_of_order() -> Vec<Vec<u8>> {
    let mut images = vec![
        // Not in its place, or twice there.
        image_of(&[1, 16], &[FAULTY, PAIR, THREE]),
        image_of(&[1, 16], &[PAIR, THREE, FAULTY]),
        image_of(&[1, 16], &[PAIR, FAULTY, FAULTY, THREE]),
        // Its lo isn't held, or its hi, or neither.
        image_of(&[2, 16], &[claim_of(&[2, 16]), FAULTY]),
        image_of(&[1, 15], &[claim_of(&[1, 15]), FAULTY]),
        image_of(&[2, 15], &[FAULTY]),
    ];
    // It doesn't pass 2 to 5 either: lo is above hi, or they are too close.
    for (lo, hi) in [(16, 1), (16, 16), (15, 16)] {
        let faulty = Claim::new(lo, hi, 5, 3);
        images.push(image_of(&[1, 15, 16], &[PAIR, faulty]));
    }
    images
}

/// 65 claims, one of them faulty: the count is too large as it stands.
fn with_too_many() -> Vec<u8> {
    let keys: Vec<u64> = (0..66).map(|at| 2 * at).collect();
    let mut pending: Vec<Claim> = (keys[..65].iter())
        .map(|key| claim_of(&[*key, key + 1, key + 2]))
        .collect();
    pending[30].sum ^= 1 << 40;
    image_of(&keys, &pending)
}

/// A faulty claim taken out of the count alone, or of the bytes alone.
fn miscounted() -> [Vec<u8>; 2] {
    let [mut more, mut fewer] = [&[PAIR, FAULTY][..], &[PAIR]].map(|it| image_of(&[1, 16], it));
    // The low byte of the count, behind two keys and theirs.
    let at = 2 + 2 * 8 + 1;
    (more[at], fewer[at]) = (1, 2);
    [more, fewer]
}

fn expect_no_rehearsal(images: [&[u8]; 2], number: u8) {
    let printed = rehearse::compare(&rehearse::program(), &images.concat());
    assert_eq!(printed, format!("refused {number}\n"), "{images:?}");
}

/// Every call refuses the image, and so does a rehearsal with it on the right.
fn expect_no_image(drill: &mut Drill, image: &[u8], number: u8) {
    let told = format!("{image:?}");
    let frame = frame_of(&[claim_of(&[16])]);
    let calls = [
        count(image),
        beat(image),
        enter(image, 16),
        take(image, &frame),
        sheet(image),
        join(image, &EMPTY_IMAGE),
        join(&EMPTY_IMAGE, image),
        join(image, image),
    ];
    for asked in calls {
        expect_refused(&asked, number, &told);
    }
    let printed = wallsheet::compare(&wallsheet::program(), image);
    assert_eq!(printed, format!("refused {number}\n"), "{told}");
    let read = read_image(drill, image);
    assert!(read == (number, RawNode::empty()), "{told}");
    expect_no_rehearsal([&EMPTY_IMAGE, image], number);
}

#[test]
fn images_are_judged_with_their_faulty_claims() {
    let mut drill = Drill::start();
    let out_of_order = out_of_order().into_iter().map(|image| (image, 1));
    for (image, number) in out_of_order.chain([(with_too_many(), 14)]) {
        expect_no_image(&mut drill, &image, number);
        expect_no_rehearsal([&image, &EMPTY_IMAGE], number);
        // Without them nothing is wrong.
        let rest = without_faulty(&image);
        assert!(rest != image && compare(&count(&rest), NOISE).answer > 0);
    }
    for image in miscounted() {
        expect_no_image(&mut drill, &image, 14);
    }
}
