//! The twelve lettered cases of document 01, "Slips from the desk drawer", the
//! mistakes that come easily, the rehearsal's worked example, and of document
//! 02 slip 1, "The middle key of three", and slip 2, "Claims of three that no
//! store could make".

mod common;

use common::*;
use second::*;

/// The claim of cases b and c: of keys 1, 2 and 16.
const THREE: Claim = c(1, 16, 19, 3);

/// What a store of these keys has afterwards and replies. "Taking a claim into
/// the table does the same" to the store (document 02, slip 1).
fn hears(keys: &[u64], claim: Claim) -> (Vec<u64>, Reply) {
    let replied = reply(RawStore::of(keys), claim);
    assert_eq!(replied.number, 0);
    assert!(questions::q1_store_in_order(&replied.store));
    let taken = take(RawNode::of(RawStore::of(keys), &[]), claim);
    assert_eq!(taken.number, 0);
    assert_eq!(taken.node, RawNode::of(replied.store.clone(), &[claim]));
    (replied.store.held().to_vec(), replied.reply.unwrap())
}

#[test]
fn a_the_empty_store_learns_one_key() {
    let (keys, reply) = hears(&[], c(7, 7, 7, 1));
    assert_eq!((keys.as_slice(), reply), (&[7][..], Reply::Match));
}

/// "Case b becomes {1, 2, 16} and match." (document 02, slip 1)
#[test]
fn b_the_empty_store_learns_three_keys() {
    let (keys, reply) = hears(&[], THREE);
    assert_eq!((keys.as_slice(), reply), (&[1, 2, 16][..], Reply::Match));
}

#[test]
fn c_help_with_one_key_and_equal_counts() {
    let (keys, reply) = hears(&[1, 4, 16], THREE);
    assert_eq!(keys, [1, 4, 16]);
    assert_eq!(reply, Reply::One(c(4, 4, 4, 1)));
}

#[test]
fn d_help_with_three_keys_is_one_claim() {
    let (_, reply) = hears(&[1, 2, 4, 8, 16], c(1, 16, 17, 2));
    assert_eq!(reply, Reply::One(c(2, 8, 14, 3)));
}

#[test]
fn e_help_with_four_keys_is_two_claims() {
    let (_, reply) = hears(&[1, 2, 4, 8, 16, 32], c(1, 32, 33, 2));
    assert_eq!(reply, Reply::Two(c(2, 8, 14, 3), c(16, 16, 16, 1)));
}

#[test]
fn f_help_with_five_keys_is_two_claims() {
    let (_, reply) = hears(&[1, 2, 4, 8, 16, 32, 64], c(1, 64, 65, 2));
    assert_eq!(reply, Reply::Two(c(2, 8, 14, 3), c(16, 32, 48, 2)));
}

#[test]
fn g_a_match_can_be_false() {
    let made = make(&RawStore::of(&[1, 2, 5, 16]), 0, 3);
    assert_eq!(made.claim, c(1, 16, 22, 4));
    let replied = reply(RawStore::of(&[1, 3, 4, 16]), made.claim);
    assert_eq!(replied.reply, Some(Reply::Match));
    assert!(is_false_match(
        &made.claim,
        &RawStore::of(&[1, 2, 5, 16]),
        &replied.store
    ));
    assert!(!is_false_match(
        &made.claim,
        &RawStore::of(&[0, 1, 3, 4, 16, 17]),
        &replied.store
    ));

    // The same in a round: both whole claims are matched falsely.
    let mut records = [Delivery::default(); 12];
    let (rounded, false_matches) = round_watched(
        RawStore::of(&[1, 2, 5, 16]),
        RawStore::of(&[1, 3, 4, 16]),
        &mut records,
    );
    assert_eq!((rounded.number, rounded.deliveries), (0, 2));
    assert_eq!(false_matches, [0, 1]);
}

#[test]
fn h_the_whole_claim_of_key_0() {
    let made = make(&RawStore::of(&[0]), 0, 0);
    assert_eq!((made.number, made.claim), (0, c(0, 0, 0, 1)));
}

/// The number a claim is refused with, the same wherever it is delivered.
fn refused(claim: Claim) -> u8 {
    refused_by(&[5, 6, 9], claim)
}

fn refused_by(keys: &[u64], claim: Claim) -> u8 {
    let store = RawStore::of(keys);
    let node = RawNode::of(store.clone(), &[]);
    let replied = reply(store.clone(), claim);
    let taken = take(node.clone(), claim);
    assert_eq!(replied.store, store);
    assert_eq!(replied.claims(), (0, [Claim::ZERO; 2]));
    assert_eq!(taken.node, node);
    assert_eq!(taken.number, replied.number);
    assert_eq!(questions::of_claim(&claim), Err(replied.number));
    replied.number
}

#[test]
fn i_the_sum_of_one_key_is_that_key() {
    assert_eq!(refused(c(5, 5, 0, 1)), 5);
    assert!(questions::of_claim(&c(5, 5, 5, 1)).is_ok());
}

#[test]
fn j_a_span_has_room_for_its_count() {
    assert_eq!(refused(c(5, 6, 3, 3)), 4);
    assert!(questions::of_claim(&c(5, 6, 3, 2)).is_ok());
}

/// "case k's 1,025 becomes 2,049" (document 02, slip 6): one above the limit.
#[test]
fn k_a_count_is_from_1_to_the_limit() {
    for (lo, hi) in [(0, u64::MAX), (3, 4), (7, 5_000)] {
        for sum in [0, 3, lo ^ hi] {
            assert_eq!(refused(c(lo, hi, sum, 0)), 3);
            assert_eq!(refused(c(lo, hi, sum, MOST_CNT + 1)), 3);
            assert_eq!(refused(c(lo, hi, sum, u16::MAX)), 3);
        }
    }
}

#[test]
fn l_the_ends_are_not_the_wrong_way_round() {
    assert_eq!(refused(c(9, 5, 12, 2)), 2);
}

#[test]
fn mistakes_that_come_easily() {
    // "splitting own span with its ends kept": d, e and f above.
    // "treating key 0 as an empty place"
    let entered = enter(RawStore::empty(), 0);
    assert_eq!((entered.number, entered.store.count), (0, 1));
    let entered = enter(RawStore::of(&[3]), 0);
    assert_eq!(entered.store.held(), [0, 3]);
    // "refusing two equal full stores" because what both hold exceeds the limit
    let mut records = vec![Delivery::default(); 2 * LIMIT];
    let rounded = round(full(1), full(1), &mut records);
    assert_eq!((rounded.number, rounded.deliveries), (0, 2));
    assert_eq!((rounded.left, rounded.right), (full(1), full(1)));
    // "asking when counts are equal"
    let (_, reply) = hears(&[1, 3, 9], c(1, 9, 1 ^ 4 ^ 9, 3));
    assert_eq!(reply, Reply::One(c(3, 3, 3, 1)));
}

const WORKED: &str = "\
L 0 10 11 3
R 5 6 3 2
R 0 10 9 4
L 1 6 2 3
left 5 right 5 claims 4
";

#[test]
fn the_worked_rehearsal() {
    let mut input = image_of_keys(&[0, 1, 10]);
    input.extend(image_of_keys(&[0, 5, 6, 10]));
    assert_eq!(rehearse(&input), WORKED);
}

#[test]
fn the_worked_rehearsal_as_a_round() {
    let untouched = Delivery {
        sender: 9,
        claim: c(1, 2, 3, 4),
    };
    let mut records = [untouched; 11];
    let (rounded, false_matches) = round_watched(
        RawStore::of(&[0, 1, 10]),
        RawStore::of(&[0, 5, 6, 10]),
        &mut records,
    );
    let both = RawStore::of(&[0, 1, 5, 6, 10]);
    assert_eq!(rounded.number, 0);
    assert_eq!(rounded.left, both);
    assert_eq!(rounded.right, both);
    assert_eq!(rounded.deliveries, 4);
    assert!(false_matches.is_empty());
    let expected = [
        (0, c(0, 10, 11, 3)),
        (1, c(5, 6, 3, 2)),
        (1, c(0, 10, 9, 4)),
        (0, c(1, 6, 2, 3)),
    ];
    for (record, (sender, claim)) in records.iter().zip(expected) {
        assert_eq!(*record, Delivery { sender, claim });
    }
    assert!(records[4..].iter().all(|record| *record == untouched));
}

/// These keys, and others above them up to so many.
fn filled(keys: &[u64], count: usize) -> Vec<u64> {
    let others = (100..).take(count - keys.len());
    keys.iter().copied().chain(others).collect()
}

#[test]
fn the_middle_key_comes_whichever_ends_are_missing() {
    for ends in [&[][..], &[1], &[16], &[1, 16]] {
        let (keys, reply) = hears(ends, THREE);
        assert_eq!((keys.as_slice(), reply), (&[1, 2, 16][..], Reply::Match));
    }
    // 0 and the largest key are ends like any other, and their neighbours are
    // strictly between.
    for middle in [1, 77, u64::MAX - 1] {
        let (keys, reply) = hears(&[], c(0, u64::MAX, middle ^ u64::MAX, 3));
        assert_eq!(keys, [0, middle, u64::MAX]);
        assert_eq!(reply, Reply::Match);
    }
}

/// "It is added only if … the store has space."
#[test]
fn the_middle_key_needs_space() {
    for ends in [&[][..], &[1], &[16], &[1, 16]] {
        let missing = 2 - ends.len();
        // "6 doesn't count the middle one": no place is left for it.
        let before = filled(ends, LIMIT - missing);
        let (keys, reply) = hears(&before, THREE);
        assert_eq!(keys, filled(&[1, 16], LIMIT));
        assert_eq!(reply, Reply::Ask(c(1, 16, 17, 2)));
        // One place is left for it.
        let before = filled(ends, LIMIT - 1 - missing);
        let (keys, reply) = hears(&before, THREE);
        assert_eq!(keys, filled(&[1, 2, 16], LIMIT));
        assert_eq!(reply, Reply::Match);
    }
    // The ends themselves don't fit, and 6 says so as before.
    let store = RawStore::of(&filled(&[], LIMIT - 1));
    assert_eq!(reply(store.clone(), THREE).number, 6);
    assert_eq!(take(RawNode::of(store, &[]), THREE).number, 6);
}

/// "It is added only if it lies strictly between lo and hi"; and where it
/// doesn't, claims "are now refused" (document 02, slip 2).
#[test]
fn the_middle_key_lies_strictly_between() {
    // At lo, at hi, just below, just above, and far from both.
    for middle in [4, 16, 3, 17, 0, u64::MAX] {
        for ends in [&[][..], &[4], &[16], &[4, 16], &[4, 5, 16]] {
            assert_eq!(refused_by(ends, three(4, middle, 16)), 16);
        }
    }
    // Just above lo and just below hi.
    for middle in [5, 15] {
        let (keys, reply) = hears(&[], three(4, middle, 16));
        assert_eq!(
            (keys.as_slice(), reply),
            (&[4, middle, 16][..], Reply::Match)
        );
    }
    // Held, but outside.
    assert_eq!(refused_by(&[3, 17], three(4, 17, 16)), 16);
    // Three keys that are next to each other.
    let (keys, reply) = hears(&[], three(4, 5, 6));
    assert_eq!((keys.as_slice(), reply), (&[4, 5, 6][..], Reply::Match));
    for middle in [3, 4, 6, 7] {
        assert_eq!(refused_by(&[], three(4, middle, 6)), 16);
    }
}

/// "When a claim has cnt 3 and own is just lo and hi after they were added".
#[test]
fn the_middle_key_comes_beside_just_the_ends() {
    // Another key is between; the helper says which, as in case c.
    for held in [&[4][..], &[1, 4], &[4, 16], &[1, 4, 16]] {
        let (keys, reply) = hears(held, THREE);
        assert_eq!(keys, [1, 4, 16]);
        assert_eq!(reply, Reply::One(c(4, 4, 4, 1)));
    }
    let (keys, reply) = hears(&[1, 4, 8, 16], THREE);
    assert_eq!(keys, [1, 4, 8, 16]);
    assert_eq!(reply, Reply::One(c(4, 8, 12, 2)));
    // Four keys give no key away, whatever the sum.
    let (keys, reply) = hears(&[], c(1, 16, 19, 4));
    assert_eq!(keys, [1, 16]);
    assert_eq!(reply, Reply::Ask(c(1, 16, 17, 2)));
}

/// As an image can be that was written before the rule: the claim is pending,
/// and its middle key is missing.
fn pending_without_middle_key() -> RawNode {
    RawNode::of(RawStore::of(&[1, 16]), &[THREE])
}

#[test]
fn taking_a_pending_claim_again_adds_its_middle_key() {
    let learnt = RawNode::of(RawStore::of(&[1, 2, 16]), &[THREE]);
    let taken = take(pending_without_middle_key(), THREE);
    assert_eq!((taken.number, taken.node), (0, learnt));

    let image = image_of(&[1, 16], &[THREE]);
    let expected = image_of(&[1, 2, 16], &[THREE]);
    let mut out = vec![0x55; IMAGE_MOST];
    let length = host::take_frame(&image, &frame_of(&[THREE]), &mut out);
    assert_eq!(length, expected.len() as i64);
    assert_eq!(out[..expected.len()], expected);
}

/// "of 65 the last in order is dropped", and its keys stay: the middle one
/// like the ends.
#[test]
fn taking_a_claim_that_is_dropped_adds_its_middle_key() {
    let ones: Vec<Claim> = (100..164).map(|key| c(key, key, key, 1)).collect();
    let node = RawNode::of(RawStore::of(&filled(&[], 64)), &ones);
    let taken = take(node, THREE);
    let learnt = RawStore::of(&filled(&[1, 2, 16], 67));
    assert_eq!((taken.number, taken.node), (0, RawNode::of(learnt, &ones)));
}

/// "a beat still adds no key": the claim is asked about and stays.
#[test]
fn a_beat_adds_no_middle_key() {
    let own = c(1, 16, 17, 2);
    let mut run = vec![7; BEAT_WORDS];
    let beaten = beat(pending_without_middle_key(), &mut run);
    assert_eq!((beaten.number, beaten.written), (0, 2));
    assert_eq!(beaten.node, pending_without_middle_key());
    assert_eq!(run[..8], [1, 16, 17, 2].repeat(2));

    let image = image_of(&[1, 16], &[THREE]);
    let (mut out, mut frames) = (vec![0x55; IMAGE_MOST], vec![0x66; host::BEAT_FRAMES]);
    assert_eq!(host::beat(&image, &mut out, &mut frames), 56);
    assert_eq!(frames[..56], frame_of(&[own, own]));
    assert_eq!(out[..image.len()], image);
}

/// In a frame 6 is put to each claim with the middle keys of those before it
/// held: the first one's takes the last place.
#[test]
fn a_middle_key_takes_a_place_from_the_next_claim() {
    let image = image_of_keys(&filled(&[], LIMIT - 3));
    let next = c(50, 50, 50, 1);
    let mut out = vec![0x55; IMAGE_MOST];
    let mut answer = |claims: &[Claim]| {
        let frame = frame_of(claims);
        let answer = host::take_frame(&image, &frame, &mut out);
        let no = questions::of_host_take_frame(&image, &frame, out.len());
        assert_eq!(no.err().map_or(0, i64::from), (-answer).max(0));
        (answer, out.clone())
    };
    // One no refuses the whole frame, and nothing is written.
    assert_eq!(answer(&[THREE, next]), (-6, vec![0x55; IMAGE_MOST]));
    assert_eq!(answer(&[THREE, THREE, next]), (-6, vec![0x55; IMAGE_MOST]));
    // In the other order no place is left for the middle key.
    let expected = image_of(&filled(&[1, 16, 50], LIMIT), &[next, THREE]);
    let (length, out) = answer(&[next, THREE]);
    assert_eq!(length, expected.len() as i64);
    assert_eq!(out[..expected.len()], expected);
    // Alone each of them fits.
    assert_eq!(answer(&[THREE]).0, expected.len() as i64 - 26);
    assert_eq!(answer(&[next]).0, expected.len() as i64 - 26 - 16);
}

/// 20 would fall outside 1 and 16.
const FAULTY: Claim = c(1, 16, 5, 3);

/// "New numbers: 16, … asked straight after 5 and part of what 13 asks."
#[test]
fn sixteen_is_asked_after_5_and_before_6() {
    assert_eq!(refused(FAULTY), 16);
    // 2, 3 and 4 come before it; what 5 is about has no middle key.
    assert_eq!(refused(c(16, 1, 5, 3)), 2);
    assert_eq!(refused(c(5, 6, 3, 3)), 4);
    assert_eq!(refused(c(1, 16, 5, 2)), 5);
    // 6 comes after it: there is no place for 1 and 16.
    assert_eq!(refused_by(&filled(&[], LIMIT), FAULTY), 16);
    assert_eq!(refused_by(&filled(&[], LIMIT - 1), FAULTY), 16);
    let full = RawStore::of(&filled(&[], LIMIT));
    assert_eq!(reply(full, THREE).number, 6);
    // In a frame it is 13, read or written, whatever else is in the frame.
    for claims in [&[FAULTY][..], &[THREE, FAULTY], &[FAULTY, c(9, 5, 0, 0)]] {
        assert_eq!(read_frame(&frame_of(claims)).number, 13);
        let mut out = [0x55; 108];
        let written = write_frame(claims, &mut out);
        assert_eq!((written.number, written.length), (13, 0));
        assert_eq!(out, [0x55; 108]);
        let mut out = vec![0x55; IMAGE_MOST];
        let image = image_of_keys(&filled(&[], LIMIT));
        assert_eq!(host::take_frame(&image, &frame_of(claims), &mut out), -13);
        assert_eq!(out, vec![0x55; IMAGE_MOST]);
    }
}

/// "a node given with one gets 1"
#[test]
fn a_node_with_a_faulty_claim_is_out_of_order() {
    let own = c(1, 16, 17, 2);
    for pending in [&[FAULTY][..], &[own, FAULTY], &[own, FAULTY, THREE]] {
        let node = RawNode::of(RawStore::of(&[1, 16]), pending);
        assert!(!questions::q1_node_in_order(&node));
        let taken = take(node.clone(), c(7, 7, 7, 1));
        assert_eq!((taken.number, &taken.node), (1, &node));
        let mut run = vec![7; BEAT_WORDS];
        let beaten = beat(node.clone(), &mut run);
        assert_eq!((beaten.number, beaten.written), (1, 0));
        assert_eq!((beaten.node, run), (node.clone(), vec![7; BEAT_WORDS]));
        let mut out = vec![0x55; IMAGE_MOST];
        let written = write_image(&node, &mut out);
        assert_eq!((written.number, written.length), (1, 0));
        assert_eq!(out, vec![0x55; IMAGE_MOST]);
    }
}

/// An image already saved: two keys, and three claims pending, the second of
/// which no store could make.
const SAVED: [u8; 98] = [
    0, 2, // two keys
    0, 0, 0, 0, 0, 0, 0, 1, //
    0, 0, 0, 0, 0, 0, 0, 16, //
    0, 3, // three claims
    0, 0, 0, 0, 0, 0, 0, 1, 0, 0, 0, 0, 0, 0, 0, 16, 0, 0, 0, 0, 0, 0, 0, 17, 0, 2, //
    0, 0, 0, 0, 0, 0, 0, 1, 0, 0, 0, 0, 0, 0, 0, 16, 0, 0, 0, 0, 0, 0, 0, 5, 0, 3, //
    0, 0, 0, 0, 0, 0, 0, 1, 0, 0, 0, 0, 0, 0, 0, 16, 0, 0, 0, 0, 0, 0, 0, 19, 0, 3, //
];

/// The same image as it is written back.
const WRITTEN: [u8; 72] = [
    0, 2, // two keys
    0, 0, 0, 0, 0, 0, 0, 1, //
    0, 0, 0, 0, 0, 0, 0, 16, //
    0, 2, // two claims
    0, 0, 0, 0, 0, 0, 0, 1, 0, 0, 0, 0, 0, 0, 0, 16, 0, 0, 0, 0, 0, 0, 0, 17, 0, 2, //
    0, 0, 0, 0, 0, 0, 0, 1, 0, 0, 0, 0, 0, 0, 0, 16, 0, 0, 0, 0, 0, 0, 0, 19, 0, 3, //
];

/// "A pending one in an image already saved is left out once the image has
/// passed 1 as before, and the rest of the image is used".
#[test]
fn a_saved_image_is_read_without_it() {
    let own = c(1, 16, 17, 2);
    assert_eq!(SAVED[..], image_of(&[1, 16], &[own, FAULTY, THREE]));
    let node = RawNode::of(RawStore::of(&[1, 16]), &[own, THREE]);
    for image in [&SAVED[..], &WRITTEN] {
        let read = read_image(image);
        assert_eq!((read.number, &read.node), (0, &node));
        assert_eq!(host::count(image), 2);
        // Only its store takes part, as ever.
        let lines = "L 1 16 17 2\nR 1 16 17 2\nleft 2 right 2 claims 2\n";
        assert_eq!(rehearse(&[image, &[0; 4]].concat()), lines);
        assert_eq!(rehearse(&[image, image].concat()), lines);
    }
    assert_eq!(image_length(&SAVED).length, 98);
    let mut out = [0x55; 72];
    assert_eq!(write_image(&node, &mut out).length, 72);
    assert_eq!(out, WRITTEN);
}

/// The image that a host call leaves at the front of its buffer.
fn image_left(call: impl FnOnce(&mut [u8]) -> i64) -> Vec<u8> {
    let mut out = vec![0x55; IMAGE_MOST];
    assert!(call(&mut out) >= 0);
    let length = image_length(&out).length;
    assert!(out[length..].iter().all(|&byte| byte == 0x55));
    out[..length].to_vec()
}

/// "Such an image is written back without it, so the same-bytes rule holds for
/// images that have none."
#[test]
fn a_saved_image_is_written_back_without_it() {
    let enter = |image: &[u8], key| image_left(|out| host::enter(image, key, out));
    // The second time it has none, and the bytes are the same.
    assert_eq!(enter(&SAVED, 16), WRITTEN);
    assert_eq!(enter(&WRITTEN, 16), WRITTEN);
    for image in [&SAVED[..], &WRITTEN] {
        let own = c(1, 16, 17, 2);
        assert_eq!(enter(image, 5), image_of(&[1, 5, 16], &[own, THREE]));
        let mut frames = vec![0x66; host::BEAT_FRAMES];
        // Own is matched and leaves; that of three is asked about and stays.
        // Nobody is asked about the other one.
        let beaten = image_left(|out| host::beat(image, out, &mut frames));
        assert_eq!(beaten, image_of(&[1, 16], &[THREE]));
        assert_eq!(frames[..56], frame_of(&[own, own]));
        assert_eq!(frames[56..], [0x66; host::BEAT_FRAMES - 56]);
        let seven = c(7, 7, 7, 1);
        let frame = frame_of(&[seven]);
        let taken = image_left(|out| host::take_frame(image, &frame, out));
        assert_eq!(taken, image_of(&[1, 7, 16], &[seven, own, THREE]));
    }
}
