//! The host calls, as a daemon makes them, beside the second program: same
//! answer, and every byte of every lent buffer the same, with bytes past its
//! end that must stay as they were. Here images are bent in every way that a
//! node can be, and all cases run on small stacks too; the calls by hand, a
//! radio of frames and plain noise are tests of the crate `minutefrost`, sheets
//! by hand come in `sheet`, and two images at a time in `joining`.

mod archive;

use std::thread;

use archive::{ARCHIVE, Asked, Left, SECOND, compare, number, written_by};
use minutefrost::BEAT_FRAMES;
use second::*;
use tests::cases::{Seen, for_seeds, one_seed, seeds};
use tests::draw::{Rng, claims_in, frame_of, image_of};
use tests::left_out;
use tests::middle::{self, OUTCOMES};
use tests::replies;
use tests::sheet::{self, DIGITS, LAYOUTS, LENT};

/// How often each number and each way must be seen.
const OFTEN: usize = 60;

/// How often each way that a middle key goes must be: there are many.
const OFTEN_EACH: usize = 30;

/// What is left out of images is tried in `left_out`; here some is, too.
const LEFT_OUT: [&str; 2] = [left_out::SOME, left_out::ALL];

/// As long as it must be, or one too short, or longer.
fn room(rng: &mut Rng, need: usize) -> usize {
    match rng.below(8) {
        0 => need - 1,
        1 if rng.one_in(3) => rng.below(need),
        2 => need + rng.below(50),
        _ => need,
    }
}

/// The keys of an image, and claims for it.
fn keys_and_claims(rng: &mut Rng) -> (Vec<u64>, Vec<Claim>) {
    if rng.one_in(4) {
        return rng.frame_of_threes();
    }
    let (keys, density) = if rng.one_in(3) {
        rng.nearly_full()
    } else {
        let density = rng.density();
        (rng.keys(density), density)
    };
    // Claims of the image's keys, of others, or some of each, so that the
    // first without room can be any of a frame's four.
    let mut claims = rng.frame_claims(&keys, density);
    if rng.one_in(2) {
        let new = rng.below(claims.len() + 1);
        for claim in &mut claims[new..] {
            *claim = rng.true_claim(&[], density);
        }
    }
    (keys, claims)
}

/// An image, and claims for it.
fn image(rng: &mut Rng) -> (Vec<u8>, Vec<Claim>) {
    let (keys, claims) = keys_and_claims(rng);
    let mut node = rng.node_of(&keys);
    if rng.one_in(12) {
        rng.bend_node(&mut node);
    }
    if rng.one_in(12) {
        node = RawNode::of(RawStore::of(&keys), &rng.saved_table(&keys));
    }
    let mut bytes = image_of(node.store.held(), node.table());
    if rng.one_in(12) {
        rng.damage(&mut bytes);
    }
    (bytes, claims)
}

fn take_asked(rng: &mut Rng) -> Asked {
    let (image, claims) = image(rng);
    let mut frame = frame_of(&claims);
    if rng.one_in(5) {
        rng.damage(&mut frame);
    }
    if rng.one_in(16) && frame.len() > 2 {
        frame[2] = rng.pick(&[0, 2, 255]);
    }
    Asked::Take(image, frame, room(rng, IMAGE_MOST))
}

fn beat_asked(rng: &mut Rng) -> Asked {
    let (image, _) = image(rng);
    Asked::Beat(image, room(rng, IMAGE_MOST), room(rng, BEAT_FRAMES))
}

/// A key that is held, beside one that is, at an end of all keys, or any.
fn enter_asked(rng: &mut Rng) -> Asked {
    let (image, claims) = image(rng);
    let held = read_image(&image).node.store;
    let key = match rng.below(8) {
        0..=2 if held.count > 0 => rng.pick(held.held()),
        3 if held.count > 0 => rng.pick(held.held()).wrapping_add(1),
        4 => rng.pick(&[0, u64::MAX]),
        // What a claim's ends are is close to the image's keys.
        5 if !claims.is_empty() => rng.pick(&claims).lo,
        _ => rng.next(),
    };
    Asked::Enter(image, key, room(rng, IMAGE_MOST))
}

fn count_asked(rng: &mut Rng) -> Asked {
    Asked::Count(image(rng).0)
}

/// With an image as for the other calls, or one of keys for a sheet and as
/// much pending as any other has.
fn sheet_asked(rng: &mut Rng) -> Asked {
    let (mut image, _) = image(rng);
    if rng.one_in(2) {
        let keys = rng.keys_for_sheet();
        let node = rng.node_of(&keys);
        image = image_of(node.store.held(), node.table());
    }
    let count = read_image(&image).node.store.count;
    let lent = rng.room_for_sheet(count);
    Asked::Sheet(image, lent)
}

/// Two images, seldom damaged.
fn join_asked(rng: &mut Rng) -> Asked {
    let [mut first, mut second] = rng.images_to_join();
    for image in [&mut first, &mut second] {
        if rng.one_in(12) {
            rng.damage(image);
        }
    }
    Asked::Join(first, second, room(rng, IMAGE_MOST))
}

/// Which claim of a frame has no room, counted from 0.
fn first_without_room(image: &[u8], frame: &[u8]) -> usize {
    let mut node = read_image(image).node;
    let read = read_frame(frame);
    for (at, claim) in read.claims[..read.count].iter().enumerate() {
        let taken = take(node, *claim);
        if taken.number == 6 {
            return at;
        }
        node = taken.node;
    }
    panic!("one has no room");
}

/// The ways of the claims of three in a frame that is taken.
fn ways_of_frame(image: &[u8], frame: &[u8]) -> Vec<&'static str> {
    let mut keys = read_image(image).node.store.held().to_vec();
    let read = read_frame(frame);
    let claims = read.claims[..read.count].iter();
    claims
        .flat_map(|claim| middle::learn(&mut keys, claim))
        .collect()
}

#[test]
fn takes_frames() {
    let ways = ["first", "second", "third", "fourth"];
    let mut seen = Seen::default();
    for_seeds(10_000, |seed, rng| {
        let asked = take_asked(rng);
        let number = number(compare(&asked, seed).answer);
        seen.number(number);
        let Asked::Take(image, frame, _) = &asked else {
            panic!("a frame is taken");
        };
        match number {
            0 => seen.all(ways_of_frame(image, frame)),
            6 => seen.way(ways[first_without_room(image, frame)]),
            13 if left_out::is_frame_by_16_alone(&claims_in(&frame[4..])) => {
                seen.way(left_out::FRAME);
            }
            _ => {}
        }
        seen.all(left_out::ways_of_image(image, number));
    });
    if !one_seed() {
        seen.expect(&[0, 1, 6, 10, 11, 12, 13, 14, 15], &ways, OFTEN);
        seen.expect_ways(&LEFT_OUT, OFTEN);
        seen.expect_ways(&[left_out::FRAME, left_out::LATER], OFTEN);
        seen.expect_ways(&OUTCOMES.concat(), OFTEN_EACH);
        seen.expect_ways(&[middle::LAST_PLACE], OFTEN_EACH);
    }
}

#[test]
fn beats() {
    let mut seen = Seen::default();
    for_seeds(8_000, |seed, rng| {
        let asked = beat_asked(rng);
        let answer = compare(&asked, seed).answer;
        seen.number(number(answer));
        let Asked::Beat(image, ..) = &asked else {
            panic!("an image beats");
        };
        if answer >= 0 {
            let node = read_image(image).node;
            seen.all(middle::ways_of_beat(&node));
            seen.all(replies::ways_of_beat(&node));
        }
        seen.all(left_out::ways_of_image(image, number(answer)));
        match answer {
            0 => seen.way("no frame"),
            1.. if answer % 108 == 0 => seen.way("full frames alone"),
            1.. => seen.way("a last frame that isn't full"),
            _ => {}
        }
    });
    let ways = [
        "no frame",
        "full frames alone",
        "a last frame that isn't full",
        middle::ASKED,
        middle::ASKED_FULL,
        middle::MATCHED,
        middle::HELPED,
        replies::MATCH_AFTER,
        replies::ASK_WAITS,
        replies::HELP_WAITS,
    ];
    if !one_seed() {
        seen.expect(&[0, 1, 14, 15], &ways, OFTEN);
        seen.expect_ways(&LEFT_OUT, OFTEN);
    }
}

/// What entering a key does where it isn't refused.
fn entering(store: &RawStore, key: u64) -> &'static str {
    match store.held().binary_search(&key) {
        Ok(_) if store.count == RawStore::LIMIT => "held by a full store",
        Ok(_) => "held",
        Err(_) if store.count == RawStore::LIMIT - 1 => "the last that fits",
        Err(0) if store.count == 0 => "the first of all",
        Err(0) => "below all",
        Err(at) if at == store.count => "above all",
        Err(_) => "between",
    }
}

/// The ways of a key that is entered into the node of an image.
fn ways_of_entering(node: &RawNode, key: u64, lent: usize) -> Vec<&'static str> {
    let mut ways = vec![entering(&node.store, key)];
    ways.push(match lent {
        IMAGE_MOST => "room for any image",
        _ => "more than that",
    });
    match key {
        0 => ways.push("key 0"),
        u64::MAX => ways.push("the largest key"),
        _ => {}
    }
    if node.pending_count > 0 {
        ways.push("claims are pending");
    }
    ways
}

#[test]
fn enters_keys() {
    let mut seen = Seen::default();
    for_seeds(10_000, |seed, rng| {
        let asked = enter_asked(rng);
        let number = number(compare(&asked, seed).answer);
        seen.number(number);
        let Asked::Enter(image, key, lent) = &asked else {
            panic!("a key is entered");
        };
        seen.all(left_out::ways_of_image(image, number));
        match number {
            0 => seen.all(ways_of_entering(&read_image(image).node, *key, *lent)),
            15 if *lent == IMAGE_MOST - 1 => seen.way("a byte too short"),
            _ => {}
        }
    });
    let ways = [
        "held",
        "held by a full store",
        "the first of all",
        "below all",
        "between",
        "above all",
        "the last that fits",
        "key 0",
        "the largest key",
        "claims are pending",
        "room for any image",
        "more than that",
        "a byte too short",
    ];
    if !one_seed() {
        seen.expect(&[0, 1, 6, 14, 15], &ways, OFTEN);
        seen.expect_ways(&LEFT_OUT, OFTEN);
    }
}

#[test]
fn counts_keys() {
    const ALL: i64 = RawStore::LIMIT as i64;
    let mut seen = Seen::default();
    for_seeds(8_000, |seed, rng| {
        let asked = count_asked(rng);
        let answer = compare(&asked, seed).answer;
        seen.number(number(answer));
        if let Asked::Count(image) = &asked {
            seen.all(left_out::ways_of_image(image, number(answer)));
        }
        match answer {
            0 => seen.way("none"),
            1..ALL => seen.way("some"),
            ALL => seen.way("all that fit"),
            _ => {}
        }
    });
    if !one_seed() {
        seen.expect(&[0, 1, 14], &["none", "some", "all that fit"], OFTEN);
        seen.expect_ways(&LEFT_OUT, OFTEN);
    }
}

#[test]
fn lays_out_sheets() {
    let mut seen = Seen::default();
    for_seeds(8_000, |seed, rng| {
        let asked = sheet_asked(rng);
        let Asked::Sheet(image, lent) = &asked else {
            panic!("a sheet is asked for");
        };
        let sheet = written_by(&asked, seed);
        let number = sheet.as_ref().err().copied().unwrap_or(0);
        let node = read_image(image).node;
        seen.number(number);
        seen.all(left_out::ways_of_image(image, number));
        if number == 0 || number == 15 {
            seen.all(sheet::ways(node.store.held(), *lent, number));
        }
        if let Ok(sheet) = sheet {
            assert_eq!(sheet::keys_on(&sheet).as_deref(), Ok(node.store.held()));
            seen.way(match node.pending_count {
                0 => "nothing is pending",
                _ => "claims are pending",
            });
        }
    });
    let pending = ["nothing is pending", "claims are pending"];
    if !one_seed() {
        seen.expect(&[0, 1, 14, 15], &pending, OFTEN);
        // Every other image has nothing to leave out.
        seen.expect_ways(&LEFT_OUT, OFTEN / 2);
        seen.expect_ways(&[left_out::LATER], OFTEN / 2);
        seen.expect_ways(&LENT, OFTEN);
        seen.expect_ways(&LAYOUTS, OFTEN);
        seen.expect_ways(&DIGITS, OFTEN);
    }
}

/// Nothing is proved of the stack: any case must do with 128 KB, on several
/// threads at a time.
#[test]
fn runs_on_small_stacks() {
    const STACK: usize = 128 << 10;
    const DRAWN: [fn(&mut Rng) -> Asked; 6] = [
        take_asked,
        beat_asked,
        enter_asked,
        count_asked,
        sheet_asked,
        join_asked,
    ];
    let drawn = |seed| {
        let mut rng = Rng(seed);
        let asked = DRAWN[seed as usize % DRAWN.len()](&mut rng);
        let wanted = asked.by(seed, &SECOND);
        (seed, asked, wanted)
    };
    let cases: Vec<(u64, Asked, Left)> = seeds(6_000).map(drawn).collect();
    let differs = |part: &[(u64, Asked, Left)]| {
        let case = |(seed, asked, wanted): &(u64, Asked, Left)| {
            (asked.by(*seed, &ARCHIVE) != *wanted).then_some(*seed)
        };
        part.iter().find_map(case)
    };
    thread::scope(|scope| {
        let mut threads = Vec::new();
        for part in cases.chunks(1_000) {
            let small = thread::Builder::new().stack_size(STACK);
            let thread = small.spawn_scoped(scope, move || differs(part));
            threads.push(thread.expect("a thread starts"));
        }
        for thread in threads {
            if let Some(seed) = thread.join().expect("a thread ends") {
                panic!("MINUTEFROST_SEED={seed} differs on a small stack");
            }
        }
    });
}
