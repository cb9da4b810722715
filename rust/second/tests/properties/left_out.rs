//! Images with pending claims of three that no store could make (document 02,
//! slip 2): each call does with them what it does with the same image that has
//! none.

use std::cell::RefCell;
use std::collections::BTreeMap;

use super::calls::seen_often;
use super::common::*;
use super::number;
use second::*;

/// An image saved before 16 was asked, and the same one without what is left
/// out of it.
struct Saved {
    keys: Vec<u64>,
    pending: Vec<Claim>,
    image: Vec<u8>,
    without: Vec<u8>,
}

impl Saved {
    fn draw(rng: &mut Rng) -> Saved {
        let density = rng.density();
        let keys = rng.keys(LIMIT, density);
        let pending = rng.saved_table(&keys);
        let image = image_of(&keys, &pending);
        let without = without_left_out(&image);
        Saved {
            keys,
            pending,
            image,
            without,
        }
    }

    /// How much of its table is left out.
    fn told(&self) -> &'static str {
        let left_out = (self.image.len() - self.without.len()) / 26;
        match (left_out, self.pending.len()) {
            (0, _) => "none left out",
            (left_out, pending) if left_out == pending => "all left out",
            _ => "some left out",
        }
    }
}

/// Runs a property of such images; each kind of them comes often.
fn for_saved(cases: u64, property: impl Fn(&mut Rng, &Saved)) {
    let seen: RefCell<BTreeMap<&str, usize>> = RefCell::default();
    for_seeds(cases, |rng| {
        let saved = Saved::draw(rng);
        *seen.borrow_mut().entry(saved.told()).or_default() += 1;
        property(rng, &saved);
    });
    let seen = seen.into_inner();
    for told in ["none left out", "some left out", "all left out"] {
        seen_often(told, seen.get(told).copied().unwrap_or(0));
    }
}

#[test]
fn saved_images_are_read_as_those_without() {
    for_saved(600, |_, saved| {
        let read = read_image(&saved.image);
        assert_eq!(read.number, 0);
        assert!(questions::q1_node_in_order(&read.node));
        assert_eq!(read, read_image(&saved.without));
        assert_eq!(host::count(&saved.image), saved.keys.len() as i64);
        let told = image_length(&saved.image);
        assert_eq!((told.number, told.length), (0, saved.image.len()));
        let mut out = vec![0x55; IMAGE_MOST];
        let length = write_image(&read.node, &mut out).length;
        assert_eq!(out[..length], saved.without);
        // The node as it stands in the bytes is one in order only where it is
        // the one that was read.
        let given = RawNode::of(RawStore::of(&saved.keys), &saved.pending);
        let all = saved.told() == "none left out";
        assert_eq!(questions::q1_node_in_order(&given), all);
        assert_eq!(given == read.node, all);
    });
}

/// What a host call answers and leaves in its buffers.
type Left = (i64, Vec<u8>, Vec<u8>);

fn taken(image: &[u8], frame: &[u8], lent: usize) -> Left {
    let mut out = vec![0x55; lent];
    let answer = host::take_frame(image, frame, &mut out);
    (answer, out, vec![])
}

fn entered(image: &[u8], key: u64, lent: usize) -> Left {
    let mut out = vec![0x55; lent];
    let answer = host::enter(image, key, &mut out);
    (answer, out, vec![])
}

fn beaten(image: &[u8], lent: usize) -> Left {
    let (mut out, mut frames) = (vec![0x55; lent], vec![0x66; host::BEAT_FRAMES]);
    let answer = host::beat(image, &mut out, &mut frames);
    (answer, out, frames)
}

#[test]
fn host_calls_on_saved_images_are_those_on_images_without() {
    let ways = Ways::default();
    for_saved(900, |rng, saved| {
        let Saved { image, without, .. } = saved;
        let density = rng.density();
        let claims: Vec<Claim> = (0..1 + rng.below(4))
            .map(|_| rng.claim(&saved.keys, density))
            .collect();
        let frame = frame_of(&claims);
        let key = rng.key(density);
        let lent = *rng.pick(&[IMAGE_MOST, IMAGE_MOST, IMAGE_MOST - 1]);
        for (left, expected, asked) in [
            (
                taken(image, &frame, lent),
                taken(without, &frame, lent),
                questions::of_host_take_frame(image, &frame, lent),
            ),
            (
                entered(image, key, lent),
                entered(without, key, lent),
                questions::of_host_enter(image, key, lent),
            ),
            (
                beaten(image, lent),
                beaten(without, lent),
                questions::of_host_beat(image, lent, host::BEAT_FRAMES),
            ),
        ] {
            assert_eq!(left, expected);
            assert_eq!((-left.0).max(0), i64::from(number(asked)));
            ways.saw(number(asked));
        }
    });
    ways.all_of(&[0, 6, 13, 15]);
}

/// "Such an image is written back without it": image in, image out, image in
/// again.
#[test]
fn what_is_written_back_is_written_again_as_the_same_bytes() {
    for_saved(600, |rng, saved| {
        if saved.keys.is_empty() {
            return;
        }
        let key = *rng.pick(&saved.keys);
        let again = |image: &[u8]| {
            let (length, mut out, _) = entered(image, key, IMAGE_MOST);
            out.truncate(length as usize);
            out
        };
        let once = again(&saved.image);
        assert_eq!(once, saved.without);
        assert_eq!(again(&once), once);
        assert_eq!(read_image(&once), read_image(&saved.image));
    });
}

#[test]
fn rehearsals_of_saved_images_are_those_of_images_without() {
    for_saved(600, |rng, saved| {
        let density = rng.density();
        let other = image_of_keys(&rng.keys(40, density));
        let joined = |one: &[u8], other: &[u8]| rehearse(&[one, other].concat());
        let (image, without) = (&saved.image, &saved.without);
        assert_eq!(joined(image, &other), joined(without, &other));
        assert_eq!(joined(&other, image), joined(&other, without));
        assert_eq!(joined(image, image), joined(without, without));
    });
}

/// What would be left out is judged by 14 and 1 before.
#[test]
fn saved_images_out_of_order_are_refused() {
    for_saved(600, |rng, saved| {
        let mut pending = saved.pending.clone();
        let Some(last) = pending.len().checked_sub(1) else {
            return;
        };
        let at = rng.below(pending.len());
        let mut keys = saved.keys.clone();
        match rng.below(4) {
            0 => pending.insert(at, pending[at]),
            1 if last > 0 => pending.swap(last, at.min(last - 1)),
            2 => keys.retain(|&key| key != pending[at].lo),
            _ => keys.retain(|&key| key != pending[at].hi),
        }
        let image = image_of(&keys, &pending);
        let no = if pending.len() > 64 { 14 } else { 1 };
        let read = read_image(&image);
        assert_eq!((read.number, read.node), (no, RawNode::empty()));
        assert_eq!(host::count(&image), -i64::from(no));
        assert_eq!(beaten(&image, IMAGE_MOST).0, -i64::from(no));
        assert_eq!(entered(&image, 0, IMAGE_MOST).0, -i64::from(no));
        assert_eq!(taken(&image, &[], IMAGE_MOST).0, -i64::from(no));
        let other: &[u8] = &[0; 4];
        let refused = format!("refused {no}\n");
        assert_eq!(rehearse(&[&image, other].concat()), refused);
        assert_eq!(rehearse(&[other, &image].concat()), refused);
    });
}
