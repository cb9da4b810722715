//! What is timed: images and frames of a kiosk that hears another one.

use minutefrost::{IMAGE_MOST, SHEET_MOST};
use second::{Claim, PENDING, RawNode, RawStore};

/// Each time is of so many cases in turn, alike but for their keys. A program
/// that met the same one over and over would learn where its searches go,
/// which no kiosk's processor can.
pub const VARIANTS: u64 = 32;

/// Splitmix64 with a seed, so that each run times the same bytes.
pub struct Draws(pub u64);

impl Draws {
    pub fn next(&mut self) -> u64 {
        self.0 = self.0.wrapping_add(0x9E37_79B9_7F4A_7C15);
        let mut z = self.0;
        z = (z ^ (z >> 30)).wrapping_mul(0xBF58_476D_1CE4_E5B9);
        z = (z ^ (z >> 27)).wrapping_mul(0x94D0_49BB_1331_11EB);
        z ^ (z >> 31)
    }

    pub fn below(&mut self, n: usize) -> usize {
        (self.next() % n as u64) as usize
    }
}

/// Two stores: each key of the union that not both hold is held by one.
pub struct Pair {
    draws: Draws,
    pub hearer: Vec<u64>,
    pub speaker: Vec<u64>,
}

impl Pair {
    /// A union of so many keys, of which so many differ: every other one of
    /// these is the hearer's, beginning with one that is the speaker's.
    pub fn new(union: usize, differing: usize, variant: u64) -> Pair {
        let mut draws = Draws(variant << 32);
        let mut keys: Vec<u64> = (0..union).map(|_| draws.next()).collect();
        let lone = keys[..differing].to_vec();
        keys.sort();
        let without = |others: &[u64]| {
            let held = keys.iter().copied().filter(|key| !others.contains(key));
            held.collect::<Vec<u64>>()
        };
        let speakers: Vec<u64> = lone.iter().copied().step_by(2).collect();
        let hearers: Vec<u64> = lone.iter().copied().skip(1).step_by(2).collect();
        Pair {
            draws,
            hearer: without(&speakers),
            speaker: without(&hearers),
        }
    }

    /// The claim of a span of the speaker's keys.
    fn claim(&mut self) -> Claim {
        let ends = [0; 2].map(|_| self.draws.below(self.speaker.len()));
        let (first, last) = (ends[0].min(ends[1]), ends[0].max(ends[1]));
        let store = RawStore::of(&self.speaker);
        second::make(&store, first, last).claim
    }

    /// The hearer, once it took as many of the speaker's claims, or all that
    /// there are if that is fewer.
    pub fn node(&mut self, pending: usize) -> RawNode {
        let mut node = RawNode::of(RawStore::of(&self.hearer), &[]);
        let spans = self.speaker.len() * (self.speaker.len() + 1) / 2;
        while node.pending_count < pending.min(spans) {
            node = second::take(node, self.claim()).node;
        }
        node
    }

    /// A frame of four more claims, and none that is pending if there are
    /// others.
    pub fn frame(&mut self, node: &RawNode) -> Vec<u8> {
        let spans = self.speaker.len() * (self.speaker.len() + 1) / 2;
        let mut claims = Vec::new();
        while claims.len() < 4 {
            let claim = self.claim();
            if !node.table().contains(&claim) || node.pending_count + 4 > spans {
                claims.push(claim);
            }
        }
        frame(&claims)
    }
}

/// How many keys each claim of [`full`] spans: nearly all, and as many such
/// spans as a table has places begin at different ones.
pub const SPAN: usize = RawStore::LIMIT - PENDING;

/// The greatest cnt, above the number of keys in such a span.
const ABOVE: u16 = RawStore::LIMIT as u16;

/// What each claim of a full table is to a beat and what it sends for those that
/// it replies to, and the claim for that, from the one of its span.
pub type Replied = (&'static str, &'static str, fn(Claim) -> Claim);

/// A cnt below the number of keys there is to help with, one above it to ask
/// about. Eight of 64 are replied to.
pub const REPLIES: [Replied; 3] = [
    ("matched", "1 claim sent", |own| own),
    ("to help with", "17 claims sent", |own| of_ends(own, 2)),
    ("to ask about", "9 claims sent", |own| of_ends(own, ABOVE)),
];

/// Another claim of a span, with the sum of its ends alone.
fn of_ends(Claim { lo, hi, .. }: Claim, cnt: u16) -> Claim {
    Claim::new(lo, hi, lo ^ hi, cnt)
}

/// All the keys that fit, and a full table of claims of nearly as many, each of
/// the same kind.
pub fn full((_, _, claimed): Replied) -> Vec<Case> {
    all(|variant| {
        let Pair { hearer, .. } = Pair::new(RawStore::LIMIT, 0, variant);
        let store = RawStore::of(&hearer);
        let own = |at| second::make(&store, at, at + SPAN - 1).claim;
        let pending: Vec<Claim> = (0..PENDING).map(own).map(claimed).collect();
        beaten(RawNode::of(store, &pending))
    })
}

pub fn image(node: &RawNode) -> Vec<u8> {
    let mut image = vec![0; IMAGE_MOST];
    let written = second::write_image(node, &mut image);
    assert_eq!(written.number, 0, "the node is in order");
    image.truncate(written.length);
    image
}

pub fn frame(claims: &[Claim]) -> Vec<u8> {
    let mut frame = vec![0; minutefrost::FRAME_MOST];
    let written = second::write_frame(claims, &mut frame);
    assert_eq!(written.number, 0, "the claims pass");
    frame.truncate(written.length);
    frame
}

/// An image, and a frame and a key for it.
pub struct Case {
    pub image: Vec<u8>,
    pub frame: Vec<u8>,
    pub key: u64,
    pub pending: usize,
}

/// A node to beat.
pub fn beaten(node: RawNode) -> Case {
    Case {
        image: image(&node),
        frame: Vec::new(),
        key: 0,
        pending: node.pending_count,
    }
}

/// As many cases as there are variants.
pub fn all(case: impl Fn(u64) -> Case) -> Vec<Case> {
    (0..VARIANTS).map(case).collect()
}

/// A hearer with so many claims pending, a frame of four more, and one of the
/// hearer's keys.
pub fn heard(union: usize, differing: usize, pending: usize) -> Vec<Case> {
    all(|variant| {
        let mut pair = Pair::new(union, differing, variant);
        let node = pair.node(pending);
        Case {
            image: image(&node),
            frame: pair.frame(&node),
            key: pair.hearer[pair.draws.below(pair.hearer.len())],
            pending: node.pending_count,
        }
    })
}

/// What a beat's frames needed before slip 8 of document 02: so the calls of an
/// earlier checkout can be made too.
const FORMER_FRAMES: usize = 3_486;

/// The buffers that a call writes to.
#[derive(Clone, PartialEq)]
pub struct Buffers {
    pub image: Vec<u8>,
    pub frames: Vec<u8>,
    pub sheet: Vec<u8>,
}

impl Buffers {
    pub fn new() -> Buffers {
        Buffers {
            image: vec![0; IMAGE_MOST],
            frames: vec![0; FORMER_FRAMES],
            sheet: vec![0; SHEET_MOST],
        }
    }
}
