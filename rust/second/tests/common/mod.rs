//! What the tests share: a seeded generator, and stores, claims, nodes and
//! bytes drawn from it.

#![allow(dead_code)] // Each test file is a program that uses a part of this.

pub mod list;

use std::cell::RefCell;
use std::collections::{BTreeMap, BTreeSet};

use second::*;

/// The store's limit.
pub const LIMIT: usize = RawStore::LIMIT;

/// The cnt of the claim of a full store.
pub const MOST_CNT: u16 = LIMIT as u16;

/// The words of a beat's lent run, four to a place.
pub const BEAT_WORDS: usize = 4 * BEAT_PLACES;

/// Shorthand for a claim as the document writes it.
pub const fn c(lo: u64, hi: u64, sum: u64, cnt: u16) -> Claim {
    Claim::new(lo, hi, sum, cnt)
}

/// A claim of three by the key between its ends, or by one that isn't.
pub const fn three(lo: u64, middle: u64, hi: u64) -> Claim {
    c(lo, hi, lo ^ middle ^ hi, 3)
}

/// The claim of all these keys, reckoned the long way.
pub fn claim_of(keys: &[u64]) -> Claim {
    let mut sum = 0;
    for key in keys {
        sum ^= key;
    }
    c(
        *keys.iter().min().unwrap(),
        *keys.iter().max().unwrap(),
        sum,
        keys.len() as u16,
    )
}

/// The full store of keys 0, step, 2·step, ….
pub fn full(step: u64) -> RawStore {
    let keys: Vec<u64> = (0..LIMIT as u64).map(|at| at * step).collect();
    RawStore::of(&keys)
}

/// The image of a store with nothing pending, by hand.
pub fn image_of_keys(keys: &[u64]) -> Vec<u8> {
    image_of(keys, &[])
}

/// An image of any content, by hand.
pub fn image_of(keys: &[u64], pending: &[Claim]) -> Vec<u8> {
    let mut bytes = (keys.len() as u16).to_be_bytes().to_vec();
    for key in keys {
        bytes.extend(key.to_be_bytes());
    }
    bytes.extend((pending.len() as u16).to_be_bytes());
    for claim in pending {
        push_claim(&mut bytes, claim);
    }
    bytes
}

/// A frame of any content, by hand.
pub fn frame_of(claims: &[Claim]) -> Vec<u8> {
    let mut bytes = vec![0x4C, 0x43, 1, claims.len() as u8];
    for claim in claims {
        push_claim(&mut bytes, claim);
    }
    bytes
}

fn push_claim(bytes: &mut Vec<u8>, claim: &Claim) {
    bytes.extend(claim.lo.to_be_bytes());
    bytes.extend(claim.hi.to_be_bytes());
    bytes.extend(claim.sum.to_be_bytes());
    bytes.extend(claim.cnt.to_be_bytes());
}

/// An image in order, without the pending claims of three "whose middle key
/// would fall outside lo and hi" (document 02, slip 2), picked by hand from
/// its bytes.
pub fn without_left_out(image: &[u8]) -> Vec<u8> {
    fn could_be_made(claim: &[u8]) -> bool {
        let key = |at: usize| u64::from_be_bytes(claim[at..at + 8].try_into().unwrap());
        let (lo, hi, sum) = (key(0), key(8), key(16));
        claim[24..] != [0, 3] || (lo + 1..hi).contains(&(lo ^ hi ^ sum))
    }
    let keys = usize::from(u16::from_be_bytes([image[0], image[1]]));
    let (front, pending) = image.split_at(4 + 8 * keys);
    let kept: Vec<&[u8]> = pending.chunks(26).filter(|it| could_be_made(it)).collect();
    let mut bytes = front[..2 + 8 * keys].to_vec();
    bytes.extend((kept.len() as u16).to_be_bytes());
    bytes.extend(kept.concat());
    bytes
}

/// Splitmix64: each draw is a mix of a counter that steps by an odd number.
pub struct Rng(u64);

impl Rng {
    pub fn next(&mut self) -> u64 {
        self.0 = self.0.wrapping_add(0x9E37_79B9_7F4A_7C15);
        let mut z = self.0;
        z = (z ^ (z >> 30)).wrapping_mul(0xBF58_476D_1CE4_E5B9);
        z = (z ^ (z >> 27)).wrapping_mul(0x94D0_49BB_1331_11EB);
        z ^ (z >> 31)
    }

    /// From 0 to below n.
    pub fn below(&mut self, n: usize) -> usize {
        (self.next() % n as u64) as usize
    }

    /// Once in n.
    pub fn one_in(&mut self, n: usize) -> bool {
        self.below(n) == 0
    }

    pub fn pick<'a, T>(&mut self, of: &'a [T]) -> &'a T {
        &of[self.below(of.len())]
    }

    /// A key of one of several densities: of few neighbours, of many, of all,
    /// with 0 and the largest key among them. The many are some more than the
    /// limit, so that full stores of them come, and many keys are held then.
    pub fn key(&mut self, density: usize) -> u64 {
        match density {
            0 => self.next() % 24,
            1 => self.next() % (3 * LIMIT as u64 / 2),
            2 => u64::MAX - self.next() % (2 * LIMIT as u64),
            // One bit each: no key is the XOR of others.
            3 => 1 << self.below(64),
            _ => match self.below(40) {
                0 => 0,
                1 => u64::MAX,
                _ => self.next(),
            },
        }
    }

    pub fn density(&mut self) -> usize {
        self.below(5)
    }

    /// At most so many keys of one density, rising strictly.
    pub fn keys(&mut self, most: usize, density: usize) -> Vec<u64> {
        let wanted = match self.below(6) {
            0 => 0,
            1 => most,
            2 => self.below(4.min(most) + 1),
            3 => self.below(16.min(most) + 1),
            _ => self.below(most + 1),
        };
        let mut keys = BTreeSet::new();
        // The scarce densities run out of keys, so the draws are counted too.
        for _ in 0..4 * wanted {
            if keys.len() == wanted {
                break;
            }
            keys.insert(self.key(density));
        }
        keys.into_iter().collect()
    }

    /// Keys of two stores whose union has no more than the limit.
    pub fn pair(&mut self) -> (Vec<u64>, Vec<u64>) {
        let density = self.density();
        let all = self.keys(LIMIT, density);
        let odds = *self.pick(&[1, 1, 2, 3, 8, 24, 200]);
        let mut left = Vec::new();
        let mut right = Vec::new();
        for key in all {
            match self.below(2 * odds) {
                0 => left.push(key),
                1 => right.push(key),
                _ => {
                    left.push(key);
                    right.push(key);
                }
            }
        }
        (left, right)
    }

    /// A claim that passes 2 to 5 and 16, or seldom doesn't: true of some of
    /// these keys, true of other keys, of three keys where none is between, or
    /// bent.
    pub fn claim(&mut self, keys: &[u64], density: usize) -> Claim {
        if self.one_in(8) {
            return self.claim_of_three(keys, density);
        }
        let mut claim = if keys.is_empty() || self.one_in(3) {
            let mut other = self.keys(12, density);
            if other.is_empty() {
                other.push(self.key(density));
            }
            claim_of(&other)
        } else {
            let first = self.below(keys.len());
            let last = first + self.below(keys.len() - first);
            claim_of(&keys[first..=last])
        };
        match self.below(8) {
            0 => claim.cnt = claim.cnt.wrapping_add(self.below(4) as u16),
            1 => claim.cnt = claim.cnt.wrapping_sub(self.below(4) as u16),
            2 => claim.sum = self.key(density),
            3 => claim.hi = self.key(density),
            4 if self.one_in(3) => claim.lo = self.key(density),
            5 if self.one_in(6) => {
                claim.cnt = *self.pick(&[0, 1, 2, MOST_CNT, MOST_CNT + 1, u16::MAX]);
            }
            _ => {}
        }
        claim
    }

    /// A claim of three keys with none of these between its ends, each of
    /// which is one of them or isn't. The middle key may lie anywhere.
    fn claim_of_three(&mut self, keys: &[u64], density: usize) -> Claim {
        let at = self.below(keys.len() + 1);
        let below = at.checked_sub(1).map_or(0, |at| keys[at]);
        let above = keys.get(at).copied().unwrap_or(u64::MAX);
        let mut end = |held| match self.below(2) {
            0 => held,
            _ => below + self.next() % (above - below).max(1),
        };
        let (one, other) = (end(below), end(above));
        let (lo, hi) = (one.min(other), one.max(other));
        let middle = match self.below(8) {
            0 => lo,
            1 => hi,
            2 => self.key(density),
            _ => lo + self.next() % (hi - lo).max(1),
        };
        three(lo, middle, hi)
    }

    /// Pending claims in order by 2 to 5 alone, as an image saved before 16
    /// was asked may have them: most of three, and their middle keys at an end,
    /// beside one, inside or anywhere.
    pub fn saved_table(&mut self, keys: &[u64]) -> Vec<Claim> {
        let mut table = BTreeSet::new();
        let wanted = *self.pick(&[0, 1, 2, 8, 40, 64]);
        for _ in 0..2 * wanted {
            if table.len() == wanted || keys.is_empty() {
                break;
            }
            let (one, other) = (*self.pick(keys), *self.pick(keys));
            let (lo, hi) = (one.min(other), one.max(other));
            let middle = match self.below(8) {
                0 => lo,
                1 => hi,
                2 => lo.wrapping_sub(1),
                3 => hi.wrapping_add(1),
                4 => self.next(),
                5 => lo.wrapping_add(1),
                6 => hi.wrapping_sub(1),
                _ => lo + self.next() % (hi - lo).max(1),
            };
            let mut claim = three(lo, middle, hi);
            if self.one_in(4) {
                claim.cnt = self.below(6) as u16;
            }
            if questions::of_saved_claim(&claim).is_ok() {
                table.insert(claim.rank());
            }
        }
        let claim = |(cnt, lo, hi, sum)| c(lo, hi, sum, cnt);
        table.into_iter().map(claim).collect()
    }

    /// A node in order with some claims taken.
    pub fn node(&mut self) -> RawNode {
        let density = self.density();
        let keys = self.keys(LIMIT, density);
        let mut node = RawNode::of(RawStore::of(&keys), &[]);
        let takes = *self.pick(&[0, 1, 5, 20, 70, 90]);
        for _ in 0..takes {
            let held = node.store.held().to_vec();
            node = take(node, self.claim(&held, density)).node;
        }
        node
    }

    /// Damages bytes by a flip, a cut, an insertion or a swap.
    pub fn damage(&mut self, bytes: &mut Vec<u8>) {
        if bytes.is_empty() {
            bytes.push(self.next() as u8);
            return;
        }
        // Near the front are the mark, the version and the counts.
        let at = if self.one_in(2) {
            self.below(bytes.len().min(8))
        } else {
            self.below(bytes.len())
        };
        match self.below(5) {
            0 => bytes[at] ^= 1 << self.below(8),
            1 => bytes.truncate(at),
            2 => bytes.insert(at, self.next() as u8),
            3 => {
                let other = self.below(bytes.len());
                bytes.swap(at, other);
            }
            _ => bytes[at] = self.next() as u8,
        }
    }
}

/// Runs a property for so many seeds. `SECOND_SEED` in the environment runs
/// one seed alone; a failure prints the one it happened with.
pub fn for_seeds(cases: u64, property: impl Fn(&mut Rng)) {
    struct Told(u64);
    impl Drop for Told {
        fn drop(&mut self) {
            if std::thread::panicking() {
                eprintln!("failed with SECOND_SEED={}", self.0);
            }
        }
    }
    let seeds = match std::env::var("SECOND_SEED") {
        Ok(seed) => {
            let seed = seed.parse().expect("SECOND_SEED is a number");
            seed..seed + 1
        }
        Err(_) => 0..cases,
    };
    for seed in seeds {
        let _told = Told(seed);
        property(&mut Rng(seed));
    }
}

/// What came of the inputs that a test drew, each way with how often.
#[derive(Default)]
pub struct Ways(RefCell<BTreeMap<String, usize>>);

impl Ways {
    pub fn saw(&self, way: impl ToString) {
        *self.0.borrow_mut().entry(way.to_string()).or_default() += 1;
    }

    /// Fails if the inputs never went one of these ways. One seed alone may
    /// miss some.
    pub fn all_of<T: ToString>(&self, ways: &[T]) {
        if std::env::var("SECOND_SEED").is_err() {
            let seen = self.0.borrow();
            for way in ways.iter().map(T::to_string) {
                assert!(seen.contains_key(&way), "never {way}: {seen:?}");
            }
        }
    }
}

/// Keys 0, 2, 4, …, so many of them.
pub fn even(count: u64) -> Vec<u64> {
    (0..count).map(|at| 2 * at).collect()
}

/// A full store and 64 claims, each about so many keys as `cnt` says.
pub fn full_image(cnt: u16) -> Vec<u8> {
    let keys = even(LIMIT as u64);
    // Nearly all keys are in each span, and the last one ends within them.
    let apart = LIMIT as u64 - 124;
    let pending: Vec<Claim> = (0..64)
        .map(|at| {
            let (lo, hi) = (2 * at, 2 * (at + apart));
            c(lo, hi, lo ^ hi, cnt)
        })
        .collect();
    let image = image_of(&keys, &pending);
    assert_eq!(image.len(), IMAGE_MOST);
    image
}

/// So many keys; the pages of their sheet, at 120 keys each, and the lines on
/// the last one, at three.
const fn paged(keys: usize) -> (usize, usize, usize) {
    let pages = keys.div_ceil(120);
    (keys, pages, (keys - 120 * (pages - 1)).div_ceil(3))
}

/// Counts of keys; the pages of their sheets, and the lines on the last one.
pub const PAGES: [(usize, usize, usize); 13] = [
    (0, 1, 0),
    (1, 1, 1),
    (3, 1, 1),
    (4, 1, 2),
    (117, 1, 39),
    (118, 1, 40),
    (119, 1, 40),
    (120, 1, 40),
    (121, 2, 1),
    (240, 2, 40),
    (241, 3, 1),
    paged(LIMIT - 1),
    paged(LIMIT),
];
