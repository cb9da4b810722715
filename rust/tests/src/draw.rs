//! Keys, stores, claims, nodes and bytes drawn from a seed.

use std::collections::BTreeSet;

use second::*;

use crate::middle::{holds, is_faulty, three};

const LIMIT: usize = RawStore::LIMIT;

/// The greatest cnt that question 3 lets pass.
const MOST_CNT: u16 = LIMIT as u16;

/// The keys of a density at which they are close together: about a quarter more
/// than fit, so that a full store has some without a neighbour.
const CLOSE: u64 = LIMIT as u64 * 127 / 100;

/// The keys in each of eight places, which all together have more than twice as
/// many as fit.
const NEIGHBOURS: u64 = LIMIT as u64 * 293 / 1_000;

/// Splitmix64: each draw is a mix of a counter that steps by an odd number.
pub struct Rng(pub u64);

impl Rng {
    #[allow(clippy::should_implement_trait)] // Endless, and no loop runs over it.
    pub fn next(&mut self) -> u64 {
        self.0 = self.0.wrapping_add(0x9E37_79B9_7F4A_7C15);
        let mut z = self.0;
        z = (z ^ (z >> 30)).wrapping_mul(0xBF58_476D_1CE4_E5B9);
        z = (z ^ (z >> 27)).wrapping_mul(0x94D0_49BB_1331_11EB);
        z ^ (z >> 31)
    }

    /// From 0 to below n.
    pub fn below(&mut self, n: usize) -> usize {
        (self.next() % n as u64) as usize
    }

    /// Once in n.
    pub fn one_in(&mut self, n: usize) -> bool {
        self.below(n) == 0
    }

    pub fn pick<T: Copy>(&mut self, of: &[T]) -> T {
        of[self.below(of.len())]
    }
}

/// How close together keys are.
#[derive(Clone, Copy, Debug)]
pub struct Density(usize);

impl Density {
    /// All keys, 0 and the largest more often than others.
    pub const WIDE: Density = Density(6);
}

impl Rng {
    pub fn density(&mut self) -> Density {
        Density(self.below(7))
    }

    /// A key; at every density but one 0 or the largest is among them.
    pub fn key(&mut self, Density(density): Density) -> u64 {
        match density {
            0 => self.next() % 40,
            1 => self.next() % CLOSE,
            2 => u64::MAX - self.next() % CLOSE,
            // One bit each: no key is the XOR of others.
            3 => 1 << self.below(64),
            // Neighbours in a few far places, one of them around both ends.
            4 => {
                let place = (self.next() % 8).wrapping_mul(0x2492_4924_9249_2492);
                let at = place.wrapping_add(self.next() % NEIGHBOURS);
                at.wrapping_sub(NEIGHBOURS / 2)
            }
            5 => self.next() % 100_000,
            _ => match self.below(100) {
                0 => 0,
                1 => u64::MAX,
                _ => self.next(),
            },
        }
    }

    /// How many keys a store has: few, many, all.
    fn count(&mut self) -> usize {
        match self.below(9) {
            0 => self.below(2),
            1 | 2 => self.below(8),
            3 | 4 => self.below(64),
            5 => self.below(300),
            6 => self.below(LIMIT + 1),
            7 => LIMIT - 3 + self.below(4),
            _ => LIMIT,
        }
    }

    /// So many keys, or as many as there are at a scarce density.
    pub fn keys_of(&mut self, count: usize, density: Density) -> Vec<u64> {
        let mut keys = BTreeSet::new();
        for _ in 0..8 * count {
            if keys.len() == count {
                break;
            }
            keys.insert(self.key(density));
        }
        keys.into_iter().collect()
    }

    /// The keys of a store in order.
    pub fn keys(&mut self, density: Density) -> Vec<u64> {
        let count = self.count();
        self.keys_of(count, density)
    }

    /// The keys of a store with room for 0 to 3 more, and no scarce density.
    pub fn nearly_full(&mut self) -> (Vec<u64>, Density) {
        let density = Density(self.pick(&[1, 2, 4, 5, 6]));
        let count = LIMIT - 3 + self.below(4);
        let mut keys: BTreeSet<u64> = BTreeSet::new();
        while keys.len() < count {
            keys.insert(self.key(density));
        }
        (keys.into_iter().collect(), density)
    }

    /// A store, mostly in order; otherwise bent a little, or no store at all.
    pub fn store(&mut self, density: Density) -> RawStore {
        let keys = self.keys(density);
        let mut store = RawStore::of(&keys);
        if self.one_in(6) {
            self.bend_store(&mut store, density);
        }
        store
    }

    /// Breaks the order of a store in one of many ways; seldom it holds. Nearly
    /// as often as the keys or the count only the sums are wrong. Where the keys
    /// or the count are, the sums are mostly those of the keys as they stand.
    pub fn bend_store(&mut self, store: &mut RawStore, density: Density) {
        if self.below(16) < 7 {
            self.bend_sums(store);
            return;
        }
        self.bend_keys(store, density);
        if !self.one_in(4) {
            store.resum();
        }
    }

    /// Makes the keys or the count of a store others than they are.
    fn bend_keys(&mut self, store: &mut RawStore, density: Density) {
        let count = store.count.min(LIMIT);
        let held = count.max(1);
        match self.below(9) {
            0 => store.count = count.wrapping_sub(1),
            1 => store.count = store.count.wrapping_add(1),
            2 => {
                let counts = [LIMIT, LIMIT + 1, 2 * LIMIT, usize::MAX, 1 << 63, 65_536];
                store.count = self.pick(&counts);
            }
            3 => {
                let (one, other) = (self.below(held), self.below(held));
                store.keys.swap(one, other);
            }
            4 => {
                let at = self.below(held);
                store.keys[at] = store.keys[at.saturating_sub(1)];
            }
            // A place from the count on isn't 0.
            5 => store.keys[self.below(LIMIT)] = self.key(density),
            6 => store.keys[LIMIT - 1] = self.next(),
            7 => store.keys[count.min(LIMIT - 1)] = self.key(density).max(1),
            _ => {
                store.keys.fill_with(|| self.next());
                store.count = self.below(LIMIT + 6);
            }
        }
    }
}

/// The claim of keys that rise strictly, reckoned the plain way.
pub fn claim_of(keys: &[u64]) -> Claim {
    let sum = keys.iter().fold(0, |sum, key| sum ^ key);
    Claim::new(keys[0], keys[keys.len() - 1], sum, keys.len() as u16)
}

impl Rng {
    /// A claim: true of some of these keys, true of others, bent, or refused
    /// by a question that is drawn.
    pub fn claim(&mut self, keys: &[u64], density: Density) -> Claim {
        let mut claim = self.true_claim(keys, density);
        match self.below(12) {
            0 => claim.cnt = claim.cnt.wrapping_add(1 + self.below(3) as u16),
            1 => claim.cnt = claim.cnt.saturating_sub(1 + self.below(3) as u16).max(2),
            2 => claim.cnt = claim.cnt.saturating_sub(self.below(100) as u16).max(3),
            3 => claim.sum ^= self.key(density),
            4 => claim.hi = self.key(density).max(claim.lo),
            5 => claim.lo = self.key(density).min(claim.hi),
            6 if self.one_in(2) => claim = self.refused(claim),
            _ => {}
        }
        claim
    }

    /// A claim that passes 2 to 5 and 16: true of some of these keys, or of
    /// others.
    pub fn true_claim(&mut self, keys: &[u64], density: Density) -> Claim {
        if keys.is_empty() || self.one_in(4) {
            let count = 1 + self.below(12);
            return claim_of(&self.keys_of(count, density));
        }
        let first = self.below(keys.len());
        let most = if self.one_in(2) { 8 } else { keys.len() };
        let last = (first + self.below(most)).min(keys.len() - 1);
        claim_of(&keys[first..=last])
    }

    /// A claim that one of the questions 2 to 5 or 16 refuses, or nearly does.
    pub fn refused(&mut self, claim: Claim) -> Claim {
        let Claim { lo, hi, sum, cnt } = claim;
        match self.below(16) {
            0 => Claim::new(hi, lo, sum, cnt),
            1 => Claim::new(hi.wrapping_add(1), lo, sum, cnt),
            2 => Claim::new(lo, hi, sum, 0),
            3 => {
                let cnts = [MOST_CNT, MOST_CNT + 1, 2 * MOST_CNT, u16::MAX];
                Claim::new(lo, hi, sum, self.pick(&cnts))
            }
            4 => Claim::new(lo, lo, lo, self.pick(&[0, 1, 2, 3])),
            5 => Claim::new(lo, lo.wrapping_add(1), sum, self.pick(&[1, 2, 3])),
            6 => {
                let width = self.below(LIMIT + 6) as u64;
                let cnt = (width + self.next() % 3) as u16;
                Claim::new(lo, lo.saturating_add(width), sum, cnt)
            }
            7 => Claim::new(lo, hi, sum, 1),
            8 => Claim::new(lo, lo, sum ^ (self.next() % 2), 1),
            9 => Claim::new(lo, hi, lo ^ hi ^ (self.next() % 2), 2),
            10 => {
                let cnts = [1, 2, 3, MOST_CNT, MOST_CNT + 1];
                Claim::new(0, u64::MAX, sum, self.pick(&cnts))
            }
            11 | 12 => self.beside_an_end(lo, hi),
            13 => self.beside_an_end(lo, lo.saturating_add(2)),
            14 => Claim::new(lo, hi, sum, 3),
            _ => Claim::new(self.next(), self.next(), self.next(), self.next() as u16),
        }
    }

    /// A claim of three whose middle key is at one of its ends or next to it.
    fn beside_an_end(&mut self, lo: u64, hi: u64) -> Claim {
        let end = self.pick(&[lo, hi]);
        let middle = self.pick(&[end, end.wrapping_sub(1), end.wrapping_add(1)]);
        three(lo, middle, hi)
    }

    /// A claim for a table: its ends are among the keys, and 2 to 5 and 16
    /// pass.
    pub fn pending_claim(&mut self, keys: &[u64]) -> Claim {
        if self.one_in(6)
            && let Some(claim) = self.claim_of_three(keys)
        {
            return claim;
        }
        let mut claim = self.true_claim(keys, Density(0));
        let width = claim.hi - claim.lo;
        if width >= 2 && !self.one_in(3) {
            let most = (LIMIT as u64 - 2).min(width - 1) as usize;
            let near = self.below(most.min(9));
            let far = self.below(most);
            claim.cnt = 3 + if self.one_in(3) { far } else { near } as u16;
            if self.one_in(2) {
                claim.sum = self.next();
            }
            if is_faulty(&claim) {
                let middle = self.key_between(claim.lo, claim.hi);
                claim = three(claim.lo, middle, claim.hi);
            }
        }
        claim
    }

    /// A node in order.
    pub fn node_in_order(&mut self) -> RawNode {
        let density = self.density();
        let keys = self.keys(density);
        self.node_of(&keys)
    }

    /// A node in order of these keys.
    pub fn node_of(&mut self, keys: &[u64]) -> RawNode {
        let wanted = match self.below(6) {
            0 => 0,
            1 => 1,
            2 | 3 => self.below(65),
            _ => 64,
        };
        let pending = self.table_of(keys, wanted, Rng::pending_claim);
        RawNode::of(RawStore::of(keys), &pending)
    }

    /// So many pending claims that rise strictly, or as many as there are, each
    /// drawn for these keys; one that has others as its ends is of one key.
    pub fn table_of(
        &mut self,
        keys: &[u64],
        wanted: usize,
        draw: impl Fn(&mut Rng, &[u64]) -> Claim,
    ) -> Vec<Claim> {
        let mut pending: Vec<Claim> = Vec::new();
        if !keys.is_empty() {
            for _ in 0..2 * wanted {
                let mut claim = draw(self, keys);
                if !holds(keys, claim.lo) || !holds(keys, claim.hi) {
                    claim = claim_of(&[keys[self.below(keys.len())]]);
                }
                pending.push(claim);
            }
        }
        pending.sort_by_key(Claim::rank);
        pending.dedup();
        while pending.len() > wanted {
            let at = self.below(pending.len());
            pending.remove(at);
        }
        pending
    }

    /// A node, mostly in order.
    pub fn node(&mut self) -> RawNode {
        let mut node = self.node_in_order();
        if self.one_in(6) {
            self.bend_node(&mut node);
        }
        node
    }

    /// Breaks the order of a node in one of many ways; seldom it holds.
    pub fn bend_node(&mut self, node: &mut RawNode) {
        let count = node.pending_count.min(PENDING);
        let held = count.max(1);
        let at = self.below(held);
        let density = self.density();
        match self.below(18) {
            0 => self.bend_store(&mut node.store, density),
            1 => node.pending_count = count.wrapping_sub(1),
            2 => node.pending_count = node.pending_count.wrapping_add(1),
            3 => node.pending_count = self.pick(&[64, 65, 66, LIMIT, usize::MAX, 1 << 63]),
            4 => {
                let other = self.below(held);
                node.pending.swap(at, other);
            }
            5 => node.pending[at] = node.pending[at.saturating_sub(1)],
            // An unused place isn't zeros, in one field alone.
            6 => {
                let place = &mut node.pending[count.min(PENDING - 1)];
                match self.below(4) {
                    0 => place.lo ^= 1,
                    1 => place.hi ^= 1,
                    2 => place.sum ^= 1,
                    _ => place.cnt ^= 1,
                }
            }
            7 => node.pending[at] = self.refused(node.pending[at]),
            // An end isn't held.
            8 => node.pending[at].hi = self.key(density),
            9 => node.pending[at].lo = self.key(density),
            10..=13 => self.make_faulty(node),
            14..=16 => self.bend_sums(&mut node.store),
            _ => node.pending[self.below(PENDING)] = Claim::new(self.next(), self.next(), 1, 3),
        }
    }

    /// Puts a claim of three that no store could make into the table of a node
    /// in order, in the place of another; the others stay in order.
    fn make_faulty(&mut self, node: &mut RawNode) {
        let keys = node.store.held().to_vec();
        let count = node.pending_count.min(PENDING);
        if let Some(claim) = self.claim_of_three(&keys)
            && count > 0
        {
            node.pending[self.below(count)] = self.faulty(claim, &keys);
            node.pending[..count].sort_by_key(Claim::rank);
        }
    }

    /// Two stores in order, alike or not, whose union seldom is too large.
    pub fn pair(&mut self) -> (Vec<u64>, Vec<u64>) {
        let density = self.density();
        let mut all = self.keys(density);
        if self.one_in(12) {
            all = self.nearly_full().0;
            let more = self.below(4);
            all.extend(self.keys_of(more, Density(6)));
            all.sort_unstable();
            all.dedup();
        }
        self.dealt(all)
    }

    /// Two stores in order, of keys of three or four bits: with so few of
    /// them, claims of three abound.
    pub fn pair_of_few_bits(&mut self) -> (Vec<u64>, Vec<u64>) {
        let most = self.pick(&[8, 16]);
        let all = (0..most).filter(|_| !self.one_in(4)).collect();
        self.dealt(all)
    }

    /// Two stores in order, of a few keys together.
    pub fn small_pair(&mut self) -> (Vec<u64>, Vec<u64>) {
        let density = self.density();
        let count = self.below(10);
        let all = self.keys_of(count, density);
        self.dealt(all)
    }

    /// Each key for one store or for both, at odds that are drawn.
    pub fn dealt(&mut self, all: Vec<u64>) -> (Vec<u64>, Vec<u64>) {
        let odds = self.pick(&[1, 1, 2, 3, 8, 24, 200, 1_000]);
        let mut left = Vec::new();
        let mut right = Vec::new();
        for key in all {
            match self.below(2 * odds) {
                0 => left.push(key),
                1 => right.push(key),
                _ => {
                    left.push(key);
                    right.push(key);
                }
            }
        }
        left.truncate(LIMIT);
        right.truncate(LIMIT);
        (left, right)
    }
}

/// An image of any content, its counts told as they are.
pub fn image_of(keys: &[u64], pending: &[Claim]) -> Vec<u8> {
    let mut bytes = (keys.len() as u16).to_be_bytes().to_vec();
    keys.iter().for_each(|key| bytes.extend(key.to_be_bytes()));
    bytes.extend((pending.len() as u16).to_be_bytes());
    pending
        .iter()
        .for_each(|claim| push_claim(&mut bytes, claim));
    bytes
}

/// A frame of any content.
pub fn frame_of(claims: &[Claim]) -> Vec<u8> {
    let mut bytes = vec![0x4C, 0x43, 1, claims.len() as u8];
    claims
        .iter()
        .for_each(|claim| push_claim(&mut bytes, claim));
    bytes
}

fn push_claim(bytes: &mut Vec<u8>, claim: &Claim) {
    for number in [claim.lo, claim.hi, claim.sum] {
        bytes.extend(number.to_be_bytes());
    }
    bytes.extend(claim.cnt.to_be_bytes());
}

/// A number in bytes, high byte first.
pub fn number_in(bytes: &[u8]) -> u64 {
    let digits = bytes.iter().map(|&byte| u64::from(byte));
    digits.fold(0, |number, digit| number << 8 | digit)
}

/// The claims that stand in bytes, 26 each.
pub fn claims_in(bytes: &[u8]) -> Vec<Claim> {
    let claim = |bytes: &[u8]| {
        let [lo, hi, sum] = [0, 8, 16].map(|at| number_in(&bytes[at..at + 8]));
        Claim::new(lo, hi, sum, number_in(&bytes[24..]) as u16)
    };
    bytes.chunks_exact(26).map(claim).collect()
}

impl Rng {
    /// The image of a node, of any content within its counts.
    pub fn image(&mut self) -> Vec<u8> {
        let mut node = self.node_in_order();
        if self.one_in(4) {
            self.bend_node(&mut node);
        }
        image_of(node.store.held(), node.table())
    }

    /// From none to five claims of these keys, as a frame has them.
    pub fn frame_claims(&mut self, keys: &[u64], density: Density) -> Vec<Claim> {
        let n = self.pick(&[0, 1, 1, 2, 2, 3, 3, 4, 4, 4, 5]);
        let mut claims: Vec<Claim> = (0..n).map(|_| self.true_claim(keys, density)).collect();
        if n > 0 && self.one_in(5) {
            let at = self.below(n);
            claims[at] = self.refused(claims[at]);
        }
        claims
    }

    /// Damages bytes by a flip, a cut, an insertion or a swap; near the front
    /// are the mark, the version and the counts.
    pub fn damage(&mut self, bytes: &mut Vec<u8>) {
        if bytes.is_empty() {
            bytes.push(self.next() as u8);
            return;
        }
        let most = if self.one_in(2) {
            bytes.len().min(8)
        } else {
            bytes.len()
        };
        let at = self.below(most);
        match self.below(7) {
            0 => bytes[at] ^= 1 << self.below(8),
            1 => bytes.truncate(at),
            2 => bytes.truncate(bytes.len() - 1),
            3 => bytes.insert(at, self.next() as u8),
            4 => bytes.push(self.next() as u8),
            5 => {
                let other = self.below(bytes.len());
                bytes.swap(at, other);
            }
            _ => bytes[at] = self.next() as u8,
        }
    }
}
