//! Running sums beside the keys (document 02, slip 7): the right ones, worked
//! out once more by neither program; the ways that sums can be wrong beside
//! keys and a count in order; and wrong ones drawn so that all of them are
//! gone.

use second::{RawNode, RawStore, questions};

use crate::draw::{Density, Rng};

const LIMIT: usize = RawStore::LIMIT;

// ---- right sums ----

/// The sums beside these keys: "one number for each place: the XOR of all keys
/// up to and with that place, and 0 in unused places".
pub fn right_beside(keys: &[u64]) -> Vec<u64> {
    let mut sums = Vec::with_capacity(LIMIT);
    let mut sum = 0;
    for key in keys {
        sum ^= key;
        sums.push(sum);
    }
    sums.resize(LIMIT, 0);
    sums
}

/// Whether the sums are those of the keys below the count, whatever these are.
pub fn are_right(store: &RawStore) -> bool {
    store.sums[..] == right_beside(store.held())
}

// ---- the ways of wrong sums ----

/// A store's keys and count are in order, or a node is but for the sums in it:
/// nothing else can be why question 1 is answered no.
pub const ALONE: &str = "1 by the sums alone";

/// One sum is wrong, in a place that is in use.
pub const ONE_BIT: &str = "one bit of a sum is wrong";
pub const FIRST: &str = "the first sum is wrong";
pub const LAST: &str = "the last sum is wrong";
pub const NEIGHBOUR: &str = "a sum is its neighbour's";
/// As if the last key had been entered without renewing its sum.
pub const NOT_RENEWED: &str = "the last sum is 0 still";

/// One sum is there, in a place that isn't in use.
pub const BEHIND: &str = "a sum right behind the count";
pub const LAST_PLACE: &str = "a sum in the last place of all";

/// Two or more are. Those that are wrong alike are so by the same bits, which
/// cancel in the XOR of two of them.
pub const TWO: &str = "two sums are wrong alike";
pub const FROM_ONE_ON: &str = "all sums from one on are wrong alike";
pub const ANOTHER: &str = "the sums of another store";

/// One or more are.
pub const ZEROS: &str = "all sums are zero";
pub const KEYS: &str = "the keys are there as sums";

/// All of them.
pub const KINDS: [&str; 12] = [
    ONE_BIT,
    FIRST,
    LAST,
    NEIGHBOUR,
    NOT_RENEWED,
    BEHIND,
    LAST_PLACE,
    TWO,
    FROM_ONE_ON,
    ANOTHER,
    ZEROS,
    KEYS,
];

/// Which store of a round has wrong sums, where nothing else is out of order.
pub const LEFT: &str = "wrong sums on the left";
pub const RIGHT: &str = "wrong sums on the right";
pub const BOTH: &str = "wrong sums on both sides";

pub const SIDES: [&str; 3] = [LEFT, RIGHT, BOTH];

fn rise(keys: &[u64]) -> bool {
    keys.is_sorted_by(|lower, upper| lower < upper)
}

/// Whether a store would be in order if it weren't for the sums.
fn is_but_for_sums(store: &RawStore) -> bool {
    store.count <= LIMIT && {
        let (held, unused) = store.keys.split_at(store.count);
        rise(held) && unused.iter().all(|&place| place == 0)
    }
}

/// How the sums of a store are wrong; none if they aren't, or if they aren't
/// all that is out of order.
pub fn ways(store: &RawStore) -> Vec<&'static str> {
    let right = right_beside(store.held());
    let wrong = (0..LIMIT).filter(|&at| store.sums[at] != right[at]);
    let wrong: Vec<usize> = wrong.collect();
    if wrong.is_empty() || !is_but_for_sums(store) {
        return Vec::new();
    }
    let mut ways = vec![(ALONE, true)];
    match wrong[..] {
        [at] => ways.extend(ways_of_one(store, &right, at)),
        _ => ways.extend(ways_of_several(store, &right, &wrong)),
    }
    ways.extend([
        (ZEROS, store.sums.iter().all(|&sum| sum == 0)),
        (KEYS, store.sums == store.keys),
    ]);
    let gone = ways.into_iter().filter(|(_, gone)| *gone);
    gone.map(|(way, _)| way).collect()
}

/// Whether a way is gone.
type Gone = (&'static str, bool);

/// Where one sum is wrong, and no other.
fn ways_of_one(store: &RawStore, right: &[u64], at: usize) -> [Gone; 7] {
    let (in_use, sum) = (&right[..store.count], store.sums[at]);
    let used = at < in_use.len();
    let last = at + 1 == in_use.len();
    let beside = [at.wrapping_sub(1), at + 1].map(|at| in_use.get(at));
    [
        (ONE_BIT, used && (sum ^ right[at]).is_power_of_two()),
        (FIRST, used && at == 0),
        (LAST, last),
        (NEIGHBOUR, used && beside.contains(&Some(&sum))),
        (NOT_RENEWED, last && sum == 0),
        (BEHIND, at == in_use.len()),
        (LAST_PLACE, !used && at + 1 == LIMIT),
    ]
}

/// Where those at these places are wrong, two or more.
fn ways_of_several(store: &RawStore, right: &[u64], wrong: &[usize]) -> [Gone; 3] {
    let off = |at: &usize| store.sums[*at] ^ right[*at];
    let alike = wrong.iter().all(|at| off(at) == off(&wrong[0]));
    let in_use = wrong.iter().all(|&at| at < store.count);
    let all_on = wrong.iter().copied().eq(wrong[0]..store.count);
    [
        (TWO, alike && in_use && wrong.len() == 2),
        (FROM_ONE_ON, alike && all_on),
        (ANOTHER, are_of_a_store(&store.sums[..])),
    ]
}

/// Whether there is a store in order, not without keys, that has these sums:
/// what each place adds to the sum before it is the key there.
fn are_of_a_store(sums: &[u64]) -> bool {
    let Some(last) = sums.iter().rposition(|&sum| sum != 0) else {
        return false;
    };
    let before = [0].iter().chain(sums);
    let keys = before.zip(sums).map(|(before, sum)| before ^ sum);
    let keys: Vec<u64> = keys.collect();
    // The sum of all keys may be 0, in a place in use behind these.
    rise(&keys[..=last]) || keys.get(..last + 2).is_some_and(rise)
}

/// How the sums in a node are wrong; none if they aren't, or if they aren't all
/// that is out of order.
pub fn ways_of_node(node: &RawNode) -> Vec<&'static str> {
    let ways = ways(&node.store);
    let mut others = node.clone();
    others.store = RawStore::of(node.store.held());
    if ways.is_empty() || !questions::q1_node_in_order(&others) {
        return Vec::new();
    }
    ways
}

/// How the sums of a round's stores are wrong, and on which side.
pub fn ways_of_round(stores: [&RawStore; 2]) -> Vec<&'static str> {
    let ways = stores.map(ways);
    let wrong = [0, 1].map(|at| !ways[at].is_empty());
    let in_order = stores.map(questions::q1_store_in_order);
    let side = match (wrong, in_order) {
        ([true, true], _) => BOTH,
        ([true, false], [_, true]) => LEFT,
        ([false, true], [true, _]) => RIGHT,
        _ => return Vec::new(),
    };
    let mut ways = ways.concat();
    ways.push(side);
    ways
}

// ---- wrong sums drawn ----

/// Makes the sums of a store wrong in one way, where it has room for that.
pub type Damage = fn(&mut Rng, &mut RawStore);

/// One for each of the ways.
pub const DAMAGES: [(&str, Damage); KINDS.len()] = [
    (ONE_BIT, |rng, store| {
        let bit = 1 << rng.below(64);
        wrong_in_use(rng, store, |held| 0..held, bit);
    }),
    (FIRST, |rng, store| {
        let off = rng.off();
        wrong_in_use(rng, store, |held| 0..held.min(1), off);
    }),
    (LAST, |rng, store| {
        let off = rng.off();
        wrong_in_use(rng, store, |held| held.saturating_sub(1)..held, off);
    }),
    (NEIGHBOUR, neighbours_sum),
    (NOT_RENEWED, |_, store| {
        if let Some(last) = store.held().len().checked_sub(1) {
            store.sums[last] = 0;
        }
    }),
    (BEHIND, sum_behind),
    (LAST_PLACE, |rng, store| {
        if store.held().len() < LIMIT {
            store.sums[LIMIT - 1] = rng.off();
        }
    }),
    (TWO, |rng, store| {
        let off = rng.off();
        wrong_in_use(rng, store, |held| 0..held / 2, off);
        wrong_in_use(rng, store, |held| held / 2..held, off);
    }),
    (FROM_ONE_ON, |rng, store| {
        let (held, off) = (store.held().len(), rng.off());
        let first = rng.below(held.max(2) - 1);
        store.sums[first..held.max(first)]
            .iter_mut()
            .for_each(|sum| *sum ^= off);
    }),
    (ANOTHER, sums_of_another),
    (ZEROS, |_, store| store.sums.fill(0)),
    (KEYS, |_, store| store.sums = store.keys.clone()),
];

/// Makes the sum wrong by these bits in one of the places that are told for so
/// many keys.
fn wrong_in_use(
    rng: &mut Rng,
    store: &mut RawStore,
    places: fn(usize) -> std::ops::Range<usize>,
    off: u64,
) {
    let places = places(store.held().len());
    if !places.is_empty() {
        store.sums[places.start + rng.below(places.len())] ^= off;
    }
}

fn neighbours_sum(rng: &mut Rng, store: &mut RawStore) {
    let held = store.held().len();
    if held > 1 {
        let lower = rng.below(held - 1);
        let (at, from) = rng.pick(&[(lower, lower + 1), (lower + 1, lower)]);
        store.sums[at] = store.sums[from];
    }
}

/// A number of any kind, or the last sum once more: as if the sum ran on.
fn sum_behind(rng: &mut Rng, store: &mut RawStore) {
    let held = store.held().len();
    if held < LIMIT {
        let runs_on = held > 0 && store.sums[held - 1] != 0 && rng.one_in(2);
        store.sums[held] = if runs_on {
            store.sums[held - 1]
        } else {
            rng.off()
        };
    }
}

/// The sums of a store of the same keys but one, which is missing, another or
/// one more; or of any keys.
fn sums_of_another(rng: &mut Rng, store: &mut RawStore) {
    let mut keys = store.held().to_vec();
    let (count, at) = (keys.len(), rng.below(keys.len().max(1)));
    match rng.below(5) {
        0 if count > 0 => drop(keys.remove(at)),
        1 if count > 0 => keys[at] = rng.next(),
        2 if count < LIMIT => keys.push(rng.next()),
        3 => keys = rng.keys_of(count, Density::WIDE),
        _ => {
            let count = rng.below(LIMIT + 1);
            keys = rng.keys_of(count, Density::WIDE);
        }
    }
    keys.sort_unstable();
    keys.dedup();
    store.sums.copy_from_slice(&right_beside(&keys));
}

impl Rng {
    /// By which bits a sum is wrong: one, or any.
    fn off(&mut self) -> u64 {
        if self.one_in(2) {
            return 1 << self.below(64);
        }
        self.next().max(1)
    }

    /// Makes the sums of a store others than they are, in one of the ways.
    pub fn bend_sums(&mut self, store: &mut RawStore) {
        let before = store.sums.clone();
        while store.sums == before {
            let (_, damage) = self.pick(&DAMAGES);
            damage(self, store);
        }
    }
}
