//! "A store is in order only if these numbers are right too": stores whose keys
//! and count are in order and whose sums are wrong, each in one way.

use super::common::*;
use super::sums_of;
use second::*;

/// A store of these keys and sums.
pub fn with_sums(keys: &[u64], sums: &[u64]) -> RawStore {
    let mut store = RawStore::of(keys);
    store.sums.copy_from_slice(sums);
    store
}

/// These keys with every run of wrong sums below; those that happen to be right
/// are left out.
pub fn with_wrong_sums(keys: &[u64]) -> Vec<RawStore> {
    let right = sums_of(keys);
    let mut all = one_bit(keys, &right);
    all.extend(past_the_count(keys, &right));
    all.extend(of_other_stores(keys));
    all.extend(moved(keys, &right));
    all.extend(not_brought_up_to_date(keys, &right));
    all.extend(of_other_kinds(keys, &right));
    all.retain(|sums| *sums != right);
    all.iter().map(|sums| with_sums(keys, sums)).collect()
}

/// One sum in use wrong by one bit, in at most 40 places.
fn one_bit(keys: &[u64], right: &[u64]) -> Vec<Vec<u64>> {
    let count = keys.len();
    let places = (0..count).filter(|&place| place < 20 || place + 20 >= count);
    places
        .map(|place| {
            let mut sums = right.to_vec();
            sums[place] ^= 1 << (place * 7 % 64);
            sums
        })
        .collect()
}

/// Sums that aren't 0 in places not in use: in one, or in all as if the sum ran
/// on.
fn past_the_count(keys: &[u64], right: &[u64]) -> Vec<Vec<u64>> {
    let count = keys.len();
    let last = if count == 0 { 0 } else { right[count - 1] };
    let mut all = Vec::new();
    for place in [count, count + 1, (count + LIMIT) / 2, LIMIT - 1] {
        for sum in [1, 1 << 63, last] {
            let mut sums = right.to_vec();
            if (count..LIMIT).contains(&place) {
                sums[place] = sum;
            }
            all.push(sums);
        }
    }
    let mut sums = right.to_vec();
    sums[count..].fill(last);
    all.push(sums);
    all
}

/// The right sums of other stores.
fn of_other_stores(keys: &[u64]) -> Vec<Vec<u64>> {
    let fewer = |from: usize, to: usize| sums_of(keys.get(from..to).unwrap_or_default());
    let count = keys.len();
    let more: Vec<u64> = keys.iter().copied().chain([5]).take(LIMIT).collect();
    let complements: Vec<u64> = keys.iter().rev().map(|key| !key).collect();
    vec![
        sums_of(&[]),
        sums_of(&[6, 7, 9]),
        sums_of(&even(count as u64)),
        sums_of(full(3).held()),
        fewer(0, count.saturating_sub(1)),
        fewer(1, count),
        sums_of(&more),
        sums_of(&complements),
    ]
}

/// The neighbours' sums, and two that have changed places.
fn moved(keys: &[u64], right: &[u64]) -> Vec<Vec<u64>> {
    let mut all = Vec::new();
    for by in [1, 2] {
        let (mut up, mut down) = (right.to_vec(), right.to_vec());
        up.rotate_right(by);
        down.rotate_left(by);
        // The same, but zeros in the places not in use.
        let mut cut = up.clone();
        cut[keys.len()..].fill(0);
        all.extend([up, down, cut]);
    }
    for at in [0, keys.len() / 2, keys.len().saturating_sub(2)] {
        let mut sums = right.to_vec();
        sums.swap(at, at + 1);
        all.push(sums);
    }
    all
}

/// Sums that lack a key entered: from its place on, behind it, in its place
/// alone or in the last place alone.
fn not_brought_up_to_date(keys: &[u64], right: &[u64]) -> Vec<Vec<u64>> {
    let count = keys.len();
    let mut all = Vec::new();
    for at in [0, 1, count / 2, count.saturating_sub(1)] {
        let key = keys.get(at).copied().unwrap_or(0);
        for (from, to) in [(at, count), (at + 1, count), (at, at + 1)] {
            let mut sums = right.to_vec();
            let within = sums.get_mut(from..to.min(count)).unwrap_or_default();
            within.iter_mut().for_each(|sum| *sum ^= key);
            all.push(sums);
        }
        let mut sums = right.to_vec();
        sums[count.saturating_sub(1)] ^= key;
        all.push(sums);
    }
    all
}

/// Sums in use that begin with another number than 0, and such as aren't the
/// running XOR.
fn of_other_kinds(keys: &[u64], right: &[u64]) -> Vec<Vec<u64>> {
    fn folds(keys: &[u64], fold: impl Fn(u64, u64) -> u64) -> Vec<u64> {
        let sum = |to: usize| keys[..=to].iter().fold(0, |sum, &key| fold(sum, key));
        (0..keys.len()).map(sum).collect()
    }
    let in_use = &right[..keys.len()];
    let from = |at: usize| keys[at..].iter().fold(0, |sum, key| sum ^ key);
    let mut all: Vec<Vec<u64>> = vec![
        in_use.iter().map(|sum| sum ^ 1).collect(),
        in_use.iter().map(|sum| sum ^ 1 << 63).collect(),
        in_use.iter().map(|sum| !sum).collect(),
        in_use.iter().map(|sum| sum.swap_bytes()).collect(),
        keys.to_vec(),
        // Totals, and the like.
        folds(keys, |sum, key| sum.wrapping_add(key)),
        folds(keys, |sum, key| sum | key),
        folds(keys, |_, key| key),
        // From the place on, and from the one after it.
        (0..keys.len()).map(from).collect(),
        (0..keys.len()).map(|at| from(at + 1)).collect(),
    ];
    all.iter_mut().for_each(|sums| sums.resize(LIMIT, 0));
    all
}
