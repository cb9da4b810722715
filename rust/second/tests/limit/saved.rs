//! "Images saved under the old limit mean the same."

use std::collections::BTreeMap;

use super::common::*;
use super::{OLD_IMAGE_MOST, OLD_LIMIT, tens};
use second::*;

/// Whether a claim passed 2 to 5 under the old limit, in words of its own.
fn passed_before(claim: &Claim) -> bool {
    let Claim { lo, hi, sum, cnt } = *claim;
    match cnt {
        1 => lo == hi && sum == lo,
        2 => lo < hi && sum == lo ^ hi,
        _ => {
            let counted = (3..=OLD_LIMIT).contains(&usize::from(cnt));
            counted && lo <= hi && hi - lo >= u64::from(cnt) - 1
        }
    }
}

/// Whether slip 2 leaves a claim where it is.
fn kept(claim: &Claim) -> bool {
    let middle = claim.sum ^ claim.lo ^ claim.hi;
    claim.cnt != 3 || (claim.lo < middle && middle < claim.hi)
}

/// Pending claims as an image saved under the old limit may have them: of one
/// key and two, of three with the middle one anywhere, and of up to as many as
/// that limit.
fn old_table(rng: &mut Rng, keys: &[u64]) -> Vec<Claim> {
    let wanted = *rng.pick(&[0, 1, 2, 8, 40, 64]);
    let mut table = BTreeMap::new();
    for _ in 0..4 * wanted {
        if table.len() == wanted || keys.is_empty() {
            break;
        }
        let (one, other) = (*rng.pick(keys), *rng.pick(keys));
        let (lo, hi, sum) = (one.min(other), one.max(other), rng.next());
        let claim = match rng.below(7) {
            0 => c(lo, lo, lo, 1),
            1 => c(lo, hi, lo ^ hi, 2),
            2 => three(lo, lo + sum % (hi - lo).max(1), hi),
            3 => three(lo, *rng.pick(&[lo, hi, sum]), hi),
            4 => c(lo, hi, sum, OLD_LIMIT as u16),
            5 => c(lo, hi, sum, OLD_LIMIT as u16 - 1),
            _ => c(lo, hi, sum, 4 + rng.below(OLD_LIMIT - 3) as u16),
        };
        if passed_before(&claim) {
            table.insert(claim.rank(), claim);
        }
    }
    table.into_values().collect()
}

/// What happens to an image saved under the old limit: it is read as just its
/// keys and claims, without those that slip 2 leaves out, and where there is
/// none of these it is written again as the same bytes.
fn means_the_same(keys: &[u64], pending: &[Claim]) {
    assert!(keys.len() <= OLD_LIMIT && pending.iter().all(passed_before));
    let image = image_of(keys, pending);
    assert!(image.len() <= OLD_IMAGE_MOST);
    let rest: Vec<Claim> = pending.iter().copied().filter(kept).collect();
    let node = RawNode::of(RawStore::of(keys), &rest);
    let read = read_image(&image);
    assert_eq!((read.number, &read.node), (0, &node));
    assert_eq!(image_length(&image).length, image.len());
    assert_eq!(host::count(&image), keys.len() as i64);

    let without = image_of(keys, &rest);
    assert_eq!(without == image, rest.len() == pending.len());
    let mut out = vec![0x55; IMAGE_MOST];
    let length = write_image(&read.node, &mut out).length;
    assert_eq!(out[..length], without);
    if keys.is_empty() {
        return;
    }
    // Entering a key held changes nothing, and a round with itself is short.
    let length = host::enter(&image, keys[0], &mut out);
    assert_eq!(out[..length as usize], without);
    let rehearsed = rehearse(&[&image[..], &image].concat());
    let Claim { lo, hi, sum, cnt } = claim_of(keys);
    let whole = ["L", "R"].map(|sender| format!("{sender} {lo} {hi} {sum} {cnt}\n"));
    let counts = format!("left {cnt} right {cnt} claims 2\n");
    assert_eq!(rehearsed, whole.concat() + &counts);
}

#[test]
fn images_saved_under_the_old_limit_mean_the_same() {
    let ways = Ways::default();
    for_seeds(400, |rng| {
        let density = rng.density();
        let keys = rng.keys(OLD_LIMIT, density);
        let pending = old_table(rng, &keys);
        means_the_same(&keys, &pending);
        match keys.len() {
            0 => ways.saw("no key"),
            OLD_LIMIT => ways.saw("as many keys as the old limit"),
            _ => ways.saw("some keys"),
        }
        match pending.len() {
            0 => ways.saw("nothing pending"),
            64 => ways.saw("64 pending"),
            _ => ways.saw("some pending"),
        }
        match pending.iter().filter(|claim| !kept(claim)).count() {
            0 => ways.saw("none left out"),
            left_out if left_out == pending.len() => ways.saw("all left out"),
            _ => ways.saw("some left out"),
        }
        if pending.last().map(|claim| usize::from(claim.cnt)) == Some(OLD_LIMIT) {
            ways.saw("cnt at the old limit");
        }
        if image_of(&keys, &pending).len() == OLD_IMAGE_MOST {
            ways.saw("the old longest");
        }
    });
    ways.all_of(&["no key", "some keys", "as many keys as the old limit"]);
    ways.all_of(&["nothing pending", "some pending", "64 pending"]);
    ways.all_of(&["none left out", "some left out", "all left out"]);
    ways.all_of(&["cnt at the old limit", "the old longest"]);
}

/// Full images of before, with nothing left out, with some and with all.
#[test]
fn full_images_saved_under_the_old_limit_mean_the_same() {
    let keys = tens(OLD_LIMIT);
    let last = keys[OLD_LIMIT - 1];
    let old_most = OLD_LIMIT as u16;
    let counted: Vec<Claim> = (0..64)
        .map(|at| c(keys[usize::from(at)], last, 5, old_most - 63 + at))
        .collect();
    let made_by_none: Vec<Claim> = keys[1..65].iter().map(|&hi| three(0, hi, hi)).collect();
    let mixed = [&made_by_none[..32], &counted[32..]].concat();
    for pending in [counted, made_by_none, mixed] {
        assert_eq!(image_of(&keys, &pending).len(), OLD_IMAGE_MOST);
        means_the_same(&keys, &pending);
        // There is room now: what was refused with 6 is entered.
        let mut out = vec![0x55; IMAGE_MOST];
        let image = image_of(&keys, &pending);
        let length = host::enter(&image, last + 1, &mut out);
        let rest: Vec<Claim> = pending.into_iter().filter(kept).collect();
        let more = [&keys[..], &[last + 1]].concat();
        assert_eq!(out[..length as usize], image_of(&more, &rest));
    }
    means_the_same(&[], &[]);
}
