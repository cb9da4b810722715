//! Images saved before question 16 was asked (document 02, slip 2): claims of
//! three that no store could make may be pending in them, and are left out
//! once the image has passed 1. What becomes of such images, and of nodes and
//! frames with such claims, is read here off the slip's sentences once more;
//! and they are drawn so that all of it does.

use second::*;

use crate::draw::{Rng, claims_in, image_of, number_in};
use crate::middle::{holds, is_faulty, middle_of, three};

/// A node is out of order by a claim that fails 16, and by nothing else.
pub const NODE: &str = "1 by 16 alone";

/// A frame has a claim that fails 16, and none that fails another question.
pub const FRAME: &str = "13 by 16 alone";

/// Of an image's claims some, all or none are left out.
pub const SOME: &str = "some left out, some kept";
pub const ALL: &str = "all left out";
pub const ALL_OF_64: &str = "all 64 left out";
pub const NONE: &str = "of three, none left out";

/// Where those are that are left out of others.
pub const FIRST: &str = "the first left out";
pub const LAST: &str = "the last left out";
pub const IN_A_ROW: &str = "some in a row left out";
pub const AMONG_THREES: &str = "left out between others of three";

/// Each way that a table can go which is read.
pub const READ: [&str; 8] = [
    SOME,
    ALL,
    ALL_OF_64,
    NONE,
    FIRST,
    LAST,
    IN_A_ROW,
    AMONG_THREES,
];

/// Where the middle keys of a table's claims of three lie.
pub const PLACES: [&str; 8] = [
    "left out, just below lo",
    "left out, at lo",
    "kept, just above lo",
    "kept, between",
    "kept, just below hi",
    "left out, at hi",
    "left out, just above hi",
    "left out, elsewhere",
];

/// Claims with room for just one key between their ends.
pub const NARROW: [&str; 2] = ["left out, hi − lo is 2", "kept, hi − lo is 2"];

/// Why an image is refused of which the others, left alone, would be read.
pub const UNSORTED: &str = "1, one to leave out is out of order";
pub const TWICE: &str = "1, one to leave out is there twice";
pub const NOT_HELD: &str = "1, an end of one to leave out isn't held";

pub const BROKEN: [&str; 3] = [UNSORTED, TWICE, NOT_HELD];

/// More than 64 claims, of which up to 64 would be kept.
pub const TOO_MANY: &str = "14, too many with those to leave out";

/// Something is to be left out, and another question refuses the call.
pub const LATER: &str = "refused later, with some to leave out";

/// The claims of a table that are kept.
pub fn kept(pending: &[Claim]) -> Vec<Claim> {
    let kept = pending.iter().filter(|claim| !is_faulty(claim));
    kept.copied().collect()
}

/// Whether claims rise strictly.
fn rise(claims: &[Claim]) -> bool {
    claims.is_sorted_by(|before, after| before.rank() < after.rank())
}

/// Whether each of these claims passes 2 to 5.
fn pass_2_to_5(claims: &[Claim]) -> bool {
    let passes = |claim| questions::of_saved_claim(claim).is_ok();
    claims.iter().all(passes)
}

/// Whether each of these claims has both ends among keys in order.
fn have_ends(claims: &[Claim], keys: &[u64]) -> bool {
    let has_ends = |claim: &Claim| holds(keys, claim.lo) && holds(keys, claim.hi);
    claims.iter().all(has_ends)
}

/// Whether a node is out of order, and would be in order if it weren't for 16.
pub fn is_node_by_16_alone(node: &RawNode) -> bool {
    let table = node.table();
    let kept = RawNode::of(node.store.clone(), &kept(table));
    kept.pending_count < table.len()
        && *node == RawNode::of(node.store.clone(), table)
        && questions::q1_node_in_order(&kept)
        && rise(table)
        && pass_2_to_5(table)
        && have_ends(table, node.store.held())
}

/// Whether a frame's claims don't pass 13, and would if it weren't for 16.
pub fn is_frame_by_16_alone(claims: &[Claim]) -> bool {
    pass_2_to_5(claims) && claims.iter().any(is_faulty)
}

/// The keys and the pending claims of bytes that are as long as their counts
/// say, whatever these are.
pub fn contents(image: &[u8]) -> Option<(Vec<u64>, Vec<Claim>)> {
    let count = |at: usize| Some(number_in(image.get(at..at + 2)?) as usize);
    let end = 2 + 8 * count(0)?;
    if image.len() != end + 2 + 26 * count(end)? {
        return None;
    }
    let keys = image[2..end].chunks_exact(8).map(number_in).collect();
    Some((keys, claims_in(&image[end + 2..])))
}

/// An image that is read, without what is left out of it.
pub fn rest_of(image: &[u8]) -> Vec<u8> {
    let (keys, pending) = contents(image).expect("an image that is read");
    image_of(&keys, &kept(&pending))
}

/// The ways that an image goes in a call that answers with this number, if
/// there is something to leave out, or could be.
pub fn ways_of_image(image: &[u8], number: u8) -> Vec<&'static str> {
    let Some((keys, pending)) = contents(image) else {
        return Vec::new();
    };
    let fit = keys.len() <= RawStore::LIMIT && kept(&pending).len() <= PENDING;
    match number {
        0 => ways_of_table(&pending),
        1 => ways_of_broken(&keys, &pending).into_iter().collect(),
        14 if fit && pending.len() > PENDING => vec![TOO_MANY],
        14 => Vec::new(),
        _ if pending.iter().any(is_faulty) => vec![LATER],
        _ => Vec::new(),
    }
}

/// The ways of a table that is read.
fn ways_of_table(pending: &[Claim]) -> Vec<&'static str> {
    let threes: Vec<&Claim> = pending.iter().filter(|claim| claim.cnt == 3).collect();
    let left_out = pending.len() - kept(pending).len();
    let others_kept = 0 < left_out && left_out < pending.len();
    let end = |claim: Option<&Claim>| others_kept && claim.is_some_and(is_faulty);
    let row = |row: &[Claim]| row.iter().all(is_faulty);
    let among = |row: &[&Claim]| !is_faulty(row[0]) && is_faulty(row[1]) && !is_faulty(row[2]);
    let ways = [
        (SOME, others_kept),
        (ALL, left_out > 0 && !others_kept),
        (ALL_OF_64, left_out == PENDING),
        (NONE, left_out == 0 && !threes.is_empty()),
        (FIRST, end(pending.first())),
        (LAST, end(pending.last())),
        (IN_A_ROW, others_kept && pending.windows(2).any(row)),
        (AMONG_THREES, threes.windows(3).any(among)),
    ];
    let ways = ways
        .into_iter()
        .filter_map(|(way, gone)| gone.then_some(way));
    ways.chain(threes.into_iter().flat_map(places)).collect()
}

/// Where the middle key of a claim of three lies that passes 2 to 5.
fn places(claim: &Claim) -> impl Iterator<Item = &'static str> + use<> {
    let Claim { lo, hi, .. } = *claim;
    let place = match middle_of(claim) {
        middle if lo.checked_sub(1) == Some(middle) => 0,
        middle if middle == lo => 1,
        middle if middle == lo + 1 => 2,
        middle if middle == hi - 1 => 4,
        middle if middle == hi => 5,
        middle if hi.checked_add(1) == Some(middle) => 6,
        _ if is_faulty(claim) => 7,
        _ => 3,
    };
    let [left_out, kept] = NARROW;
    let narrow = if is_faulty(claim) { left_out } else { kept };
    [PLACES[place]]
        .into_iter()
        .chain((hi - lo == 2).then_some(narrow))
}

/// Why an image is refused by 1, where what isn't left out is in order.
fn ways_of_broken(keys: &[u64], pending: &[Claim]) -> Option<&'static str> {
    let kept = kept(pending);
    let others = rise(&kept) && have_ends(&kept, keys);
    let rising = keys.is_sorted_by(|lower, upper| lower < upper);
    if !others || !rising || !pass_2_to_5(pending) {
        return None;
    }
    let twice = pending.windows(2).any(|two| two[0] == two[1]);
    match rise(pending) {
        false if twice => Some(TWICE),
        false => Some(UNSORTED),
        true => {
            assert!(!have_ends(pending, keys), "refused by 1 for no reason");
            Some(NOT_HELD)
        }
    }
}

impl Rng {
    /// Pending claims of these keys in order by 2 to 5 alone, as an image
    /// saved before 16 was asked may have them: all or many of three, and of
    /// these all, some or few faulty.
    pub fn saved_table(&mut self, keys: &[u64]) -> Vec<Claim> {
        let wanted = match self.below(8) {
            0 => 1,
            1 => 2,
            2 => self.below(9),
            3 => self.below(65),
            _ => PENDING,
        };
        let one_in = self.pick(&[1, 1, 2, 2, 4, 16]);
        let threes_alone = self.one_in(3);
        self.table_of(keys, wanted, |rng, keys| match rng.claim_of_three(keys) {
            Some(claim) if rng.one_in(one_in) => rng.faulty(claim, keys),
            Some(claim) if threes_alone || rng.one_in(2) => claim,
            _ => rng.pending_claim(keys),
        })
    }

    /// The keys of a store in order, and such a table for them.
    pub fn saved(&mut self) -> (Vec<u64>, Vec<Claim>) {
        let density = self.density();
        let keys = match self.one_in(4) {
            true => self.nearly_full().0,
            false => self.keys(density),
        };
        let pending = self.saved_table(&keys);
        (keys, pending)
    }

    /// Breaks the order of an image at one of the claims to leave out; without
    /// it the image would mostly be in order still. Where there is no such
    /// claim, nothing is broken.
    pub fn break_saved(&mut self, keys: &mut Vec<u64>, pending: &mut Vec<Claim>) {
        let faulty = (0..pending.len()).filter(|&at| is_faulty(&pending[at]));
        let faulty: Vec<usize> = faulty.collect();
        if faulty.is_empty() {
            return;
        }
        let at = self.pick(&faulty);
        let Claim { lo, hi, .. } = pending[at];
        match self.below(9) {
            0 | 1 => {
                let other = self.below(pending.len());
                pending.swap(at, other);
            }
            2 => pending[at.saturating_sub(1)] = pending[at],
            3 | 4 => pending.insert(at, pending[at]),
            5 => keys.retain(|&key| key != lo),
            6 => keys.retain(|&key| key != hi),
            // An end that isn't held, mostly; where it is, another claim.
            7 => {
                pending[at] = three(lo, lo, self.next().max(lo.saturating_add(2)));
                pending.sort_by_key(Claim::rank);
            }
            _ => {
                pending[at] = three(self.next().min(hi - 2), hi, hi);
                pending.sort_by_key(Claim::rank);
            }
        }
    }
}
