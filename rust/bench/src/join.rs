//! Two images joined into one.

use std::collections::BTreeMap;

use crate::cases::{self, Draws, Pair, VARIANTS};
use crate::timing::Compared;
use crate::{CELLS, LIMIT, RULE, TABLE, as_number, in_turns};
use second::{Claim, RawNode, RawStore};

/// How many keys two images hold together, how many of these not both hold, and
/// how many claims are pending in each: small ones, two with half of all that fit
/// in both, and two equal ones of all that fit.
const PAIRS: [(usize, usize, usize); 6] = [
    (16, 8, 0),
    (16, 8, 4),
    (LIMIT, LIMIT / 2, 0),
    (LIMIT, LIMIT / 2, TABLE),
    (LIMIT, 0, 0),
    (LIMIT, 0, TABLE),
];

/// Two images to join.
struct Two {
    first: Vec<u8>,
    second: Vec<u8>,
}

/// So many claims of spans of these keys. Equal keys have equal claims, others
/// hardly any.
fn table(keys: &[u64], pending: usize, variant: u64) -> Vec<Claim> {
    let store = RawStore::of(keys);
    let mut draws = Draws(variant);
    let mut claims = BTreeMap::new();
    while claims.len() < pending {
        let ends = [0; 2].map(|_| draws.below(keys.len()));
        let (first, last) = (ends[0].min(ends[1]), ends[0].max(ends[1]));
        let claim = second::make(&store, first, last).claim;
        claims.insert(claim.rank(), claim);
    }
    claims.into_values().collect()
}

fn pairs(union: usize, differing: usize, pending: usize) -> Vec<Two> {
    let two = |variant| {
        let Pair {
            hearer, speaker, ..
        } = Pair::new(union, differing, variant);
        let [first, second] = [hearer, speaker].map(|keys| {
            let claims = table(&keys, pending, variant);
            cases::image(&RawNode::of(RawStore::of(&keys), &claims))
        });
        Two { first, second }
    };
    (0..VARIANTS).map(two).collect()
}

/// Both programs join the same images.
fn join(pairs: &[Two]) -> Compared {
    in_turns(
        pairs,
        |two, out| as_number(minutefrost::join(&two.first, &two.second, &mut out.image)),
        |two, out| second::host::join(&two.first, &two.second, &mut out.image),
    )
}

pub fn print_joinings() {
    println!("## Two images in one\n");
    println!(
        "`join`: both images are read and judged as `count` does it, and one is written. Where all keys are in both, the images are \
         equal; where half are, hardly a claim is equal, and 64 of both are kept.\n"
    );
    println!("| Keys together | In both | Pending in each | {CELLS} |");
    println!("|---:|---:|---:|{RULE}|");
    for (union, differing, pending) in PAIRS {
        let times = join(&pairs(union, differing, pending));
        let both = union - differing;
        println!("| {union} | {both} | {pending} | {times} |");
    }
    println!();
}
