//! Searches of a run of keys. The daemon's archive has no call for one; the
//! archive of `searches` has two, for tests and measurements alone.
//!
//! A search takes some nanoseconds, no more than it takes to begin a piece of
//! work: so a piece of work is many searches, one after the other. None waits
//! for another, so a processor may begin one before the last has ended.

use std::fmt;
use std::hint::black_box;

use crate::RULE;
use crate::cases::{Draws, VARIANTS};
use crate::library::{Search, own};
use crate::timing::{Compared, compare};

/// How many keys the runs have.
const LENGTHS: [usize; 5] = [16, 64, 256, 1_024, 2_048];

/// The searches in a piece of work.
const SEARCHES: usize = 1_024;

/// All pieces of a row. They seek other keys each, far more than a processor
/// learns the ways to; the run is the same, as it would be in a cache.
const PIECES: usize = VARIANTS as usize;

/// A program that searches, by the two calls of [`Search`].
pub trait Searcher: Copy {
    fn place_in(&self, keys: &[u64], count: usize, key: u64) -> usize;

    fn places_in(&self, keys: &[u64], count: usize, lo: u64, hi: u64, told: &mut [usize]) -> bool;
}

impl Searcher for Search {
    fn place_in(&self, keys: &[u64], count: usize, key: u64) -> usize {
        Search::place_in(self, keys, count, key)
    }

    fn places_in(&self, keys: &[u64], count: usize, lo: u64, hi: u64, told: &mut [usize]) -> bool {
        Search::places_in(self, keys, count, lo, hi, told)
    }
}

/// Plain Rust's own search, by halves. Called and not inlined, as the proved one
/// is. Not by `binary_search`, which took twice as long where this was written:
/// it has a branch on whether the key is held.
#[derive(Clone, Copy)]
struct Plain;

impl Searcher for Plain {
    #[inline(never)]
    fn place_in(&self, keys: &[u64], count: usize, key: u64) -> usize {
        told_by_plain(keys, count, key)
    }

    #[inline(never)]
    fn places_in(&self, keys: &[u64], count: usize, lo: u64, hi: u64, told: &mut [usize]) -> bool {
        let [lower, upper, ..] = told else {
            return false;
        };
        *lower = told_by_plain(keys, count, lo);
        *upper = told_by_plain(keys, count, hi);
        true
    }
}

#[inline]
fn told_by_plain(keys: &[u64], count: usize, key: u64) -> usize {
    let searched = keys.get(..count).unwrap_or(&[]);
    let at = searched.partition_point(|held| *held < key);
    2 * at + usize::from(searched.get(at) == Some(&key))
}

/// What a call seeks.
#[derive(Clone, Copy)]
pub enum Sought {
    One,
    Two,
}

impl fmt::Display for Sought {
    fn fmt(&self, out: &mut fmt::Formatter<'_>) -> fmt::Result {
        out.write_str(match self {
            Sought::One => "one key",
            Sought::Two => "two keys",
        })
    }
}

/// A rising run, and keys to be sought in it, of which about half are held.
pub struct Row {
    keys: Vec<u64>,
    ones: Vec<u64>,
    /// The lesser one first, as in a claim.
    twos: Vec<[u64; 2]>,
}

impl Row {
    fn new(length: usize) -> Row {
        let mut draws = Draws(length as u64);
        let mut keys: Vec<u64> = (0..length).map(|_| draws.next()).collect();
        keys.sort();
        let mut drawn = || match draws.below(2) {
            0 => keys[draws.below(length)],
            _ => draws.next(),
        };
        let ones = (0..PIECES * SEARCHES).map(|_| drawn()).collect();
        let twos = (0..PIECES * SEARCHES).map(|_| {
            let mut two = [drawn(), drawn()];
            two.sort();
            two
        });
        let twos = twos.collect();
        Row { keys, ones, twos }
    }

    pub fn length(&self) -> usize {
        self.keys.len()
    }

    fn one(&self, program: impl Searcher, key: u64) -> usize {
        program.place_in(&self.keys, self.keys.len(), key)
    }

    fn two(&self, program: impl Searcher, [lo, hi]: [u64; 2]) -> [usize; 2] {
        let mut told = [0; 2];
        program.places_in(&self.keys, self.keys.len(), lo, hi, &mut told);
        told
    }

    /// All that a program answers in a row.
    pub fn told(&self, sought: Sought, program: impl Searcher) -> Vec<[usize; 2]> {
        match sought {
            Sought::One => {
                let told = self.ones.iter().map(|key| [self.one(program, *key), 0]);
                told.collect()
            }
            Sought::Two => {
                let told = self.twos.iter().map(|two| self.two(program, *two));
                told.collect()
            }
        }
    }

    fn ones(&self, program: impl Searcher) -> impl FnMut() {
        in_pieces(&self.ones, move |key| self.one(program, *key))
    }

    fn twos(&self, program: impl Searcher) -> impl FnMut() {
        in_pieces(&self.twos, move |two| {
            let [lower, upper] = self.two(program, *two);
            lower.wrapping_add(upper)
        })
    }

    /// What a search takes by one program and by another.
    pub fn compared(
        &self,
        sought: Sought,
        program: impl Searcher,
        base: impl Searcher,
    ) -> Compared {
        let pieces = match sought {
            Sought::One => compare(PIECES, self.ones(program), self.ones(base)),
            Sought::Two => compare(PIECES, self.twos(program), self.twos(base)),
        };
        pieces.each_of(SEARCHES)
    }
}

/// Searches, a piece of them at each call. The sum uses the answers and nothing
/// waits for it.
fn in_pieces<K>(sought: &[K], told: impl Fn(&K) -> usize) -> impl FnMut() {
    let mut next = sought.chunks_exact(SEARCHES).cycle();
    move || {
        let piece = next.next().expect("a cycle");
        black_box(piece.iter().map(&told).fold(0, usize::wrapping_add));
    }
}

/// Each length, and each kind of call.
pub fn rows() -> impl Iterator<Item = (Row, Sought)> {
    let lengths = LENGTHS.into_iter();
    lengths.flat_map(|length| [Sought::One, Sought::Two].map(|sought| (Row::new(length), sought)))
}

pub fn print_searches() {
    println!("## Searches of a run of keys\n");
    match Search::of(&own(), 0) {
        Ok(program) => print_times(program),
        Err(why) => println!("Not measured: {why}.\n"),
    }
}

fn print_times(program: Search) {
    println!(
        "The daemon's archive has no call for a search; that of the crate `searches` has two for tests and measurements alone. \
         \"Plain\" is `slice::partition_point`, for two keys twice. The keys are random, and about half of those sought are held. \
         A time is of one call, among {SEARCHES} one after the other of which none waits for another; in place of cases there \
         are {PIECES} such pieces, each with other keys.\n"
    );
    println!("| Keys | Sought | Rattle, ns | plain, ns | ratio | spread |");
    println!("|---:|---|{RULE}|");
    for (row, sought) in rows() {
        let same = row.told(sought, program) == row.told(sought, Plain);
        assert!(same, "the programs differ");
        let times = row.compared(sought, program, Plain);
        println!("| {} | {sought} | {times:.1} |", row.length());
    }
    println!();
}
