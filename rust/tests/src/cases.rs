//! Runs of many cases, each from a seed of its own, and what was seen in them.

use std::collections::BTreeMap;
use std::fmt::Write;

use crate::card::Case;
use crate::draw::Rng;
use crate::drill::{Card, Drill};
use crate::sums;

/// How often a number or a way must have been seen.
const OFTEN: usize = 100;

/// How often each way that a middle key goes must have been: there are many.
const OFTEN_EACH: usize = 30;

/// How often sums must have been wrong in each way: there are many, and in few
/// stores.
const OFTEN_WRONG: usize = 5;

/// How often each number was answered and each way was gone.
#[derive(Default)]
pub struct Seen {
    numbers: BTreeMap<u8, usize>,
    ways: BTreeMap<&'static str, usize>,
}

impl Seen {
    pub fn number(&mut self, number: u8) {
        *self.numbers.entry(number).or_default() += 1;
    }

    pub fn way(&mut self, way: &'static str) {
        *self.ways.entry(way).or_default() += 1;
    }

    pub fn all(&mut self, ways: Vec<&'static str>) {
        ways.into_iter().for_each(|way| self.way(way));
    }

    /// Fails unless each of these numbers and ways was seen often enough, and
    /// no other number at all.
    pub fn expect(&self, numbers: &[u8], ways: &[&str], often: usize) {
        println!("    numbers {:?}, ways {:?}", self.numbers, self.ways);
        for number in numbers {
            let seen = self.numbers.get(number).copied().unwrap_or(0);
            assert!(seen >= often, "number {number} was seen only {seen} times");
        }
        for number in self.numbers.keys() {
            assert!(numbers.contains(number), "number {number} isn't asked here");
        }
        self.expect_ways(ways, often);
    }

    /// Fails unless each of these ways was seen often enough.
    pub fn expect_ways(&self, ways: &[&str], often: usize) {
        for way in ways {
            let seen = self.ways.get(way).copied().unwrap_or(0);
            assert!(seen >= often, "'{way}' was seen only {seen} times");
        }
    }
}

/// The seeds of a run: `MINUTEFROST_SEED` in the environment runs one alone.
pub fn seeds(cases: u64) -> std::ops::Range<u64> {
    match std::env::var("MINUTEFROST_SEED") {
        Ok(seed) => {
            let seed = seed.parse().expect("MINUTEFROST_SEED is a number");
            seed..seed + 1
        }
        Err(_) => 0..cases,
    }
}

/// Runs something for each seed; a failure prints the one it happened with.
pub fn for_seeds(cases: u64, mut each: impl FnMut(u64, &mut Rng)) {
    struct Seed(u64);
    impl Drop for Seed {
        fn drop(&mut self) {
            if std::thread::panicking() {
                eprintln!("failed with MINUTEFROST_SEED={}", self.0);
            }
        }
    }
    for seed in seeds(cases) {
        let _seed = Seed(seed);
        each(seed, &mut Rng(seed));
    }
}

/// One of these, told by the lowest digit of a number in their base; what
/// remains of the number tells the next. So the numbers below the product of
/// several bases tell each choice of one of each once.
pub fn digit<T: Copy>(number: &mut u64, of: &[T]) -> T {
    let digit = *number % of.len() as u64;
    *number /= of.len() as u64;
    of[digit as usize]
}

/// Whether one seed alone is run, where nothing can be expected to be seen.
pub fn one_seed() -> bool {
    std::env::var_os("MINUTEFROST_SEED").is_some()
}

/// How many requests are on their way at a time.
const BATCH: u64 = 64;

/// Draws so many cases, each from its seed, and compares what the drill
/// replies with what the second program expects, word by word and byte by
/// byte. A failure names the seed.
pub fn compare(cases: u64, draw: impl Fn(&mut Rng) -> Case) -> Seen {
    let mut drill = Drill::start();
    let mut seen = Seen::default();
    let seeds = seeds(cases);
    let mut next = seeds.start;
    while next < seeds.end {
        let batch = next..seeds.end.min(next + BATCH);
        next = batch.end;
        let drawn: Vec<(u64, Case)> = batch.map(|seed| (seed, draw(&mut Rng(seed)))).collect();
        let cards: Vec<_> = drawn
            .iter()
            .map(|(_, case)| (case.call, &case.given))
            .collect();
        let replies = drill.ask_all(&cards);
        for ((seed, case), reply) in drawn.iter().zip(replies) {
            seen.number(case.number);
            case.ways.iter().for_each(|way| seen.way(way));
            if let Some(told) = case.differs(&reply) {
                panic!("MINUTEFROST_SEED={seed}: {told}");
            }
        }
    }
    seen
}

impl Case {
    /// Where a reply is not what was expected, in words.
    pub fn differs(&self, reply: &Card) -> Option<String> {
        let told = || difference(&self.given, reply, &self.expected);
        (*reply != self.expected).then(|| format!("{:?} differs\n{}", self.call, told()))
    }
}

/// The first places where a reply is not what was expected.
fn difference(given: &Card, reply: &Card, expected: &Card) -> String {
    let mut told = String::new();
    let words = reply.words.iter().zip(&expected.words).enumerate();
    for (at, (found, wanted)) in words.filter(|(_, (a, b))| a != b).take(8) {
        let before = given.words[at];
        writeln!(
            told,
            "word {at}: drill {found}, second {wanted}, given {before}"
        )
        .unwrap();
    }
    let bytes = reply.bytes.iter().zip(&expected.bytes).enumerate();
    for (at, (found, wanted)) in bytes.filter(|(_, (a, b))| a != b).take(8) {
        let before = given.bytes[at];
        writeln!(
            told,
            "byte {at}: drill {found}, second {wanted}, given {before}"
        )
        .unwrap();
    }
    told
}

/// Runs cases, in which each of these numbers and ways must have been seen often
/// and no other number.
pub fn run(cases: u64, numbers: &[u8], ways: &[&str], draw: impl Fn(&mut Rng) -> Case) -> Seen {
    run_each(&[], cases, numbers, ways, draw)
}

/// Runs cases that go each of some more ways, if not as often.
pub fn run_each(
    each: &[&str],
    cases: u64,
    numbers: &[u8],
    ways: &[&str],
    draw: impl Fn(&mut Rng) -> Case,
) -> Seen {
    let seen = compare(cases, draw);
    if !one_seed() {
        seen.expect(numbers, ways, OFTEN);
        seen.expect_ways(each, OFTEN_EACH);
    }
    seen
}

/// Fails unless stores were seen whose sums alone are out of order, in each way
/// that they can be (document 02, slip 7).
pub fn expect_wrong_sums(seen: &Seen) {
    if !one_seed() {
        seen.expect_ways(&[sums::ALONE], OFTEN);
        seen.expect_ways(&sums::KINDS, OFTEN_WRONG);
    }
}

/// What fills the places that mean nothing to a call.
pub fn noise(rng: &mut Rng) -> impl FnMut() -> u64 + use<> {
    let mut rng = Rng(rng.next());
    move || rng.next()
}
