//! Pieces of work timed in turns.

use std::fmt;
use std::time::{Duration, Instant};

/// How often the whole measurement is made anew.
const RUNS: usize = 7;

/// The turns of a run, at least and at most, and how long they take in all,
/// about; of each piece of work the best turn counts.
const TURNS: (f64, f64) = (3.0, 30.0);
const RUN: Duration = Duration::from_millis(30);

/// How long a turn of either takes at least.
const TURN: Duration = Duration::from_micros(250);

/// What a program took, and what another took for the same work, in
/// nanoseconds a call: of each run its best turns.
pub struct Compared {
    runs: Vec<[f64; 2]>,
    of_all: fn(Vec<f64>) -> f64,
}

impl Compared {
    fn column(&self, at: usize) -> f64 {
        (self.of_all)(self.runs.iter().map(|run| run[at]).collect())
    }

    pub fn time(&self) -> f64 {
        self.column(0)
    }

    pub fn base(&self) -> f64 {
        self.column(1)
    }

    /// The lowest and the highest ratio of the runs.
    fn spread(&self) -> (f64, f64) {
        let ratios = self.runs.iter().map(|[time, base]| time / base);
        ratios.fold((f64::MAX, f64::MIN), |(low, high), ratio| {
            (low.min(ratio), high.max(ratio))
        })
    }

    /// The same of one part of the work, where it had so many alike.
    pub fn each_of(mut self, parts: usize) -> Compared {
        let times = self.runs.iter_mut().flatten();
        times.for_each(|time| *time /= parts as f64);
        self
    }

    /// The runs of both measurements.
    pub fn with(mut self, other: Compared) -> Compared {
        self.runs.extend(other.runs);
        self
    }
}

/// The cells of a row: both times, with as many decimals as are asked for, the
/// ratio and its spread.
impl fmt::Display for Compared {
    fn fmt(&self, out: &mut fmt::Formatter<'_>) -> fmt::Result {
        let (time, base, (low, high)) = (self.time(), self.base(), self.spread());
        let ratio = time / base;
        let decimals = out.precision().unwrap_or(0);
        write!(
            out,
            "{time:.decimals$} | {base:.decimals$} | **{ratio:.2}** | {low:.2} to {high:.2}"
        )
    }
}

fn least(times: Vec<f64>) -> f64 {
    times.into_iter().fold(f64::MAX, f64::min)
}

fn median(mut times: Vec<f64>) -> f64 {
    times.sort_by(f64::total_cmp);
    times[times.len() / 2]
}

/// Times a program's work against another's, each of so many cases one after
/// the other: a turn goes over all of them.
///
/// Turns alternate, so that both meet the same disturbance, and the best turn
/// of each counts, being the one least disturbed.
pub fn compare(cases: usize, program: impl FnMut(), base: impl FnMut()) -> Compared {
    let mut works: [Box<dyn FnMut() + '_>; 2] = [Box::new(program), Box::new(base)];
    Compared {
        runs: best_turns(cases, &mut works, |best| [best[0], best[1]]),
        of_all: least,
    }
}

/// The same of what work takes longer than a part of it: of each program its
/// work and then that part. The least of differences would be of a disturbed
/// part, so the middle one of the runs counts.
pub fn compare_beyond<P: FnMut(), Q: FnMut()>(
    cases: usize,
    program: [P; 2],
    base: [Q; 2],
) -> Compared {
    let [all, part] = program;
    let [base_all, base_part] = base;
    let mut works: [Box<dyn FnMut() + '_>; 4] = [
        Box::new(all),
        Box::new(part),
        Box::new(base_all),
        Box::new(base_part),
    ];
    let beyond = |best: &[f64]| [best[0] - best[1], best[2] - best[3]];
    Compared {
        runs: best_turns(cases, &mut works, beyond),
        of_all: median,
    }
}

/// All pieces of work in turns; of the best times of each run come the two that
/// are compared.
fn best_turns(
    cases: usize,
    works: &mut [Box<dyn FnMut() + '_>],
    told: impl Fn(&[f64]) -> [f64; 2],
) -> Vec<[f64; 2]> {
    let turns: Vec<Turn> = works.iter_mut().map(|work| turn_of(cases, work)).collect();
    let each_once: f64 = turns.iter().map(|turn| turn.time).sum();
    let (least, most) = TURNS;
    let turns_in_a_run = (RUN.as_nanos() as f64 / each_once).clamp(least, most) as usize;
    let run = |_| {
        let mut best = vec![f64::MAX; works.len()];
        for _ in 0..turns_in_a_run {
            for ((work, turn), best) in works.iter_mut().zip(&turns).zip(&mut best) {
                *best = best.min(time(work, turn.calls) / turn.calls as f64);
            }
        }
        told(&best)
    };
    (0..RUNS).map(run).collect()
}

/// The nanoseconds of so many calls.
fn time(work: &mut impl FnMut(), calls: usize) -> f64 {
    let start = Instant::now();
    for _ in 0..calls {
        work();
    }
    start.elapsed().as_nanos() as f64
}

/// The calls of a turn, and what they took.
struct Turn {
    calls: usize,
    time: f64,
}

/// All cases, as often as it takes for a turn to be long enough, found by
/// doubling; this warms the caches too.
fn turn_of(cases: usize, work: &mut impl FnMut()) -> Turn {
    let mut calls = cases;
    loop {
        let time = time(work, calls);
        if TURN.as_nanos() as f64 <= time {
            return Turn { calls, time };
        }
        calls *= 2;
    }
}
