//! How long the proved calls take, as ratios to the second program's, which
//! is plain Rust of the same calls: `cargo run --release -p bench`. With the
//! words `against FOLDER`: as ratios to those of another checkout.
//!
//! What is printed is docs/BENCHMARK.md. A measurement and no test: nothing
//! fails by being slow, but both programs must give the same bytes.

mod against;
mod cases;
mod deliveries;
mod join;
mod library;
mod machine;
mod opening;
mod round;
mod search;
mod sheet;
mod timing;

use std::hint::black_box;
use std::iter;
use std::path::Path;
use std::process::ExitCode;

use cases::{Buffers, Case, Pair, VARIANTS, beaten};
use minutefrost::Refusal;
use second::{Claim, RawStore};
use timing::{Compared, compare};

/// The most keys of a store.
const LIMIT: usize = RawStore::LIMIT;

/// The keys of a union: 1,024 were all that fit until slip 6 of document 02, so
/// that these rows can be held against earlier ones.
const UNIONS: [usize; 4] = [16, 128, 1_024, LIMIT];

/// How many of them differ, where the union has as many; then all.
const DIFFERING: [usize; 3] = [0, 1, 24];

const TABLE: usize = 64;

const CELLS: &str = "Rattle, ns | second, ns | ratio | spread";
const RULE: &str = "---:|---:|---:|---:";

/// A call by its name, and how it is timed.
type Timed = (&'static str, fn(&[Case]) -> Compared);

const CALLS: [Timed; 4] = [
    ("take_frame", take_frame),
    ("beat", beat),
    ("enter", enter),
    ("count", count),
];

fn main() -> ExitCode {
    let words: Vec<String> = std::env::args().skip(1).collect();
    let words: Vec<&str> = words.iter().map(String::as_str).collect();
    match words[..] {
        [] => print_report(),
        ["against", before] => {
            if let Err(why) = against::print(Path::new(before)) {
                eprintln!("bench: {why}");
                return ExitCode::FAILURE;
            }
        }
        _ => {
            eprintln!("bench: no words, or `against` and the folder of another checkout");
            return ExitCode::FAILURE;
        }
    }
    ExitCode::SUCCESS
}

fn print_report() {
    machine::print_head();
    print_full();
    print_calls();
    print_growth();
    sheet::print_sheets();
    join::print_joinings();
    opening::print_openings();
    search::print_searches();
    round::print_rounds();
}

/// One call by both programs, in turns. Each gives its answer, and what it
/// writes stands in the buffers.
fn in_turns<C>(
    cases: &[C],
    rattle: impl Fn(&C, &mut Buffers) -> i64,
    second: impl Fn(&C, &mut Buffers) -> i64,
) -> Compared {
    let mut one = Buffers::new();
    let mut other = one.clone();
    for case in cases {
        let same = rattle(case, &mut one) == second(case, &mut other) && one == other;
        assert!(same, "the programs differ");
    }
    let (mut next, mut other_next) = (cases.iter().cycle(), cases.iter().cycle());
    compare(
        cases.len(),
        || {
            let case = next.next().expect("a cycle");
            black_box((rattle(case, &mut one), &one));
        },
        || {
            let case = other_next.next().expect("a cycle");
            black_box((second(case, &mut other), &other));
        },
    )
}

fn take_frame(cases: &[Case]) -> Compared {
    in_turns(
        cases,
        |Case { image, frame, .. }, out| {
            as_number(minutefrost::take_frame(image, frame, &mut out.image))
        },
        |Case { image, frame, .. }, out| second::host::take_frame(image, frame, &mut out.image),
    )
}

fn beat(cases: &[Case]) -> Compared {
    in_turns(
        cases,
        |Case { image, .. }, out| {
            let beaten = minutefrost::beat(image, &mut out.image, &mut out.frames);
            as_number(beaten.map(|beaten| beaten.frames))
        },
        |Case { image, .. }, out| second::host::beat(image, &mut out.image, &mut out.frames),
    )
}

fn enter(cases: &[Case]) -> Compared {
    in_turns(
        cases,
        |Case { image, key, .. }, out| as_number(minutefrost::enter(image, *key, &mut out.image)),
        |Case { image, key, .. }, out| second::host::enter(image, *key, &mut out.image),
    )
}

fn count(cases: &[Case]) -> Compared {
    in_turns(
        cases,
        |case, _| as_number(minutefrost::keys(&case.image).map(|keys| keys.len())),
        |case, _| second::host::count(&case.image),
    )
}

/// The answer in the archive's own form.
fn as_number(answer: Result<usize, Refusal>) -> i64 {
    answer.map_or_else(|no| -i64::from(no.number()), |length| length as i64)
}

/// A number below a million, with a comma before its last three digits.
fn with_comma(number: usize) -> String {
    match number {
        0..1_000 => number.to_string(),
        _ => format!("{},{:03}", number / 1_000, number % 1_000),
    }
}

/// The largest image: what the targets are about.
fn print_full() {
    let [all, all_but_one] = [LIMIT, LIMIT - 1].map(with_comma);
    println!("## A full image: {all} keys, {TABLE} pending claims\n");
    println!("| Call | What it does | {CELLS} |");
    println!("|---|---|{RULE}|");
    let heard = cases::heard(LIMIT, 0, TABLE);
    print_full_frames(&heard);
    print_row(
        "enter",
        "a key that is held: image read and written",
        enter(&heard),
    );
    print_row(
        "enter",
        &format!("{all_but_one} keys: a new key"),
        enter(&cases::all(one_new)),
    );
    print_row(
        "count",
        "image read and judged, nothing written",
        count(&heard),
    );
    print_full_beats(&heard);
    println!();
}

/// The frames that it takes, and those that one with room for more does.
fn print_full_frames(heard: &[Case]) {
    let all_but_eight = with_comma(LIMIT - 8);
    print_row("take_frame", "4 claims, their ends held", take_frame(heard));
    print_row(
        "take_frame",
        "1 claim, pending already: image read and written",
        take_frame(&cases::all(known)),
    );
    print_row(
        "take_frame",
        "refused by 10: image read, nothing written",
        take_frame(&cases::all(refused)),
    );
    print_row(
        "take_frame",
        &format!("{all_but_eight} keys, none pending: 4 claims with 8 new keys"),
        take_frame(&cases::all(eight_new)),
    );
}

/// Its beats: of claims that span any number of keys, and of long ones.
fn print_full_beats(heard: &[Case]) {
    print_row(
        "beat",
        "64 matched, spans of any length, 1 claim sent",
        beat(heard),
    );
    let span = with_comma(cases::SPAN);
    for replied in cases::REPLIES {
        let (done, sent, _) = replied;
        let what = format!("{TABLE} {done}, spans of {span} keys, {sent}");
        print_row("beat", &what, beat(&cases::full(replied)));
    }
}

fn print_row(call: &str, what: &str, times: Compared) {
    println!("| {call} | {what} | {times} |");
}

/// A full image, and a frame of one claim that is pending in it.
fn known(variant: u64) -> Case {
    let node = Pair::new(LIMIT, 0, variant).node(TABLE);
    Case {
        frame: cases::frame(&node.table()[..1]),
        ..beaten(node)
    }
}

/// A full image, and a frame of no bytes.
fn refused(variant: u64) -> Case {
    beaten(Pair::new(LIMIT, 0, variant).node(TABLE))
}

/// A store with room for one, a full table, and a key that it lacks.
fn one_new(variant: u64) -> Case {
    let node = Pair::new(LIMIT - 1, 0, variant).node(TABLE);
    let keys = node.store.held();
    // Beside one that is held, in another place for each variant.
    let apart = keys.len() / VARIANTS as usize;
    let key = keys[apart * variant as usize] + 1;
    Case {
        key,
        ..beaten(node)
    }
}

/// A store with room for eight, and the claims of four pairs that it lacks.
fn eight_new(variant: u64) -> Case {
    let node = Pair::new(LIMIT, 16, variant).node(0);
    let keys = node.store.held();
    let upper = keys.len() - 116;
    let claims: Vec<Claim> = (0..4)
        .map(|at| {
            let (lo, hi) = (keys[100 + at] + 1, keys[upper + at] + 1);
            Claim::new(lo, hi, lo ^ hi, 2)
        })
        .collect();
    Case {
        frame: cases::frame(&claims),
        ..beaten(node)
    }
}

/// Each size with each difference that there is at that size.
fn differences() -> impl Iterator<Item = (usize, usize)> {
    UNIONS.into_iter().flat_map(|union| {
        let some = DIFFERING
            .into_iter()
            .filter(move |differing| *differing < union);
        some.chain([union]).map(move |differing| (union, differing))
    })
}

/// The calls that hear and answer, at each size and difference.
fn print_calls() {
    println!("## By size and difference\n");
    println!("| Union | Differing | Pending | Call | {CELLS} |");
    println!("|---:|---:|---:|---|{RULE}|");
    for (union, differing) in differences() {
        for pending in [0, TABLE] {
            let cases = cases::heard(union, differing, pending);
            let start = format!("| {union} | {differing} | {} |", cases[0].pending);
            println!("{start} take_frame | {} |", take_frame(&cases));
            println!("{start} beat | {} |", beat(&cases));
        }
    }
    println!();
}

/// From 16 keys on twice as many each time, and at last all that fit.
fn sizes() -> impl Iterator<Item = usize> {
    let doubled = iter::successors(Some(16), |n| Some(2 * n));
    doubled.take_while(|n| *n < LIMIT).chain([LIMIT])
}

/// How the time of a call grows with the keys held.
fn print_growth() {
    println!("## How the time grows with n keys\n");
    println!("| n | Pending | Call | {CELLS} | Rattle, ns a key | second, ns a key |");
    println!("|---:|---:|---|{RULE}|---:|---:|");
    for pending in [0, TABLE] {
        for (call, timed) in CALLS {
            for n in sizes() {
                let times = timed(&cases::heard(n, 0, pending));
                let [rattle, second] = [times.time(), times.base()].map(|time| time / n as f64);
                println!("| {n} | {pending} | {call} | {times} | {rattle:.2} | {second:.2} |");
            }
        }
    }
    println!();
}
