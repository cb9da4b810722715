//! The calls of this checkout against those of another, in one process:
//! `cargo run --release -p bench -- against FOLDER`. In both
//! `target/staticlib` has the archives of host and rehearsal, and of searches
//! where that crate is there: `tools/build` makes them, and in a checkout of
//! the older Rattle `rt staticlib NAME` did.
//!
//! Where code happens to stand in memory moves a time by some hundredths, and
//! where a call's arrays stand on the stack, a short call's by a tenth. So each
//! archive is loaded at four places and called from four places of the stack,
//! and the runs at all of them count.
//!
//! A change of the rules may make both give other bytes for the same case. That
//! fails nothing here: each row says of how many of its cases it is so.

use std::hint::black_box;
use std::io;
use std::path::Path;

use crate::cases::{self, Buffers, Case};
use crate::deliveries::{self, COUNTS, COUNTS_RULE, Deliveries};
use crate::library::{Host, PLACES, Search, TimedRound, own};
use crate::round;
use crate::search;
use crate::timing::{Compared, compare, compare_beyond};
use crate::{LIMIT, RULE, TABLE, differences, with_comma};

const CELLS: &str = "now, ns | before, ns | ratio | spread";

/// The last column, and its rule.
const UNLIKE: &str = "other bytes";
const UNLIKE_RULE: &str = "---:";

/// A host call by its name, and how it is made.
type Called = (&'static str, fn(Host, &Case, &mut Buffers) -> i64);

/// The first two every checkout has.
const CALLS: [Called; 4] = [
    ("take_frame", |host, case, out| {
        host.take_frame(&case.image, &case.frame, &mut out.image)
    }),
    ("beat", |host, case, out| {
        host.beat(&case.image, &mut out.image, &mut out.frames)
    }),
    ("enter", |host, case, out| {
        host.enter(&case.image, case.key, &mut out.image)
    }),
    ("count", |host, case, _| host.count(&case.image)),
];

/// How many keys a union has, and how many of them differ.
type Row = (usize, usize);

/// What is timed of this checkout and of the one before, at one place.
type Two<T> = [T; 2];

fn loaded<T>(before: &Path, of: fn(&Path, usize) -> io::Result<T>) -> io::Result<Vec<Two<T>>> {
    let both = PLACES.map(|up| Ok([of(&own(), up)?, of(before, up)?]));
    both.into_iter().collect()
}

pub fn print(before: &Path) -> io::Result<()> {
    match loaded(before, Search::of) {
        Ok(searches) => print_searches(&searches),
        Err(why) => println!("The search is not timed: {why}.\n"),
    }
    let hosts = loaded(before, Host::of)?;
    let rows = rows_of_both(hosts[0]);
    print_full(&hosts);
    print_growth(&hosts);
    print_host(&hosts, &rows);
    let rounds = loaded(before, TimedRound::of)?;
    print_rounds(&rounds, &rows);
    print_deliveries(rounds[0], &rows);
    Ok(())
}

/// Whether both take images of so many keys: a store of the other checkout may
/// hold fewer, and then its calls refuse them by 14.
fn both_take(hosts: Two<Host>, union: usize) -> bool {
    let case = &cases::heard(union, 0, 0)[0];
    hosts
        .iter()
        .all(|host| host.take_frame(&case.image, &[], &mut []) != -14)
}

/// The unions and differences whose images both take.
fn rows_of_both(hosts: Two<Host>) -> Vec<Row> {
    let taken = |(union, _): &Row| both_take(hosts, *union);
    differences().filter(taken).collect()
}

fn all_have_enter_and_count(places: &[Two<Host>]) -> bool {
    places.iter().flatten().all(Host::has_enter_and_count)
}

/// Of how many cases both give other bytes.
fn unlike<C, B: PartialEq>(cases: &[C], now: impl Fn(&C) -> B, before: impl Fn(&C) -> B) -> String {
    let unlike = cases.iter().filter(|case| now(case) != before(case));
    match unlike.count() {
        0 => "none".to_owned(),
        count => format!("{count} of {}", cases.len()),
    }
}

/// What a call leaves: its answer, and the buffers.
fn left((_, call): Called, host: Host) -> impl Fn(&Case) -> (i64, Buffers) {
    move |case| {
        let mut out = Buffers::new();
        (call(host, case, &mut out), out)
    }
}

/// The measurements at all places, as one.
fn at_all_places<T: Copy>(places: &[Two<T>], timed: impl Fn(Two<T>) -> Compared) -> Compared {
    let times = places.iter().zip(STACK);
    let times = times.map(|(both, further)| further(&mut || timed(*both)));
    times.reduce(Compared::with).expect("there are places")
}

/// Does a measurement further down the stack.
type Further = fn(&mut dyn FnMut() -> Compared) -> Compared;

/// By as many bytes as a library's code is moved up: arrays of a call begin at
/// some sixteenth byte of a cache line, and copying them takes longer at some.
const STACK: [Further; PLACES.len()] = [
    by::<{ PLACES[0] }>,
    by::<{ PLACES[1] }>,
    by::<{ PLACES[2] }>,
    by::<{ PLACES[3] }>,
];

#[inline(never)]
fn by<const BYTES: usize>(timed: &mut dyn FnMut() -> Compared) -> Compared {
    let room = [0u8; BYTES];
    black_box(&room);
    let times = timed();
    black_box(&room);
    times
}

/// One call by both, in turns.
fn in_turns(cases: &[Case], (_, call): Called, hosts: Two<Host>) -> Compared {
    let [now, before] = hosts.map(|host| {
        let mut next = cases.iter().cycle();
        let mut out = Buffers::new();
        move || {
            let case = next.next().expect("a cycle");
            black_box((call(host, case, &mut out), &out));
        }
    });
    compare(cases.len(), now, before)
}

/// A call of one search, among many that don't wait for each other.
fn print_searches(places: &[Two<Search>]) {
    println!("| Keys | Sought | {CELLS} | other places |");
    println!("|---:|---|{RULE}|{UNLIKE_RULE}|");
    for (row, sought) in search::rows() {
        let [now, before] = places[0].map(|program| row.told(sought, program));
        let cases: Vec<_> = now.iter().zip(&before).collect();
        let unlike = unlike(&cases, |case| *case.0, |case| *case.1);
        let times = at_all_places(places, |[now, before]| row.compared(sought, now, before));
        println!("| {} | {sought} | {times:.1} | {unlike} |", row.length());
    }
    println!();
}

/// A call at all places, and of how many cases both give other bytes.
fn told(places: &[Two<Host>], cases: &[Case], call: Called) -> (Compared, String) {
    let [now, before] = places[0];
    let times = at_all_places(places, |both| in_turns(cases, call, both));
    (times, unlike(cases, left(call, now), left(call, before)))
}

/// Beats of the largest image, whose pending claims span nearly all keys.
fn print_full(places: &[Two<Host>]) {
    if !both_take(places[0], LIMIT) {
        return;
    }
    let span = with_comma(cases::SPAN);
    println!("| Full image, {TABLE} claims of {span} keys each | {CELLS} | {UNLIKE} |");
    println!("|---|{RULE}|{UNLIKE_RULE}|");
    let [_, beat, ..] = CALLS;
    for replied in cases::REPLIES {
        let (done, sent, _) = replied;
        let (times, unlike) = told(places, &cases::full(replied), beat);
        println!("| beat: {TABLE} {done}, {sent} | {times} | {unlike} |");
    }
    println!();
}

/// The keys held in rows that are told by what each adds to the one before.
const GROWN: [usize; 4] = [256, 512, 1_024, LIMIT];

/// How a beat's time grows with the keys held, beside that of `enter` of a key
/// that is held, for which the image is read and written again and no more.
fn print_growth(places: &[Two<Host>]) {
    if !all_have_enter_and_count(places) {
        return;
    }
    let columns = "beat now | enter now | beat before | enter before";
    println!("| Keys, {TABLE} pending; ns | {columns} | a key more: {columns} |");
    println!("|---:|{RULE}|{RULE}|");
    let [_, beat, enter, _] = CALLS;
    let mut fewer: Option<(usize, [f64; 4])> = None;
    for keys in GROWN.into_iter().filter(|keys| both_take(places[0], *keys)) {
        let cases = cases::heard(keys, 0, TABLE);
        let timed = |call| at_all_places(places, |both| in_turns(&cases, call, both));
        let [beat, enter] = [beat, enter].map(timed);
        let times = [beat.time(), enter.time(), beat.base(), enter.base()];
        let more = [0, 1, 2, 3].map(|at| {
            fewer.map_or(String::new(), |(fewer, before)| {
                let more = (times[at] - before[at]) / (keys - fewer) as f64;
                format!("{more:.2}")
            })
        });
        let times_told = times.map(|time| format!("{time:.0}"));
        println!(
            "| {keys} | {} | {} |",
            times_told.join(" | "),
            more.join(" | ")
        );
        fewer = Some((keys, times));
    }
    println!();
}

fn print_host(places: &[Two<Host>], rows: &[Row]) {
    println!("| Union | Differing | Pending | Call | {CELLS} | {UNLIKE} |");
    println!("|---:|---:|---:|---|{RULE}|{UNLIKE_RULE}|");
    let all = all_have_enter_and_count(places);
    let calls = if all { 4 } else { 2 };
    for &(union, differing) in rows {
        for pending in [0, TABLE] {
            let cases = cases::heard(union, differing, pending);
            let pending = cases[0].pending;
            for call in &CALLS[..calls] {
                let (times, unlike) = told(places, &cases, *call);
                let name = call.0;
                println!("| {union} | {differing} | {pending} | {name} | {times} | {unlike} |");
            }
        }
    }
    println!();
}

fn print_rounds(places: &[Two<TimedRound>], rows: &[Row]) {
    println!("| Union | Differing | Deliveries | {CELLS} | {UNLIKE} |");
    println!("|---:|---:|---:|{RULE}|{UNLIKE_RULE}|");
    let [now, before] = places[0];
    for &(union, differing) in rows {
        let cases = round::row(union, differing);
        let deliveries = Deliveries::agreed(&cases, now).mean();
        let unlike = unlike(&cases, |case| case.made(now), |case| case.made(before));
        let both = |program| [false, true].map(|refused| round::proved(&cases, program, refused));
        let times = at_all_places(places, |[now, before]| {
            compare_beyond(cases.len(), both(now), both(before))
        });
        println!("| {union} | {differing} | {deliveries:.0} | {times} | {unlike} |");
    }
    println!();
}

/// How many deliveries both make, and the ratio of the means.
fn print_deliveries([now, before]: Two<TimedRound>, rows: &[Row]) {
    println!("| Union | Differing | now: {COUNTS} | before: {COUNTS} | ratio |");
    println!("|---:|---:|{COUNTS_RULE}|{COUNTS_RULE}|---:|");
    for (union, differing) in deliveries::of(rows.iter().copied()) {
        let cases = round::row(union, differing);
        let now = Deliveries::agreed(&cases, now);
        let before = Deliveries::of(&cases, before);
        let ratio = now.mean() / before.mean();
        println!("| {union} | {differing} | {now} | {before} | **{ratio:.2}** |");
    }
}
