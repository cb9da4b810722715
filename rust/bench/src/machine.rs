//! The head of the table: what was measured, how, when and on which machine.

use std::fs;
use std::process::Command;

/// What a program prints, on one line, or that it isn't known.
fn told_by(program: &str, words: &[&str]) -> String {
    let told = Command::new(program).args(words).output();
    let told = told.ok().filter(|told| told.status.success());
    let told = told.map(|told| String::from_utf8_lossy(&told.stdout).trim().to_owned());
    told.unwrap_or_else(|| "unknown".to_owned())
}

fn processor() -> String {
    let told = fs::read_to_string("/proc/cpuinfo").unwrap_or_default();
    let names: Vec<&str> = told
        .lines()
        .filter_map(|line| line.strip_prefix("model name"))
        .map(|name| name.trim_start_matches([' ', '\t', ':']))
        .collect();
    match names.first() {
        Some(name) => format!("{} × {name}", names.len()),
        None => "unknown".to_owned(),
    }
}

/// The load of the last minute: what else the machine was doing.
fn load() -> String {
    let told = fs::read_to_string("/proc/loadavg").unwrap_or_default();
    told.split(' ').next().unwrap_or("unknown").to_owned()
}

pub fn print_head() {
    println!("# Times of the proved calls, against plain Rust");
    println!();
    println!(
        "Printed by `cargo run --release -p bench` in `rust/`; to be kept, it goes to this file."
    );
    println!();
    println!(
        "- {}, {}",
        told_by("date", &["-u", "+%F"]),
        told_by("uname", &["-sm"])
    );
    println!("- {}, load {}", processor(), load());
    println!(
        "- {}; {}",
        told_by("rt", &["version"]),
        told_by("rustc", &["--version"])
    );
    println!();
    println!(
        "\"Rattle\" is the archive, called through `minutefrost`; \"second\" is the second program, plain Rust of \
         the same call, in the same process. Both run in turns on the same bytes and must give the same. Each row is of 32 \
         cases one after the other, 128 of a round, alike but for their keys, so that no processor learns where the \
         searches go. A turn goes over all of them, as often as fills 0.25 ms. There are 7 runs of 3 to 30 turns, and of a run \
         the best turn counts. A time is the best of all runs, of a round the middle one; the ratio is of these two times, \
         and the spread has the lowest and the highest ratio of a run: a busy machine widens it."
    );
    println!();
    println!(
        "Reading an image and writing one are no calls of the archive. They are measured in the calls that contain \
         them: `count` has the image read and judged and nothing else done, as has a frame that is refused by 10; \
         `enter` of a key that is held, and a frame of one claim that is pending already, have it read and written again."
    );
    println!();
}
