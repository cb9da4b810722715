//! Programs that read their standard input, and what they print.

use std::io::{self, Write};
use std::path::Path;
use std::process::{ChildStdin, Command, Stdio};
use std::thread;
use std::time::Duration;

/// All that a program prints for this standard input.
///
/// # Panics
/// If it doesn't start, or doesn't end well.
pub fn printed(program: &Path, input: &[u8]) -> Vec<u8> {
    printed_for(program, &[input])
}

/// The same for an input that comes in pieces, one some time after the other.
pub fn printed_for(program: &Path, pieces: &[&[u8]]) -> Vec<u8> {
    let told = program.display();
    let mut child = Command::new(program)
        .stdin(Stdio::piped())
        .stdout(Stdio::piped())
        .spawn()
        .unwrap_or_else(|error| panic!("{told} does not start: {error}"));
    let stdin = child.stdin.take().expect("a pipe was asked for");
    let output = thread::scope(|scope| {
        // A program that refuses may end before it has read everything.
        scope.spawn(move || drop(write(stdin, pieces)));
        child.wait_with_output().expect("a program ends")
    });
    assert!(output.status.success(), "{told}: {}", output.status);
    output.stdout
}

fn write(mut stdin: ChildStdin, pieces: &[&[u8]]) -> io::Result<()> {
    for (at, piece) in pieces.iter().enumerate() {
        if at > 0 {
            thread::sleep(Duration::from_millis(2));
        }
        stdin.write_all(piece)?;
    }
    Ok(())
}
