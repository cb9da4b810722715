//! The header, by a program in C that is linked with the archive and run, and
//! by its sizes, which another one tells.

use std::fmt::Write;
use std::fs;
use std::path::{Path, PathBuf};
use std::process::Command;

use minutefrost::{BEAT_FRAMES, FRAME_MOST, IMAGE_MOST, KEYS_MOST, SHEET_MOST};

/// The program of a source in C that includes the header, linked with the
/// archive.
fn compiled(source: &Path, name: &str) -> PathBuf {
    let include = Path::new(env!("CARGO_MANIFEST_DIR")).join("include");
    let program = Path::new(env!("CARGO_TARGET_TMPDIR")).join(name);
    // The compiler that Rust itself links with.
    let compiled = Command::new("cc")
        .args(["-std=c99", "-Wall", "-Wextra", "-Werror", "-pedantic", "-I"])
        .arg(include)
        .arg(source)
        .arg(env!("MINUTEFROST_ARCHIVE"))
        .arg("-o")
        .arg(&program)
        .status();
    assert!(compiled.expect("cc runs").success());
    program
}

#[test]
fn a_program_in_c_calls_each() {
    let source = Path::new(env!("CARGO_MANIFEST_DIR")).join("tests/header.c");
    let program = compiled(&source, "header");
    let ran = Command::new(&program).status().expect("the program runs");
    assert_eq!(ran.code(), Some(0), "the number of the check that failed");
}

/// A program in C that prints each size that the header defines, a line with its
/// name and the number. It has an array of twice the size: so a size is good for
/// one, and stays whole among other numbers.
fn program_of_sizes() -> String {
    let header = include_str!("../include/minutefrost.h").lines();
    let defined = header.filter_map(|line| line.strip_prefix("#define MINUTEFROST_"));
    let names = defined.filter_map(|define| Some(define.split_once(' ')?.0));
    let (mut arrays, mut lines) = (String::new(), String::new());
    for name in names {
        writeln!(arrays, "static char {name}[2 * MINUTEFROST_{name}];").unwrap();
        let size = format!("(unsigned long)(sizeof {name} / 2)");
        writeln!(lines, "    printf(\"{name} %lu\\n\", {size});").unwrap();
    }
    let includes = "#include \"minutefrost.h\"\n#include <stdio.h>\n";
    format!("{includes}{arrays}int main(void)\n{{\n{lines}    return 0;\n}}\n")
}

#[test]
fn the_sizes_are_those_of_this_crate() {
    let source = Path::new(env!("CARGO_TARGET_TMPDIR")).join("sizes.c");
    fs::write(&source, program_of_sizes()).expect("a folder for tests");
    let ran = Command::new(compiled(&source, "sizes")).output();
    let told = String::from_utf8(ran.expect("the program runs").stdout).expect("text");
    let sizes = [
        ("KEYS_MOST", KEYS_MOST),
        ("IMAGE_MOST", IMAGE_MOST),
        ("BEAT_FRAMES", BEAT_FRAMES),
        ("FRAME_MOST", FRAME_MOST),
        ("SHEET_MOST", SHEET_MOST),
    ];
    let expected = sizes.map(|(name, size)| format!("{name} {size}\n"));
    assert_eq!(told, expected.concat());
}
