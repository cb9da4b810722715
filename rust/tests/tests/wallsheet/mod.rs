//! The program `wallsheet` and the second one, side by side.

use std::path::{Path, PathBuf};

use second::wallsheet;
use tests::drill::made_by_rt;
use tests::program::printed;

/// What it prints, and the second program with it.
pub fn compare(program: &Path, input: &[u8]) -> String {
    let found = printed(program, input);
    let wanted = wallsheet(input);
    let [found, wanted] = [found, wanted].map(|text| String::from_utf8(text).expect("text"));
    assert!(
        found == wanted,
        "wallsheet printed\n{found}\nand the second program\n{wanted}"
    );
    found
}

pub fn program() -> PathBuf {
    made_by_rt("bin/wallsheet", "tools/build wallsheet")
}
