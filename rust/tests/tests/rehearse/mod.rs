//! The program `rehearse` and the second one, side by side.

use std::path::{Path, PathBuf};

use second::{REHEARSAL_RECORDS, RawStore, rehearse};
use tests::drill::made_by_rt;
use tests::program::printed;

/// What it prints, and the second program with it.
pub fn compare(program: &Path, input: &[u8]) -> String {
    let found = String::from_utf8(printed(program, input)).expect("text");
    let wanted = rehearse(input);
    assert!(
        found == wanted,
        "rehearse printed\n{found}\nand the second program\n{wanted}"
    );
    found
}

/// What a rehearsal of two images answers that 14 and 1 let pass, by how many
/// keys their union has: 8 where no store could hold it, and 9 where the records
/// are too few that the program lends, two for each key; 0 otherwise.
pub fn number_of(union: usize) -> u8 {
    match union {
        _ if union > RawStore::LIMIT => 8,
        _ if 2 * union > REHEARSAL_RECORDS => 9,
        _ => 0,
    }
}

pub fn program() -> PathBuf {
    made_by_rt("bin/rehearse", "tools/build rehearse")
}
