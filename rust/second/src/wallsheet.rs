//! The program that prints the wall sheet (document 02, slip 4).

use crate::host;
use crate::sheet::SHEET_MOST;

/// All that `wallsheet` prints for this standard input, which is an image: the
/// sheet of its keys, or only `refused` and the number, as the rehearsal does.
///
/// The image is judged by 14 and 1. The buffer is long enough for every sheet,
/// so that 15 is never the number.
pub fn wallsheet(input: &[u8]) -> Vec<u8> {
    let mut out = vec![0; SHEET_MOST];
    let answer = host::sheet(input, &mut out);
    match usize::try_from(answer) {
        Ok(length) => {
            out.truncate(length);
            out
        }
        Err(_) => format!("refused {}\n", -answer).into_bytes(),
    }
}
