//! What a refused call says.

use std::error::Error;
use std::fmt;

/// A call refused: the number of the first question that was answered no.
///
/// A refused call has written nothing: no image, no frames and no sheet.
///
/// ```
/// use minutefrost::{EMPTY_IMAGE, IMAGE_MOST, take_frame};
///
/// let mut out = [0; IMAGE_MOST];
/// let refusal = take_frame(&EMPTY_IMAGE, b"no frame", &mut out).unwrap_err();
/// assert_eq!(refusal.number(), 10);
/// assert_eq!(
///     refusal.to_string(),
///     "refused 10: the frame has fewer than 4 bytes or doesn't begin with hex 4C 43",
/// );
/// ```
#[derive(Clone, Copy, Debug, PartialEq, Eq, Hash)]
pub struct Refusal {
    number: u8,
}

impl Refusal {
    /// The refusal that a call's answer below 0 stands for.
    pub(crate) fn of_answer(answer: i64) -> Refusal {
        Refusal {
            // The calls answer with no number above 17.
            number: u8::try_from(answer.unsigned_abs()).unwrap_or(u8::MAX),
        }
    }

    /// The number of the question.
    ///
    /// [`take_frame`](crate::take_frame) gives 14 and 1 (the image), 10 to 13
    /// (the frame), 6 (no room for a key) and 15 (a short buffer);
    /// [`enter`](crate::enter) gives 14, 1, 6 and 15, [`beat`](crate::beat) and
    /// [`sheet`](crate::sheet) 14, 1 and 15, and [`keys`](crate::keys) 14 and 1;
    /// [`join`](crate::join) gives 14 and 1 (either image), 8 (too many keys
    /// together) and 15, and [`opening_cost`](crate::opening_cost) 17 (too many
    /// keys).
    pub const fn number(self) -> u8 {
        self.number
    }

    /// What the answer no means, in words.
    pub const fn meaning(self) -> &'static str {
        match self.number {
            1 => "a store, a node or an image's contents are out of order",
            2 => "a claim's lo is greater than its hi",
            3 => concat!("a claim's cnt is not from 1 to ", limit!()),
            4 => "a claim's cnt is not 1 though lo = hi, or else not from 2 to hi − lo + 1",
            5 => "a claim's sum is not lo though cnt is 1, or not lo XOR hi though cnt is 2",
            6 => concat!(
                "the keys to add don't fit: the store would have more than ",
                limit!()
            ),
            7 => "the first position is after the last, or the last is not below the count",
            8 => concat!(
                "the two stores or images together hold more than ",
                limit!(),
                " keys"
            ),
            9 => "the transcript has fewer than two records for each key of the union",
            10 => "the frame has fewer than 4 bytes or doesn't begin with hex 4C 43",
            11 => "the frame's version is not 1",
            12 => "the frame's n is not from 1 to 4, or its length is not 4 + 26n",
            13 => "a claim in the frame doesn't pass questions 2 to 5 and 16",
            14 => concat!(
                "the image's counts exceed ",
                limit!(),
                " or 64, or its length is not theirs"
            ),
            15 => "a lent output is too short",
            16 => "a claim's cnt is 3 though sum XOR lo XOR hi is not strictly between lo and hi",
            17 => "the number of keys is more than a store can hold",
            _ => "a question that this version doesn't know",
        }
    }
}

/// The number and the words.
impl fmt::Display for Refusal {
    fn fmt(&self, out: &mut fmt::Formatter<'_>) -> fmt::Result {
        write!(out, "refused {}: {}", self.number, self.meaning())
    }
}

impl Error for Refusal {}

#[cfg(test)]
mod tests {
    use super::*;

    /// What is said of a number that stands for no question.
    const UNKNOWN: &str = Refusal { number: 0 }.meaning();

    /// Each number with its words: what every other table has to say.
    fn all() -> Vec<(u8, &'static str)> {
        let words = (1..).map(|number| (number, Refusal { number }.meaning()));
        words.take_while(|&(_, words)| words != UNKNOWN).collect()
    }

    /// The cells of a table's rows that begin with a number.
    fn rows(text: &str) -> impl Iterator<Item = (u8, Vec<&str>)> {
        text.lines().filter_map(|line| {
            let row = line.strip_prefix("| ")?.strip_suffix(" |")?;
            let mut cells = row.split(" | ");
            let number = cells.next()?.parse().ok()?;
            Some((number, cells.collect()))
        })
    }

    #[test]
    fn both_readmes_have_these_words() {
        let own = include_str!("../README.md");
        let root = include_str!("../../../README.md");
        for readme in [own, root] {
            let told: Vec<_> = rows(readme).map(|(no, cells)| (no, cells[0])).collect();
            assert_eq!(told, all());
        }
    }

    /// The header has those numbers that the archive's calls ask about, and the
    /// name of the limit in its place.
    #[test]
    fn the_header_has_these_words() {
        let asked: Vec<u8> = rows(include_str!("../README.md"))
            .filter(|(_, cells)| cells[1] != "–")
            .map(|(number, _)| number)
            .collect();
        let header = include_str!("../include/minutefrost.h").lines();
        let told: Vec<(u8, String)> = header
            .filter_map(|line| {
                let (number, words) = line.strip_prefix(" * ")?.trim_start().split_once("  ")?;
                let words = words.replace("MINUTEFROST_KEYS_MOST", concat!(limit!()));
                Some((number.parse().ok()?, words))
            })
            .collect();
        let expected = all().into_iter().map(|(no, words)| (no, words.to_owned()));
        let expected: Vec<_> = expected.filter(|(no, _)| asked.contains(no)).collect();
        assert_eq!(told, expected);
    }

    /// No answer makes the words panic.
    #[test]
    fn unknown_numbers_have_words() {
        assert_eq!(Refusal::of_answer(i64::MIN).meaning(), UNKNOWN);
        assert_eq!(Refusal::of_answer(0).meaning(), UNKNOWN);
    }
}
