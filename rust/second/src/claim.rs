//! Claims (document 01, "Claims"; the paper, 3.1).

/// What a sender says of a span of its store.
///
/// Any content: whether it could be of a store is what questions 2 to 5 and 16
/// ask.
#[derive(Clone, Copy, Debug, Default, PartialEq, Eq, Hash)]
pub struct Claim {
    /// The smallest key of the span.
    pub lo: u64,
    /// The largest key of the span.
    pub hi: u64,
    /// The XOR of all keys of the span, both ends with it.
    pub sum: u64,
    /// How many keys the span has.
    pub cnt: u16,
}

impl Claim {
    /// The claim of zeros: what an unused place holds and a refusal returns.
    pub const ZERO: Claim = Claim::new(0, 0, 0, 0);

    /// The claim (lo, hi, sum, cnt), in the order the document writes them.
    pub const fn new(lo: u64, hi: u64, sum: u64, cnt: u16) -> Claim {
        Claim { lo, hi, sum, cnt }
    }

    /// The claim for positions first to last of keys that rise strictly, with
    /// the running sums that lie beside them: "a span's sum is then read from
    /// two of them, or from one where the span begins at position 0" (document
    /// 02, slip 7).
    ///
    /// Of one key the sum is that key: two neighbours of the running sums
    /// differ by it, as the paper's algorithm says and its text doesn't.
    pub(crate) fn of_positions(keys: &[u64], sums: &[u64], first: usize, last: usize) -> Claim {
        let sum = match first.checked_sub(1) {
            None => sums[last],
            Some(before) => sums[last] ^ sums[before],
        };
        // A span lies in a store, so its length is at most the limit, which
        // 16 bits hold.
        Claim::new(keys[first], keys[last], sum, (last - first + 1) as u16)
    }

    /// The key that a claim of three says lies between its ends: "sum XOR lo
    /// XOR hi" (document 02, slips 1 and 2).
    pub(crate) fn middle(&self) -> u64 {
        self.sum ^ self.lo ^ self.hi
    }

    /// What pending claims rise by: "by cnt, then lo, hi, sum".
    pub fn rank(&self) -> (u16, u64, u64, u64) {
        (self.cnt, self.lo, self.hi, self.sum)
    }
}
