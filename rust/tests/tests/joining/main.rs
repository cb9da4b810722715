//! Two memory cards into one (document 02, slip 9): the archive beside the second
//! program, result for result and byte for byte, the lent buffer past the image
//! with them; and beside the slip's sentences, told by sets. What lists of events
//! make of joinings is tried in `events`, joined cards of earlier states in
//! `joined_cards`, calls by hand in the crate `minutefrost`.

#[path = "../archive/mod.rs"]
mod archive;

mod damaged;
mod drawn;
mod faults;
mod itself;
mod middle;
mod tables;
mod unions;

use archive::{Asked, written_by};
use second::{Claim, IMAGE_MOST, RawStore};
use tests::draw::image_of;
use tests::joining;

const LIMIT: usize = RawStore::LIMIT;

/// How often each number and each way must be seen.
const OFTEN: usize = 100;

/// Fills the buffers that are lent.
const NOISE: u64 = 0x1E2D_3C4B_5A69_7887;

/// The image that both programs write for two images, behind which all stays as
/// it was, or the number of the refusal, by which nothing is written.
fn join(first: &[u8], second: &[u8], lent: usize) -> Result<Vec<u8>, u8> {
    let asked = Asked::Join(first.to_vec(), second.to_vec(), lent);
    written_by(&asked, NOISE)
}

/// The image that two images become, and the same two turned: "The images given
/// in the other order make the same bytes". It is the one that the slip tells.
fn joined(first: &[u8], second: &[u8]) -> Vec<u8> {
    let image = join(first, second, IMAGE_MOST).expect("they are joined");
    assert!(
        join(second, first, IMAGE_MOST).as_ref() == Ok(&image),
        "turned"
    );
    assert!(
        image == joining::joined(first, second),
        "the slip's sentences"
    );
    image
}

/// Both images and the two turned are refused by this number.
fn expect_refused(first: &[u8], second: &[u8], lent: usize, number: u8) {
    assert_eq!(join(first, second, lent), Err(number), "{lent} bytes");
    assert_eq!(
        join(second, first, lent),
        Err(number),
        "{lent} bytes, turned"
    );
}

/// The first so many even keys, from this one on.
fn even(from: usize, count: usize) -> Vec<u64> {
    (from..from + count).map(|at| 2 * at as u64).collect()
}

/// The longest image: all the keys that fit, and a full table of claims of so
/// many keys, with sums from this one on.
fn longest(cnt: u16, from: u64) -> Vec<u8> {
    let keys = even(0, LIMIT);
    let claim = |sum| Claim::new(keys[0], keys[LIMIT - 1], sum, cnt);
    let pending: Vec<Claim> = (from..from + 64).map(claim).collect();
    let image = image_of(&keys, &pending);
    assert_eq!(image.len(), IMAGE_MOST);
    image
}
