//! Document 02, slip 9, "Two memory cards into one": its sentences, each in a
//! file or two.

#[path = "../common/mod.rs"]
mod common;

mod drawn;
mod faults;
mod itself;
mod kiosks;
mod lent;
mod lists;
mod middle;
mod model;
mod nodes;
mod pairs;
mod room;
mod tables;
mod unions;

use common::*;
use second::*;

const MAX: u64 = u64::MAX;

/// "15 (18,052 bytes)"
const NEEDED: usize = 18_052;

/// Lent bytes, which differ from place to place.
fn lent_bytes(bytes: usize) -> Vec<u8> {
    (0..bytes).map(|at| (at % 251) as u8).collect()
}

/// What a joining answers, and what it leaves in so many lent bytes.
fn answered(first: &[u8], second: &[u8], lent: usize) -> (i64, Vec<u8>) {
    let mut out = lent_bytes(lent);
    (host::join(first, second, &mut out), out)
}

/// The number that a joining is refused with, which writes nothing then.
fn refused(first: &[u8], second: &[u8], lent: usize) -> u8 {
    let (answer, out) = answered(first, second, lent);
    assert_eq!(out, lent_bytes(lent));
    let number = u8::try_from(-answer).unwrap();
    assert_eq!(questions::of_host_join(first, second, lent), Err(number));
    number
}

/// The image that two become, whichever of them is the first one.
fn joined(first: &[u8], second: &[u8]) -> Vec<u8> {
    let image = joined_in_this_order(first, second);
    assert_eq!(joined_in_this_order(second, first), image);
    image
}

/// The image that two become, with nothing behind it in the lent bytes. It is
/// one in order and has nothing to leave out. Nodes joined become its node.
fn joined_in_this_order(first: &[u8], second: &[u8]) -> Vec<u8> {
    let (answer, mut out) = answered(first, second, NEEDED);
    assert_eq!(questions::of_host_join(first, second, NEEDED), Ok(()));
    let length = usize::try_from(answer).unwrap();
    assert_eq!(out[length..], lent_bytes(NEEDED)[length..]);
    out.truncate(length);
    let read = read_image(&out);
    assert_eq!(read.number, 0);
    assert!(questions::q1_node_in_order(&read.node));
    assert_eq!(without_left_out(&out), out);
    let [into, from] = [first, second].map(|image| read_image(image).node);
    assert_eq!(questions::of_join_nodes(&into, &from, NEEDED), Ok(()));
    let nodes = join_nodes(into, &from, NEEDED);
    assert_eq!((nodes.number, nodes.node), (0, read.node));
    out
}
