//! Properties of random stores, claims, nodes and bytes. Each runs for a row
//! of seeds; a failure prints its seed (see `common::for_seeds`).

#[path = "../common/mod.rs"]
mod common;

mod bytes;
mod calls;
mod damage;
mod left_out;
mod rounds;
mod sets;

/// The number of the first question answered no, or 0.
fn number(asked: second::questions::Asked) -> u8 {
    asked.err().unwrap_or(0)
}
