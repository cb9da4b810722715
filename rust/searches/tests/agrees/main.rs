//! The proved search tells the places that its definition gives, on ordered and
//! unordered runs: long ones, where positions pass 16 bits, and every short
//! one. On strictly rising runs it tells what `slice::binary_search` tells too,
//! which knows nothing of the definition.

mod lent;
mod long;
mod runs;
mod search;
mod short;
