//! Random jobs, orders and records from a 64-bit seed.

pub mod damaged;
pub mod draw;
pub mod edges;
pub mod orders;
pub mod records;
pub mod shifts;
pub mod special;
pub mod tally;
pub mod valid;
pub mod writer;

use draw::Draw;

/// The bytes of the job of a seed: accepted orders, edges, damaged lines.
pub fn job(seed: u64) -> Vec<u8> {
    let mut draw = Draw::new(seed);
    match draw.below(5) {
        0 | 1 => valid::job(&mut draw),
        2 | 3 => edges::job(&mut draw),
        _ => damaged::job(&mut draw),
    }
}
