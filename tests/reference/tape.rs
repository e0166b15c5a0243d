//! Preparing a tape from raw words.

use crate::machine::Refusal;
use crate::ring::Ring;

/// 01: "for bits (ring code 1) the lowest bit".
const BITS_CODE: u64 = 1;

/// Fills `run`; the count of raw words used.
pub fn prepare(code: u64, raw: &[u64], run: &mut [u64]) -> Result<u64, Refusal> {
    let ring = Ring::of_width(code);
    if ring.is_none() && code != BITS_CODE {
        return Err(5);
    }
    let mut words = raw.iter();
    let mut items = Vec::new();
    while items.len() < run.len() {
        let word = words.next().ok_or(12u64)?;
        match ring {
            None => items.push(word % 2),
            Some(ring) => {
                let low = word % (ring.modulus() + 1);
                // 01: "all ones being dropped"
                if low != ring.modulus() {
                    items.push(low);
                }
            }
        }
    }
    run.copy_from_slice(&items);
    Ok((raw.len() - words.len()) as u64)
}
