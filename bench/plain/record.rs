//! The machine record in its 83 words, read and changed where they stand.

use crate::gates::Sharing;
use crate::ring::Ring;

pub const LIMIT: u64 = 1_000_000;

/// Sixteen registers of five words, then the positions.
pub type Record = [u64; 83];
pub const MASKS_AT: usize = 80;
pub const CHANNELS_AT: usize = 81;
pub const DEALER_AT: usize = 82;

/// Tag, ring width or bit count, sub-shares.
pub type Register = [u64; 5];
pub const EMPTY: u64 = 0;
pub const NUMBER: u64 = 1;
pub const BITS: u64 = 2;

pub fn register(record: &Record, n: u64) -> Register {
    record.as_chunks().0[n as usize]
}

fn store(record: &mut Record, n: u64, register: Register) {
    record.as_chunks_mut().0[n as usize] = register;
}

pub fn store_number(record: &mut Record, n: u64, r: Ring, [s0, s1, s2]: Sharing) {
    store(record, n, [NUMBER, r.width, s0, s1, s2]);
}

pub fn store_bits(record: &mut Record, n: u64, count: u64, [s0, s1, s2]: Sharing) {
    store(record, n, [BITS, count, s0, s1, s2]);
}

/// Whether a register is sound; none where the words are no register.
fn register_soundness([tag, size, shares @ ..]: &Register) -> Option<bool> {
    let below = |bound: u64| shares.iter().all(|&share| share < bound);
    match (*tag, *size) {
        (EMPTY, 0) => below(1).then_some(true),
        (NUMBER, e) => Some(below(Ring::of_width(e)?.p)),
        (BITS, l) => Some((1..=59).contains(&l) && below(1 << l)),
        _ => None,
    }
}

/// Whether a record is sound; none where the words are no record.
pub fn soundness(record: &Record) -> Option<bool> {
    let (registers, positions) = record.as_chunks();
    let mut sound = positions.iter().all(|&at| at <= LIMIT);
    for register in registers {
        sound &= register_soundness(register)?;
    }
    Some(sound)
}
