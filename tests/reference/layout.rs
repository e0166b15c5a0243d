//! The library's layout of record, order and answer in 64-bit words.

use crate::machine::{step, Lent, Refusal};
use crate::order::Order;
use crate::record::{Record, Register, REGISTERS};
use crate::ring::Ring;
use crate::tape::prepare;

pub const REGISTER_WORDS: usize = 5;
pub const RECORD_WORDS: usize = REGISTERS * REGISTER_WORDS + 3;
pub const ORDER_WORDS: usize = 4;
pub const ANSWER_WORDS: usize = 3;
pub const COUNT_WORDS: usize = 2;

/// Words that are not in the layout: 02's refusals 14 to 22 stay free.
pub const MALFORMED: Refusal = 100;

fn read_register(words: &[u64]) -> Option<Register> {
    match *words {
        [0, 0, 0, 0, 0] => Some(Register::Empty),
        [1, width, s0, s1, s2] => Some(Register::Number {
            ring: Ring::of_width(width)?,
            shares: [s0, s1, s2],
        }),
        [2, count, s0, s1, s2] => Some(Register::Bits {
            count,
            shares: [s0, s1, s2],
        }),
        _ => None,
    }
}

fn register_words(register: &Register) -> [u64; REGISTER_WORDS] {
    match *register {
        Register::Empty => [0; REGISTER_WORDS],
        Register::Number {
            ring,
            shares: [s0, s1, s2],
        } => [1, ring.width(), s0, s1, s2],
        Register::Bits {
            count,
            shares: [s0, s1, s2],
        } => [2, count, s0, s1, s2],
    }
}

pub fn read_record(words: &[u64]) -> Option<Record> {
    if words.len() != RECORD_WORDS {
        return None;
    }
    let (registers, positions) = words.split_at(REGISTERS * REGISTER_WORDS);
    let mut record = Record {
        masks: positions[0],
        channels: positions[1],
        dealer: positions[2],
        ..Record::empty()
    };
    let places = record.registers.iter_mut();
    for (place, words) in places.zip(registers.chunks(REGISTER_WORDS)) {
        *place = read_register(words)?;
    }
    Some(record)
}

pub fn record_words(record: &Record) -> Vec<u64> {
    let registers = record.registers.iter().flat_map(register_words);
    registers.chain(record.positions()).collect()
}

pub fn read_order(words: &[u64]) -> Option<Order> {
    match *words {
        [9, x, 0, 0] => Order::new(9, &[x]),
        [kind, a, b, c] => Order::new(kind, &[a, b, c]),
        _ => None,
    }
}

/// A step on words; MALFORMED changes nothing, not even the answer.
pub fn step_words(order: &[u64], record: &mut [u64], lent: &mut Lent, answer: &mut [u64]) -> u64 {
    let read = (read_order(order), read_record(record));
    let (Some(order), Some(mut after), ANSWER_WORDS) = (read.0, read.1, answer.len()) else {
        return MALFORMED;
    };
    let given = step(&mut after, order, lent);
    record.copy_from_slice(&record_words(&after));
    answer.copy_from_slice(&[given.refusal, given.value, given.gates]);
    given.refusal
}

/// Preparing a tape, with its answer as words.
pub fn prepare_words(code: u64, raw: &[u64], run: &mut [u64], answer: &mut [u64]) -> u64 {
    if answer.len() != COUNT_WORDS {
        return MALFORMED;
    }
    let (refusal, count) = match prepare(code, raw, run) {
        Ok(count) => (0, count),
        Err(refusal) => (refusal, 0),
    };
    answer.copy_from_slice(&[refusal, count]);
    refusal
}
