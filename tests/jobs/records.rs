//! Random machine records.

use crate::draw::Draw;
use reference::record::{Record, Register, LIMIT, MOST_BITS};

fn register(draw: &mut Draw) -> Register {
    match draw.below(10) {
        0 | 1 => Register::Empty,
        2..=4 => {
            let count = draw.pick(&[1, 2, 3, 8, 31, 58, MOST_BITS]);
            let shares = [0; 3].map(|_| draw.item(1 << count));
            Register::Bits { count, shares }
        }
        _ => {
            let ring = draw.ring();
            let shares = [0; 3].map(|_| draw.item(ring.modulus()));
            Register::Number { ring, shares }
        }
    }
}

/// A sound record.
pub fn sound(draw: &mut Draw) -> Record {
    let mut record = Record::empty();
    for place in &mut record.registers {
        *place = register(draw);
    }
    let positions = [0; 3].map(|_| draw.item(LIMIT + 1));
    [record.masks, record.channels, record.dealer] = positions;
    record
}

/// Spoils one register or position of a sound record.
pub fn spoil(draw: &mut Draw, record: &mut Record) {
    let ring = draw.ring();
    let mut shares = [0; 3].map(|_| draw.item(ring.modulus()));
    let place = draw.place(record.registers.len());
    let part = draw.place(3);
    record.registers[place] = match draw.below(8) {
        0 | 1 => {
            shares[part] = draw.at_least(ring.modulus());
            Register::Number { ring, shares }
        }
        2 => {
            let count = draw.pick(&[0, MOST_BITS + 1, 61, 63, 64, 65, 1 << 32, u64::MAX]);
            let shares = [0; 3].map(|_| draw.below(2));
            Register::Bits { count, shares }
        }
        3 | 4 => {
            let count = 1 + draw.below(MOST_BITS);
            shares = [0; 3].map(|_| draw.item(1 << count));
            shares[part] = draw.at_least(1 << count);
            Register::Bits { count, shares }
        }
        _ => {
            let position = draw.at_least(LIMIT + 1);
            match part {
                0 => record.masks = position,
                1 => record.channels = position,
                _ => record.dealer = position,
            }
            record.registers[place]
        }
    };
}
