//! Registers and the machine record.

use crate::ring::Ring;

/// The three parts of a shared value (01: "sub-shares"). Party i (01: "unit")
/// holds parts i and i+1, indices modulo 3.
pub type Shares = [u64; 3];

pub const REGISTERS: usize = 16;

/// 01: "each position is at most 1,000,000"; also the longest lent run.
pub const LIMIT: u64 = 1_000_000;

/// 01: "each bits register has 1 to 59 bits".
pub const MOST_BITS: u64 = 59;

/// 01: "A register is empty, a number of a ring, or bits."
#[derive(Clone, Copy, Debug, PartialEq, Eq)]
pub enum Register {
    Empty,
    Number { ring: Ring, shares: Shares },
    Bits { count: u64, shares: Shares },
}

impl Register {
    fn is_sound(&self) -> bool {
        match *self {
            Register::Empty => true,
            Register::Number { ring, shares } => shares.iter().all(|&s| s < ring.modulus()),
            Register::Bits { count, shares } => {
                (1..=MOST_BITS).contains(&count) && shares.iter().all(|&s| s < 1 << count)
            }
        }
    }

    /// The total modulo p, or the exclusive or; 0 of an empty register.
    pub fn value(&self) -> u64 {
        match *self {
            Register::Empty => 0,
            Register::Number { ring, shares } => {
                ring.reduce(shares.iter().map(|&s| u128::from(s)).sum())
            }
            Register::Bits { shares, .. } => shares[0] ^ shares[1] ^ shares[2],
        }
    }
}

/// The machine record: 16 registers and three positions.
#[derive(Clone, Debug, PartialEq, Eq)]
pub struct Record {
    pub registers: [Register; REGISTERS],
    /// Position on the mask tapes (01: "strand").
    pub masks: u64,
    /// Position on the channels (01: "wire").
    pub channels: u64,
    /// Position on the dealer's tape (01: "dealer").
    pub dealer: u64,
}

impl Record {
    /// 01: "The empty machine has empty registers and zero positions."
    pub fn empty() -> Record {
        Record {
            registers: [Register::Empty; REGISTERS],
            masks: 0,
            channels: 0,
            dealer: 0,
        }
    }

    pub fn positions(&self) -> [u64; 3] {
        [self.masks, self.channels, self.dealer]
    }

    pub fn is_sound(&self) -> bool {
        self.registers.iter().all(Register::is_sound)
            && self.positions().iter().all(|&p| p <= LIMIT)
    }
}
