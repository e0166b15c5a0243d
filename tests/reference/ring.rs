//! Rings modulo p = 2^e - 1, by remainders of 128-bit numbers.

/// 01: "e is 13, 31 or 61".
pub const WIDTHS: [u64; 3] = [13, 31, 61];

/// 01: "For bits the ring is modulo 2."
pub const BIT_MODULUS: u64 = 2;

/// A ring, known by its width e.
#[derive(Clone, Copy, Debug, PartialEq, Eq)]
pub struct Ring {
    width: u64,
}

impl Ring {
    /// The ring of that width, if there is one.
    pub fn of_width(width: u64) -> Option<Ring> {
        WIDTHS.contains(&width).then_some(Ring { width })
    }

    pub fn all() -> [Ring; 3] {
        WIDTHS.map(|width| Ring { width })
    }

    pub fn width(self) -> u64 {
        self.width
    }

    /// 01: "p = 2^e - 1".
    pub fn modulus(self) -> u64 {
        (1 << self.width) - 1
    }

    pub fn reduce(self, n: u128) -> u64 {
        (n % u128::from(self.modulus())) as u64
    }

    pub fn add(self, a: u64, b: u64) -> u64 {
        self.reduce(u128::from(a) + u128::from(b))
    }

    pub fn mul(self, a: u64, b: u64) -> u64 {
        self.reduce(u128::from(a) * u128::from(b))
    }

    /// a - b, as a + (p - 1) b.
    pub fn sub(self, a: u64, b: u64) -> u64 {
        self.add(a, self.mul(self.modulus() - 1, b))
    }

    pub fn power(self, base: u64, exponent: u64) -> u64 {
        (0..64).rev().fold(1, |result, j| {
            let square = self.mul(result, result);
            if exponent >> j & 1 == 1 {
                self.mul(square, base)
            } else {
                square
            }
        })
    }

    /// 4^(-1), as 4^(p-2): p is prime at each of the three widths.
    pub fn quarter(self) -> u64 {
        self.power(4, self.modulus() - 2)
    }
}
