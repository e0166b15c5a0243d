//! Rings modulo 2^e - 1. Nothing branches on a number, indexes by it or divides it.

/// A ring, by its width e and its modulus p.
#[derive(Clone, Copy, PartialEq, Eq)]
pub struct Ring {
    pub width: u64,
    pub p: u64,
}

impl Ring {
    /// The ring of a width that is known to have one.
    pub fn new(e: u64) -> Ring {
        Ring {
            width: e,
            p: (1 << e) - 1,
        }
    }

    pub fn of_width(e: u64) -> Option<Ring> {
        matches!(e, 13 | 31 | 61).then(|| Ring::new(e))
    }

    /// 4^(-1), which is 2^(e-2).
    pub fn quarter(self) -> u64 {
        1 << (self.width - 2)
    }

    /// Congruent to s: the bits from e up are added to those below.
    pub fn fold(self, s: u64) -> u64 {
        (s >> self.width) + (s & self.p)
    }

    /// s modulo p where s is below 2p.
    pub fn reduce_once(self, s: u64) -> u64 {
        (s + ((s + 1) >> self.width)) & self.p
    }

    /// s modulo p where fold(s) is below 2p: the quotient of s by p is (s + (s >> e) + 1) >> e.
    pub fn reduce(self, s: u64) -> u64 {
        (s + ((s + (s >> self.width) + 1) >> self.width)) & self.p
    }

    /// n modulo p where n is below 2^61: in ring 13 three folds leave 23 bits.
    pub fn reduce_word(self, n: u64) -> u64 {
        self.reduce(self.fold(self.fold(self.fold(n))))
    }

    pub fn add(self, a: u64, b: u64) -> u64 {
        self.reduce_once(a + b)
    }

    pub fn sub(self, a: u64, b: u64) -> u64 {
        self.reduce_once(a + (self.p - b))
    }

    pub fn mul(self, a: u64, b: u64) -> u64 {
        self.reduce(self.product(a, b))
    }

    /// Congruent to a b, and below 2^(e+2).
    #[cfg(wide)]
    fn product(self, a: u64, b: u64) -> u64 {
        self.fold_wide(u128::from(a) * u128::from(b))
    }

    /// Congruent to a b + c d, and below 2^(e+3).
    #[cfg(wide)]
    pub fn two_products(self, [a, b]: [u64; 2], [c, d]: [u64; 2]) -> u64 {
        self.fold_wide(u128::from(a) * u128::from(b) + u128::from(c) * u128::from(d))
    }

    #[cfg(wide)]
    fn fold_wide(self, s: u128) -> u64 {
        (s >> self.width) as u64 + (s as u64 & self.p)
    }

    /// Congruent to a b, and below 2^(e+2).
    #[cfg(not(wide))]
    fn product(self, a: u64, b: u64) -> u64 {
        let [(a1, a0), (b1, b0)] = [a, b].map(|n| self.cut(n));
        self.columns(a1 * b1, a1 * b0 + a0 * b1, a0 * b0)
    }

    /// Congruent to a b + c d, and below 2^(e+3).
    #[cfg(not(wide))]
    pub fn two_products(self, [a, b]: [u64; 2], [c, d]: [u64; 2]) -> u64 {
        let [(a1, a0), (b1, b0), (c1, c0), (d1, d0)] = [a, b, c, d].map(|n| self.cut(n));
        let middle = a1 * b0 + a0 * b1 + c1 * d0 + c0 * d1;
        self.columns(a1 * b1 + c1 * d1, middle, a0 * b0 + c0 * d0)
    }

    /// The bits of a factor from k + 1 up and those below, where e is 2k + 1.
    #[cfg(not(wide))]
    fn cut(self, n: u64) -> (u64, u64) {
        let k = self.width / 2;
        (n >> (k + 1), n & (self.p >> k))
    }

    /// high 2^(2k+2) + middle 2^(k+1) + low without 128-bit numbers: 2^e is 1, and the middle column is cut at bit k.
    #[cfg(not(wide))]
    fn columns(self, high: u64, middle: u64, low: u64) -> u64 {
        let k = self.width / 2;
        2 * high + (middle >> k) + (middle << (k + 1) & self.p) + low
    }

    /// 4a: below p after one fold, which leaves the e bits of a turned left by two.
    pub fn four_times(self, a: u64) -> u64 {
        self.fold(a << 2)
    }
}
