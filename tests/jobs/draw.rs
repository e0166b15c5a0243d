//! Draws from a 64-bit seed (splitmix64).

use reference::ring::Ring;

pub struct Draw {
    state: u64,
}

impl Draw {
    pub fn new(seed: u64) -> Draw {
        Draw { state: seed }
    }

    pub fn word(&mut self) -> u64 {
        self.state = self.state.wrapping_add(0x9e37_79b9_7f4a_7c15);
        let z = self.state;
        let z = (z ^ z >> 30).wrapping_mul(0xbf58_476d_1ce4_e5b9);
        let z = (z ^ z >> 27).wrapping_mul(0x94d0_49bb_1331_11eb);
        z ^ z >> 31
    }

    /// A number below n, which is above 0.
    pub fn below(&mut self, n: u64) -> u64 {
        ((u128::from(self.word()) * u128::from(n)) >> 64) as u64
    }

    /// A place in a run of `length`, which is above 0.
    pub fn place(&mut self, length: usize) -> usize {
        self.below(length as u64) as usize
    }

    pub fn chance(&mut self, percent: u64) -> bool {
        self.below(100) < percent
    }

    pub fn pick<T: Copy>(&mut self, list: &[T]) -> T {
        list[self.place(list.len())]
    }

    pub fn pick_any<T: Copy>(&mut self, list: &[T]) -> Option<T> {
        (!list.is_empty()).then(|| self.pick(list))
    }

    pub fn ring(&mut self) -> Ring {
        self.pick(&Ring::all())
    }

    /// A number below m, at the ends of the range more often.
    pub fn item(&mut self, m: u64) -> u64 {
        match self.below(8) {
            0 => 0,
            1 => m - 1,
            _ => self.below(m),
        }
    }

    /// A number of m or more, mostly just so.
    pub fn at_least(&mut self, m: u64) -> u64 {
        match self.below(8) {
            0 => u64::MAX,
            1 => m + self.below(u64::MAX - m),
            2 | 3 => m.saturating_add(1),
            _ => m,
        }
    }

    /// A raw word, its low e bits all ones more often.
    pub fn raw(&mut self, ring: Ring) -> u64 {
        let (word, p) = (self.word(), ring.modulus());
        match self.below(10) {
            0 | 1 => word | p,
            2 => (word | p) - 1,
            3 => p + 1,
            _ => word,
        }
    }
}
