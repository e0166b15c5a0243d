//! The gate, on the runs that an order is lent.

use crate::ring::Ring;

/// One sub-share a place.
pub type Sharing = [u64; 3];

/// Mask tapes and channels, from an order's positions on.
pub struct Lent<'a> {
    pub masks: [&'a [u64]; 3],
    pub channels: [&'a mut [u64]; 3],
}

impl<'a> Lent<'a> {
    /// The first n items and words, and the rest.
    #[inline(always)]
    pub fn split_at(self, n: usize) -> (Lent<'a>, Lent<'a>) {
        let [m0, m1, m2] = self.masks.map(|tape| tape.split_at(n));
        let [c0, c1, c2] = self.channels.map(|channel| channel.split_at_mut(n));
        let first = Lent {
            masks: [m0.0, m1.0, m2.0],
            channels: [c0.0, c1.0, c2.0],
        };
        let rest = Lent {
            masks: [m0.1, m1.1, m2.1],
            channels: [c0.1, c1.1, c2.1],
        };
        (first, rest)
    }

    fn items(&self, k: usize) -> Sharing {
        let [m0, m1, m2] = self.masks;
        [m0[k], m1[k], m2[k]]
    }

    fn send(&mut self, k: usize, z: Sharing) -> Sharing {
        let [c0, c1, c2] = &mut self.channels;
        [c0[k], c1[k], c2[k]] = z;
        z
    }

    /// Gate k, on bits.
    #[inline(always)]
    pub fn bit_gate(&mut self, k: usize, x: Sharing, y: Sharing) -> Sharing {
        let t = self.items(k);
        let word = |i: usize, n: usize| (x[i] & (y[i] ^ y[n])) ^ (x[n] & y[i]) ^ t[i] ^ t[n];
        self.send(k, [word(0, 1), word(1, 2), word(2, 0)])
    }

    /// Gate k, in a ring.
    #[inline(always)]
    pub fn ring_gate(&mut self, k: usize, r: Ring, x: Sharing, y: Sharing) -> Sharing {
        let t = self.items(k);
        self.send(k, ring_words(r, x, y, t))
    }

    /// Gate k in a ring, of a bit at place 0 with a bit at place 1.
    #[inline(always)]
    pub fn gate_of_bits(&mut self, k: usize, r: Ring, b0: u64, b1: u64) -> Sharing {
        let [t0, t1, t2] = self.items(k);
        let z0 = r.reduce((b0 & b1) + mask(r, t0, t1));
        let z1 = r.reduce_once(mask(r, t1, t2));
        let z2 = r.reduce_once(mask(r, t2, t0));
        self.send(k, [z0, z1, z2])
    }

    /// Gate k in a ring, of an x below 3p with a bit at place 2.
    #[inline(always)]
    pub fn gate_by_bit(&mut self, k: usize, r: Ring, x: Sharing, b2: u64) -> Sharing {
        let [t0, t1, t2] = self.items(k);
        let z0 = r.reduce_once(mask(r, t0, t1));
        let z1 = r.reduce(x[1] * b2 + mask(r, t1, t2));
        let z2 = r.reduce((x[2] + x[0]) * b2 + mask(r, t2, t0));
        self.send(k, [z0, z1, z2])
    }
}

/// t_(i+1) - t_i, not reduced, from t_i and t_(i+1).
#[inline(always)]
fn mask(r: Ring, own: u64, far: u64) -> u64 {
    far + (r.p - own)
}

/// The three words of a gate in a ring, each reduced once.
#[inline(always)]
pub fn ring_words(r: Ring, x: Sharing, y: Sharing, t: Sharing) -> Sharing {
    let word = |i: usize, n: usize| {
        let products = r.two_products([x[i], r.add(y[i], y[n])], [x[n], y[i]]);
        r.reduce(r.fold(products) + mask(r, t[i], t[n]))
    };
    [word(0, 1), word(1, 2), word(2, 0)]
}
