//! The gates of orders 5 to 8.

use crate::gates::{Lent, Sharing};
use crate::ring::Ring;

#[inline(always)]
fn bits(words: Sharing, j: usize) -> Sharing {
    words.map(|w| w >> j & 1)
}

#[inline(always)]
pub fn xor(a: Sharing, b: Sharing) -> Sharing {
    [a[0] ^ b[0], a[1] ^ b[1], a[2] ^ b[2]]
}

#[inline(always)]
fn set(words: &mut Sharing, j: usize, b: Sharing) {
    for i in 0..3 {
        words[i] |= b[i] << j;
    }
}

/// c XOR ((x XOR c) AND (y XOR c)).
#[inline(always)]
pub fn majority(lent: &mut Lent, k: usize, x: Sharing, y: Sharing, c: Sharing) -> Sharing {
    xor(c, lent.bit_gate(k, xor(x, c), xor(y, c)))
}

/// Order 5 (i): carries 1 to n of the bits of x_0, x_1 and x_2.
fn carries(mut lent: Lent, x: Sharing, n: usize) -> Sharing {
    let mut carries = [0; 3];
    for j in 0..n {
        let [b0, b1, b2] = bits(x, j);
        let carry = majority(&mut lent, j, [b0, 0, 0], [0, b1, 0], [0, 0, b2]);
        set(&mut carries, j + 1, carry);
    }
    carries
}

/// Order 5 (ii): running carries 2 to n + 1.
fn running(mut lent: Lent, x: Sharing, carries: Sharing, n: usize) -> Sharing {
    let (mut running, mut carry) = ([0; 3], [0; 3]);
    for j in 0..n {
        carry = majority(&mut lent, j, bits(x, j + 1), bits(carries, j + 1), carry);
        set(&mut running, j + 2, carry);
    }
    running
}

/// Order 5 (iv): the carries of the increment, from the first on.
fn raising(mut lent: Lent, total: Sharing, first: Sharing, n: usize) -> Sharing {
    let (mut raising, mut carry) = (first, first);
    for j in 0..n {
        carry = lent.bit_gate(j, bits(total, j + 2), carry);
        set(&mut raising, j + 1, carry);
    }
    raising
}

/// Order 5: 3l + 1 gates.
pub fn decompose(lent: Lent, r: Ring, a: Sharing, l: usize) -> Sharing {
    let x = a.map(|part| r.four_times(part));
    let (first, lent) = lent.split_at(l + 1);
    let carries = carries(first, x, l + 1);
    let (second, lent) = lent.split_at(l);
    let total = xor(xor(x, carries), running(second, x, carries, l));
    let (mut third, lent) = lent.split_at(1);
    let [low, high] = [bits(total, 0), bits(total, 1)];
    let zero = xor(xor(low, high), third.bit_gate(0, low, high));
    let (fourth, _) = lent.split_at(l - 1);
    let raising = raising(fourth, total, zero, l - 1);
    xor(total.map(|w| w >> 2), raising).map(|w| w & ((1 << l) - 1))
}

/// u + v - 2uv, not reduced: at most u + v + 2p.
#[inline(always)]
fn joined(r: Ring, u: Sharing, v: Sharing, uv: Sharing) -> Sharing {
    let part = |i: usize| u[i] + v[i] + 2 * (r.p - uv[i]);
    [part(0), part(1), part(2)]
}

/// The ring shares of an exclusive or, by gates 2k and 2k + 1, not reduced: below 5p.
#[inline(always)]
fn ring_xor(lent: &mut Lent, k: usize, r: Ring, [b0, b1, b2]: Sharing) -> Sharing {
    let z = lent.gate_of_bits(2 * k, r, b0, b1);
    let pair = joined(r, [b0, 0, 0], [0, b1, 0], z);
    let z = lent.gate_by_bit(2 * k + 1, r, pair, b2);
    joined(r, pair, [0, 0, b2], z)
}

/// sum + 2^turn b, folded: the weight turns the e bits of b left.
#[inline(always)]
fn add_rotated(r: Ring, sum: Sharing, b: Sharing, turn: u64) -> Sharing {
    let part = |i: usize| r.fold(sum[i] + (b[i] << turn & r.p) + (b[i] >> (r.width - turn)));
    [part(0), part(1), part(2)]
}

/// Order 8: `count` bits of w from bit `from` on, two gates each.
pub fn compose(lent: Lent, r: Ring, w: Sharing, from: usize, count: usize) -> Sharing {
    let (mut lent, _) = lent.split_at(2 * count);
    let (mut sum, mut turn) = ([0; 3], 0);
    for k in 0..count {
        let b = ring_xor(&mut lent, k, r, bits(w, from + k));
        sum = add_rotated(r, sum, b, turn);
        turn = if turn + 1 == r.width { 0 } else { turn + 1 };
    }
    sum.map(|s| r.reduce(s))
}

/// Order 6: from ring e to ring f, five gates.
pub fn convert(lent: Lent, e: Ring, f: Ring, a: Sharing) -> Sharing {
    let x = a.map(|part| e.four_times(part));
    let r = x.map(|part| part.wrapping_neg() & 3);
    let (mut first, lent) = lent.split_at(1);
    let [b0, b1, b2] = bits(r, 0);
    let carry = majority(&mut first, 0, [b0, 0, 0], [0, b1, 0], [0, 0, b2]);
    let q = compose(lent, f, xor(r, carry.map(|c| c << 1)), 0, 2);
    let p = f.reduce_word(e.p);
    let part = |i: usize| f.mul(f.quarter(), f.sub(f.reduce_word(x[i]), f.mul(p, q[i])));
    [part(0), part(1), part(2)]
}

/// Order 7: all e - 2 bits, and then those from s up.
pub fn shift(lent: Lent, r: Ring, a: Sharing, s: usize) -> Sharing {
    let l = r.width as usize - 2;
    let (first, second) = lent.split_at(3 * l + 1);
    let w = decompose(first, r, a, l);
    compose(second, r, w, s, l - s)
}
