//! The circuits of orders 4 to 8: which gates, in which turn.

use crate::gate::Gates;
use crate::record::{Register, Shares};
use crate::ring::{Ring, BIT_MODULUS};

/// 01: "shared by putting it at place i and 0 elsewhere".
fn at_place(i: usize, value: u64) -> Shares {
    let mut shares = [0; 3];
    shares[i] = value;
    shares
}

fn xor(a: Shares, b: Shares) -> Shares {
    [a[0] ^ b[0], a[1] ^ b[1], a[2] ^ b[2]]
}

/// Bit j of each part: the three-way exclusive or of those bits, shared.
fn bit(words: Shares, j: u64) -> Shares {
    words.map(|word| word >> j & 1)
}

/// 01: "c XOR ((x XOR c) AND (y XOR c)), one gate".
fn majority(gates: &mut Gates, x: Shares, y: Shares, c: Shares) -> Shares {
    xor(c, gates.multiply(BIT_MODULUS, xor(x, c), xor(y, c)))
}

/// The majority of three bits, the bit of part i being known to its holders.
fn majority_of_parts(gates: &mut Gates, bits: Shares) -> Shares {
    let [x, y, c] = [0, 1, 2].map(|i| at_place(i, bits[i]));
    majority(gates, x, y, c)
}

/// 01: "x_i = 4 a_i modulo p".
fn four_times(ring: Ring, a: Shares) -> Shares {
    a.map(|part| ring.mul(4, part))
}

/// Order 5 (i): carry 0 is 0, then the majorities of bits 0 to n-2.
fn carries(gates: &mut Gates, sums: &[Shares]) -> Vec<Shares> {
    let below_top = &sums[..sums.len() - 1];
    let mut carries = vec![[0; 3]];
    carries.extend(below_top.iter().map(|&b| majority_of_parts(gates, b)));
    carries
}

/// Order 5 (ii): the bits of T, by majorities for j = 1 to n-2.
fn total(gates: &mut Gates, sums: &[Shares], carries: &[Shares]) -> Vec<Shares> {
    let top = sums.len() - 1;
    let mut running = [0; 3];
    let mut bits = Vec::new();
    for j in 0..=top {
        bits.push(xor(xor(sums[j], carries[j]), running));
        if (1..top).contains(&j) {
            running = majority(gates, sums[j], carries[j], running);
        }
    }
    bits
}

/// Order 5 (iv): `bits` plus the bit z by half adders, no gate at the top.
fn plus_bit(gates: &mut Gates, bits: &[Shares], z: Shares) -> Vec<Shares> {
    let mut carry = z;
    let mut result = Vec::new();
    for (k, &b) in bits.iter().enumerate() {
        result.push(xor(b, carry));
        if k + 1 < bits.len() {
            carry = gates.multiply(BIT_MODULUS, b, carry);
        }
    }
    result
}

/// Order 5: the l low bits, each shared, lowest first.
fn decompose(gates: &mut Gates, ring: Ring, a: Shares, l: u64) -> Vec<Shares> {
    let x = four_times(ring, a);
    let sums: Vec<Shares> = (0..l + 2).map(|j| bit(x, j)).collect();
    let carries = carries(gates, &sums);
    let t = total(gates, &sums, &carries);
    // (iii) z = T0 XOR T1 XOR (T0 AND T1)
    let both = gates.multiply(BIT_MODULUS, t[0], t[1]);
    let z = xor(xor(t[0], t[1]), both);
    plus_bit(gates, &t[2..], z)
}

/// u + v - 2uv, one gate.
fn ring_xor(gates: &mut Gates, ring: Ring, u: Shares, v: Shares) -> Shares {
    let product = gates.multiply(ring.modulus(), u, v);
    [0, 1, 2].map(|i| ring.sub(ring.add(u[i], v[i]), ring.mul(2, product[i])))
}

/// Order 8: the ring shares of bits, rising, added up with weights 1, 2, 4...
/// 01: "sub-share 0 with 1, then with 2", "Weights 2^j modulo p'".
fn compose(gates: &mut Gates, ring: Ring, bits: &[Shares]) -> Shares {
    let mut sum = [0; 3];
    for (j, b) in (0..).zip(bits) {
        let pair = ring_xor(gates, ring, at_place(0, b[0]), at_place(1, b[1]));
        let all = ring_xor(gates, ring, pair, at_place(2, b[2]));
        let weight = ring.power(2, j);
        sum = [0, 1, 2].map(|i| ring.add(sum[i], ring.mul(weight, all[i])));
    }
    sum
}

/// Order 6: to ring `to`.
fn convert(gates: &mut Gates, from: Ring, to: Ring, a: Shares) -> Shares {
    let x = four_times(from, a);
    // r_i = -x_i modulo 4, and not modulo p
    let r = x.map(|part| (4 - part % 4) % 4);
    let carry = majority_of_parts(gates, bit(r, 0));
    let q_bits = [bit(r, 0), xor(bit(r, 1), carry)];
    let q = compose(gates, to, &q_bits);
    let p = to.reduce(u128::from(from.modulus()));
    [0, 1, 2].map(|i| {
        let part = to.reduce(u128::from(x[i]));
        to.mul(to.quarter(), to.sub(part, to.mul(p, q[i])))
    })
}

/// A bits register from its shared bits, lowest first.
fn bits_register(bits: &[Shares]) -> Register {
    let mut shares = [0; 3];
    for (j, b) in bits.iter().enumerate() {
        shares = [0, 1, 2].map(|i| shares[i] | b[i] << j);
    }
    Register::Bits {
        count: bits.len() as u64,
        shares,
    }
}

/// An order with gates, its sources read and its fields checked.
#[derive(Clone, Copy, Debug)]
pub enum Circuit {
    Multiply { ring: Ring, x: Shares, y: Shares },
    Decompose { ring: Ring, a: Shares, l: u64 },
    Convert { from: Ring, to: Ring, a: Shares },
    Shift { ring: Ring, a: Shares, s: u64 },
    Compose { to: Ring, count: u64, words: Shares },
}

impl Circuit {
    /// The modulus of each gate in turn, and so what each item must be below.
    pub fn moduli(&self) -> Vec<u64> {
        let (on_bits, ring, in_ring) = match *self {
            Circuit::Multiply { ring, .. } => (0, ring, 1),
            Circuit::Decompose { ring, l, .. } => (3 * l + 1, ring, 0),
            Circuit::Convert { to, .. } => (1, to, 4),
            Circuit::Shift { ring, s, .. } => {
                let l = ring.width() - 2;
                (3 * l + 1, ring, 2 * (l - s))
            }
            Circuit::Compose { to, count, .. } => (0, to, 2 * count),
        };
        let mut moduli = vec![BIT_MODULUS; on_bits as usize];
        moduli.extend(vec![ring.modulus(); in_ring as usize]);
        moduli
    }

    /// Runs the gates; the register that results.
    pub fn run(&self, gates: &mut Gates) -> Register {
        let (ring, shares) = match *self {
            Circuit::Multiply { ring, x, y } => (ring, gates.multiply(ring.modulus(), x, y)),
            Circuit::Decompose { ring, a, l } => {
                return bits_register(&decompose(gates, ring, a, l));
            }
            Circuit::Convert { from, to, a } => (to, convert(gates, from, to, a)),
            Circuit::Shift { ring, a, s } => {
                // 01: "compose bits s and up with weights 2^(j-s)"
                let bits = decompose(gates, ring, a, ring.width() - 2);
                (ring, compose(gates, ring, &bits[s as usize..]))
            }
            Circuit::Compose { to, count, words } => {
                let bits: Vec<Shares> = (0..count).map(|j| bit(words, j)).collect();
                (to, compose(gates, to, &bits))
            }
        };
        Register::Number { ring, shares }
    }
}
