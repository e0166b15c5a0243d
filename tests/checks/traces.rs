//! Which gates, in which turn: at each gate the three words must total the
//! product of the figures that 01's circuit multiplies there, in the clear.

use crate::bench::{sharing, Bench};
use jobs::draw::Draw;
use reference::record::Shares;
use reference::ring::Ring;

fn clear_bit(words: Shares, j: u64, i: usize) -> u64 {
    words[i] >> j & 1
}

/// Majority by counting, and the product (x XOR c) AND (y XOR c) behind it.
fn majority(x: u64, y: u64, c: u64) -> (u64, u64) {
    let most = u64::from(x + y + c >= 2);
    (most, most ^ c)
}

/// The products of a decomposition, and its bits as one number.
fn decomposition(x: Shares, l: u64) -> (Vec<u64>, u64) {
    let n = l + 2;
    let mut products = Vec::new();
    let (mut carries, mut running, mut total) = (vec![0], 0, 0);
    for j in 0..n - 1 {
        let [a, b, c] = [0, 1, 2].map(|i| clear_bit(x, j, i));
        let (carry, product) = majority(a, b, c);
        carries.push(carry);
        products.push(product);
    }
    for j in 0..n {
        let sum = clear_bit([x[0] ^ x[1] ^ x[2]; 3], j, 0);
        let carry = carries[j as usize];
        total |= (sum ^ carry ^ running) << j;
        if j >= 1 && j <= n - 2 {
            let (next, product) = majority(sum, carry, running);
            products.push(product);
            running = next;
        }
    }
    products.push(u64::from(total & 3 == 3));
    let z = u64::from(total & 3 != 0);
    let high = total >> 2;
    // The carry into bit k+1 is set when z is and bits 0 to k are all ones.
    products.extend((0..l - 1).map(|k| z & u64::from((high + 1) % (2 << k) == 0)));
    (products, (high + z) % (1 << l))
}

/// The products of composing bits `from` to `to` of three words.
fn composition(words: Shares, from: u64, to: u64) -> Vec<u64> {
    let two = |j| {
        let [a, b, c] = [0, 1, 2].map(|i| clear_bit(words, j, i));
        [a * b, (a ^ b) * c]
    };
    (from..to).flat_map(two).collect()
}

/// What the channels hold, gate by gate: totals modulo the gates' moduli.
fn totals(bench: &Bench, moduli: &[u64]) -> Vec<u64> {
    let word = |i: usize, k: usize| u128::from(bench.channels[i][k]);
    let total = |k: usize| word(0, k) + word(1, k) + word(2, k);
    let gates = moduli.iter().enumerate();
    gates
        .map(|(k, &m)| (total(k) % u128::from(m)) as u64)
        .collect()
}

/// Runs an order on register 0 with these gates; the totals of its words.
fn trace(draw: &mut Draw, bench: &mut Bench, order: (u64, u64), moduli: &[u64]) -> Vec<u64> {
    bench.fill(draw, moduli);
    let answer = bench.step(order.0, &[1, 0, order.1]);
    assert_eq!(answer.gates, moduli.len() as u64);
    totals(bench, moduli)
}

fn number(draw: &mut Draw, ring: Ring) -> (Bench, Shares) {
    let mut bench = Bench::new(300);
    let a = sharing(draw, ring);
    bench.put(0, ring.width(), a);
    (bench, a.map(|part| ring.mul(4, part)))
}

#[test]
fn decompositions() {
    let mut draw = Draw::new(40);
    for ring in Ring::all() {
        for l in (1..=ring.width() - 2).cycle().take(2_000) {
            let (mut bench, x) = number(&mut draw, ring);
            let (products, value) = decomposition(x, l);
            let moduli = vec![2; products.len()];
            assert_eq!(trace(&mut draw, &mut bench, (5, l), &moduli), products);
            assert_eq!(bench.value(1), value);
        }
    }
}

#[test]
fn conversions() {
    let mut draw = Draw::new(41);
    for from in Ring::all() {
        for to in Ring::all() {
            for _ in 0..1_000 {
                let (mut bench, x) = number(&mut draw, from);
                let p = to.modulus();
                let sent = trace(&mut draw, &mut bench, (6, to.width()), &[2, p, p, p, p]);
                let r = x.map(|part| 3 & part.wrapping_neg());
                let (carry, product) = majority(r[0] & 1, r[1] & 1, r[2] & 1);
                // The carry's parts are the words sent, the third with c.
                let [w0, w1, w2] = bench.channels.each_ref().map(|words| words[0]);
                assert_eq!(w0 ^ w1 ^ w2 ^ r[2] & 1, carry);
                let q = [r[0] ^ w0 << 1, r[1] ^ w1 << 1, r[2] ^ (w2 ^ r[2] & 1) << 1];
                assert_eq!(q[0] ^ q[1] ^ q[2], r.iter().sum::<u64>() % 4);
                assert_eq!(sent, [vec![product], composition(q, 0, 2)].concat());
            }
        }
    }
}

#[test]
fn compositions() {
    let mut draw = Draw::new(42);
    for ring in Ring::all() {
        for count in (1..=59).cycle().take(2_000) {
            let mut bench = Bench::new(300);
            let words = [0; 3].map(|_| draw.item(1 << count));
            bench.put_bits(0, count, words);
            let moduli = vec![ring.modulus(); 2 * count as usize];
            let sent = trace(&mut draw, &mut bench, (8, ring.width()), &moduli);
            assert_eq!(sent, composition(words, 0, count));
        }
    }
}

#[test]
fn a_shift_is_a_decomposition_and_a_composition() {
    let mut draw = Draw::new(43);
    for ring in Ring::all() {
        let (e, p) = (ring.width(), ring.modulus());
        for s in (0..=e - 3).cycle().take(500) {
            let (mut bench, _) = number(&mut draw, ring);
            let mut moduli = vec![2; 3 * (e - 2) as usize + 1];
            moduli.extend(vec![p; 2 * (e - 2 - s) as usize]);
            bench.fill(&mut draw, &moduli);
            let mut parts = bench.clone();
            assert_eq!(bench.refusal(7, &[1, 0, s]), 0);
            assert_eq!(parts.refusal(5, &[1, 0, e - 2]), 0);
            let bits = parts.shares(1).map(|word| word >> s);
            parts.put_bits(1, e - 2 - s, bits);
            assert_eq!(parts.refusal(8, &[1, 1, e]), 0);
            assert_eq!(parts.record, bench.record);
            assert_eq!(parts.channels, bench.channels);
        }
    }
}
