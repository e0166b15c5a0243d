//! Random sharings: the values that 01's formulas give.

use crate::bench::{sharing, Bench};
use jobs::draw::Draw;
use reference::record::{Register, Shares};
use reference::ring::Ring;

const RUNS: usize = 200;

/// X = x_0 + x_1 + x_2 as whole numbers, x_i = 4 a_i modulo p.
fn whole(ring: Ring, a: Shares) -> u128 {
    let p = u128::from(ring.modulus());
    a.iter().map(|&part| 4 * u128::from(part) % p).sum()
}

/// X div 4 + [X mod 4 is not 0].
fn rounded(x: u128) -> u128 {
    x / 4 + u128::from(x % 4 != 0)
}

/// A bench with a sharing in register 0 and masks in range.
fn ready(draw: &mut Draw, ring: Ring, on_bits: u64, target: Ring, in_ring: u64) -> (Bench, Shares) {
    let mut bench = Bench::new(300);
    let shares = sharing(draw, ring);
    bench.put(0, ring.width(), shares);
    let mut moduli = vec![2; on_bits as usize];
    moduli.extend(vec![target.modulus(); in_ring as usize]);
    bench.fill(draw, &moduli);
    (bench, shares)
}

fn accepted(bench: &mut Bench, kind: u64, fields: &[u64], gates: u64) {
    let answer = bench.step(kind, fields);
    assert_eq!((answer.refusal, answer.value), (0, 0));
    assert_eq!(answer.gates, gates);
}

fn number_ring(bench: &Bench, place: usize) -> Ring {
    match bench.record.registers[place] {
        Register::Number { ring, .. } => ring,
        other => panic!("{other:?} is no number"),
    }
}

#[test]
fn decompose_for_every_bit_count() {
    let mut draw = Draw::new(10);
    for ring in Ring::all() {
        for l in 1..=ring.width() - 2 {
            for _ in 0..RUNS {
                let (mut bench, a) = ready(&mut draw, ring, 3 * l + 1, ring, 0);
                accepted(&mut bench, 5, &[3, 0, l], 3 * l + 1);
                let expected = rounded(whole(ring, a)) % (1 << l);
                assert_eq!(u128::from(bench.value(3)), expected);
                assert!(matches!(bench.record.registers[3],
                    Register::Bits { count, .. } if count == l));
            }
        }
    }
}

#[test]
fn decompose_gives_the_number_when_it_fits() {
    let mut draw = Draw::new(11);
    for ring in Ring::all() {
        let l = ring.width() - 2;
        for _ in 0..2_000 {
            let (mut bench, a) = ready(&mut draw, ring, 3 * l + 1, ring, 0);
            let v = draw.item(1 << l);
            let third = ring.sub(ring.sub(v, a[0]), a[1]);
            bench.put(0, ring.width(), [a[0], a[1], third]);
            accepted(&mut bench, 5, &[0, 0, l], 3 * l + 1);
            assert_eq!(bench.value(0), v);
        }
    }
}

#[test]
fn convert_between_all_rings() {
    let mut draw = Draw::new(12);
    for from in Ring::all() {
        for to in Ring::all() {
            for _ in 0..4_000 {
                let (mut bench, a) = ready(&mut draw, from, 1, to, 4);
                accepted(&mut bench, 6, &[1, 0, to.width()], 5);
                assert_eq!(number_ring(&bench, 1), to);
                let x = whole(from, a);
                let q = (4 - x % 4) % 4;
                let [p, target] = [from, to].map(|r| u128::from(r.modulus()));
                let four = 4 * u128::from(bench.value(1)) % target;
                assert_eq!((four + p * q) % target, x % target);
            }
        }
    }
}

#[test]
fn convert_keeps_numbers_below_a_quarter() {
    let mut draw = Draw::new(13);
    for from in Ring::all() {
        for to in Ring::all() {
            let (mut bench, a) = ready(&mut draw, from, 1, to, 4);
            let v = draw.below(from.modulus() / 4 + 1);
            let third = from.sub(from.sub(v, a[0]), a[1]);
            bench.put(0, from.width(), [a[0], a[1], third]);
            accepted(&mut bench, 6, &[0, 0, to.width()], 5);
            assert_eq!(bench.value(0), v % to.modulus());
        }
    }
}

#[test]
fn shift_by_every_amount() {
    let mut draw = Draw::new(14);
    for ring in Ring::all() {
        let l = ring.width() - 2;
        for s in 0..l {
            for _ in 0..RUNS / 2 {
                let composed = 2 * (l - s);
                let (mut bench, a) = ready(&mut draw, ring, 3 * l + 1, ring, composed);
                accepted(&mut bench, 7, &[0, 0, s], 3 * l + 1 + composed);
                let expected = (rounded(whole(ring, a)) % (1 << l)) >> s;
                assert_eq!(u128::from(bench.value(0)), expected);
                assert_eq!(number_ring(&bench, 0), ring);
            }
        }
    }
}

#[test]
fn compose_every_bit_count_in_every_ring() {
    let mut draw = Draw::new(15);
    for ring in Ring::all() {
        for count in 1..=59 {
            for _ in 0..RUNS / 4 {
                let (mut bench, _) = ready(&mut draw, ring, 0, ring, 2 * count);
                let words = [0; 3].map(|_| draw.item(1 << count));
                bench.put_bits(2, count, words);
                accepted(&mut bench, 8, &[2, 2, ring.width()], 2 * count);
                let value = words[0] ^ words[1] ^ words[2];
                assert_eq!(bench.value(2), value % ring.modulus());
            }
        }
    }
}

#[test]
fn deal_add_scale_and_multiply() {
    let mut draw = Draw::new(16);
    for ring in Ring::all() {
        let p = ring.modulus();
        for _ in 0..5_000 {
            let (mut bench, _) = ready(&mut draw, ring, 0, ring, 1);
            let [v, w, c] = [0; 3].map(|_| draw.item(p));
            let items = [0; 4].map(|_| draw.item(p));
            bench.dealer[..4].copy_from_slice(&items);
            accepted(&mut bench, 1, &[0, ring.width(), v], 0);
            accepted(&mut bench, 1, &[1, ring.width(), w], 0);
            assert_eq!(bench.shares(0)[..2], items[..2]);
            assert_eq!(bench.shares(1)[..2], items[2..]);
            accepted(&mut bench, 2, &[2, 0, 1], 0);
            accepted(&mut bench, 3, &[3, 0, c], 0);
            accepted(&mut bench, 4, &[4, 0, 1], 1);
            let [v, w, c, p] = [v, w, c, p].map(u128::from);
            let values = [0, 1, 2, 3, 4].map(|place| u128::from(bench.value(place)));
            assert_eq!(values, [v, w, (v + w) % p, v * c % p, v * w % p]);
            let sums = [0, 1, 2].map(|i| ring.add(bench.shares(0)[i], bench.shares(1)[i]));
            assert_eq!(bench.shares(2), sums);
        }
    }
}

#[test]
fn masks_never_change_a_value() {
    let mut draw = Draw::new(17);
    for ring in Ring::all() {
        let (mut bench, a) = ready(&mut draw, ring, 0, ring, 0);
        let l = ring.width() - 2;
        accepted(&mut bench, 7, &[1, 0, 1], 3 * l + 1 + 2 * (l - 1));
        let (mut other, _) = ready(&mut draw, ring, 3 * l + 1, ring, 2 * (l - 1));
        other.put(0, ring.width(), a);
        accepted(&mut other, 7, &[1, 0, 1], 3 * l + 1 + 2 * (l - 1));
        assert_eq!(bench.value(1), other.value(1));
        assert_ne!(bench.channels, other.channels);
    }
}
