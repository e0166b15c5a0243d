//! 01, "Figures worked by hand", with the masks of 02, P5.

use crate::bench::Bench;
use reference::gate::words;
use reference::record::Shares;
use reference::ring::Ring;
use reference::tape::prepare;

const P: u64 = 8191;

fn decomposed(shares: Shares) -> u64 {
    let mut bench = Bench::new(40);
    bench.put(0, 13, shares);
    let answer = bench.step(5, &[1, 0, 11]);
    assert_eq!((answer.refusal, answer.gates), (0, 34));
    bench.value(1)
}

fn converted(from: u64, shares: Shares, to: u64) -> u64 {
    let mut bench = Bench::new(5);
    bench.put(0, from, shares);
    let answer = bench.step(6, &[1, 0, to]);
    assert_eq!((answer.refusal, answer.gates), (0, 5));
    bench.value(1)
}

fn total_of_four_times(shares: Shares) -> u64 {
    shares.iter().map(|a| 4 * a % P).sum()
}

#[test]
fn decompositions() {
    assert_eq!(total_of_four_times([1, 2, 2]), 20);
    assert_eq!(decomposed([1, 2, 2]), 5);
    assert_eq!(total_of_four_times([8000, 100, 96]), 8211);
    assert_eq!(decomposed([8000, 100, 96]), 5);
    assert_eq!(total_of_four_times([8000, 8000, 387]), 16402);
    assert_eq!(decomposed([8000, 8000, 387]), 5);
    assert_eq!(total_of_four_times([8190, 1, 0]), 8191);
    assert_eq!(decomposed([8190, 1, 0]), 0);
    assert_eq!(decomposed([2047, 0, 0]), 2047);
    assert_eq!(decomposed([2048, 0, 0]), 1);
    assert_eq!(decomposed([2047, 1, 0]), 0);
}

#[test]
fn conversions() {
    assert_eq!(converted(13, [8000, 100, 96], 31), 5);
    assert_eq!(converted(13, [2048, 0, 0], 31), 2147477504);
    assert_eq!(converted(13, [2048, 0, 0], 13), 2048);
    assert_eq!(converted(31, [10000, 0, 0], 13), 1809);
    assert_eq!(converted(31, [2147483646, 5000, 5001], 13), 1809);
}

/// A product, with one item of each tape and zeros behind it.
fn multiplied(width: u64, [x, y]: [Shares; 2], items: Shares) -> Bench {
    let mut bench = Bench::new(40);
    bench.put(0, width, x);
    bench.put(1, width, y);
    for (tape, item) in bench.masks.iter_mut().zip(items) {
        tape[0] = item;
    }
    assert_eq!(bench.step(4, &[2, 0, 1]).gates, 1);
    bench
}

#[test]
fn products() {
    assert_eq!(words(P, [1, 2, 2], [3, 0, 0], [10, 20, 30]), [19, 10, 8177]);
    for ring in Ring::all() {
        let bench = multiplied(ring.width(), [[1, 2, 2], [3, 0, 0]], [10, 20, 30]);
        let z = [19, 10, ring.modulus() - 14];
        assert_eq!(bench.shares(2), z);
        assert_eq!(bench.channels.each_ref().map(|channel| channel[0]), z);
        assert_eq!(bench.value(2), 15);
    }
}

/// The figure is above p / 4, so that its bits depend on its sub-shares: with 01's masks they were others, and gave 1587.
#[test]
fn a_large_product_decomposed() {
    let mut bench = multiplied(13, [[1949, 1, 3030], [0, 0, 7445]], [2124, 0, 8156]);
    let z = [6067, 7410, 6539];
    assert_eq!((bench.shares(2), bench.value(2)), (z, 3634));
    assert_eq!(bench.refusal(5, &[3, 2, 11]), 0);
    assert_eq!(bench.value(3), 1586);
    assert_eq!(decomposed(z), 1586);
    assert_eq!(decomposed([2124, 7480, 2221]), 1587);
}

#[test]
fn bits() {
    assert_eq!(words(2, [1, 0, 1], [1, 1, 0], [0, 1, 1]), [1, 1, 0]);
}

#[test]
fn raw_words() {
    let mut run = [7; 2];
    assert_eq!(prepare(13, &[8191, 8192, 5], &mut run), Ok(3));
    assert_eq!(run, [0, 5]);
}

fn gates(width: u64, kind: u64, field: u64, items: usize) -> (u64, u64) {
    let mut bench = Bench::new(items);
    bench.put(0, width, [1, 2, 3]);
    let answer = bench.step(kind, &[0, 0, field]);
    (answer.refusal, answer.gates)
}

#[test]
fn gate_counts() {
    assert_eq!(gates(31, 5, 29, 88), (0, 88));
    assert_eq!(gates(61, 5, 29, 88), (0, 88));
    assert_eq!(gates(61, 5, 59, 178), (0, 178));
    assert_eq!(gates(61, 7, 0, 296), (0, 296));
    assert_eq!(gates(61, 7, 0, 295), (9, 0));
}

#[test]
fn wrong_turns() {
    // The modulus itself as a part of zero is unsound.
    let mut bench = Bench::new(4);
    bench.put(0, 13, [P, 0, 0]);
    assert_eq!(bench.refusal(9, &[0]), 1);
    // -x_i modulo 4, not modulo p: 4 x 2048 modulo p is 1, so q is 3.
    assert_eq!(converted(13, [2048, 0, 0], 13), 2048);
    // One is added for any remainder but 0: X = 1, 2, 3 all give 1.
    assert_eq!(decomposed([2048, 0, 0]), 1);
    assert_eq!(decomposed([2048, 2048, 0]), 1);
    assert_eq!(decomposed([2048, 2048, 2048]), 1);
}
