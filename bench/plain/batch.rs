//! Sixty-four decompositions at once (02, P13). A plane is a word with one bit of each of the 64 figures, figure k's at bit k;
//! plane j of a place has bits j.

use crate::circuits::{majority, xor};
use crate::gates::{Lent, Sharing};
use crate::layout::MALFORMED;
use crate::ring::Ring;
use crate::squares::{turn_32, turn_64};
use crate::step::{any_outside, refuse_if, uneven, Refusal};

const FIGURES: usize = 64;

/// A word for each figure.
type Words = [u64; FIGURES];

/// Planes of the three places. Ring 31 has 32 of them, so that two of its figures share a row when they are turned over.
type Planes<const N: usize> = [[u64; N]; 3];

#[inline(always)]
fn plane<const N: usize>(planes: &Planes<N>, j: usize) -> Sharing {
    let [p0, p1, p2] = planes;
    [p0[j], p1[j], p2[j]]
}

#[inline(always)]
fn put<const N: usize>(planes: &mut Planes<N>, j: usize, words: Sharing) {
    let [p0, p1, p2] = planes;
    [p0[j], p1[j], p2[j]] = words;
}

/// The first n items and words, and the rest. Run by run, so that the compiler keeps sight of the lengths: tests of them in the
/// loops below took a tenth of the time.
#[inline(always)]
fn split_at(lent: Lent, n: usize) -> (Lent, Lent) {
    let ([m0, m1, m2], [c0, c1, c2]) = (lent.masks, lent.channels);
    let [(m0, n0), (m1, n1), (m2, n2)] = [m0.split_at(n), m1.split_at(n), m2.split_at(n)];
    let [(c0, d0), (c1, d1), (c2, d2)] =
        [c0.split_at_mut(n), c1.split_at_mut(n), c2.split_at_mut(n)];
    let lent = |masks, channels| Lent { masks, channels };
    (
        lent([m0, m1, m2], [c0, c1, c2]),
        lent([n0, n1, n2], [d0, d1, d2]),
    )
}

/// Order 5 (i): carries 1 to n; carry 0 is 0.
#[inline(always)]
fn carries<const N: usize>(mut lent: Lent, x: &Planes<N>, n: usize, carries: &mut Planes<N>) {
    assert!(n < N);
    put(carries, 0, [0; 3]);
    for j in 0..n {
        let [b0, b1, b2] = plane(x, j);
        let carry = majority(&mut lent, j, [b0, 0, 0], [0, b1, 0], [0, 0, b2]);
        put(carries, j + 1, carry);
    }
}

/// Order 5 (ii): n running carries. The planes of the total take the place of the carries.
#[inline(always)]
fn total<const N: usize>(mut lent: Lent, x: &Planes<N>, n: usize, carries: &mut Planes<N>) {
    assert!(n + 1 < N);
    put(carries, 0, plane(x, 0));
    let mut running = [0; 3];
    for j in 1..=n {
        let (sum, carry) = (plane(x, j), plane(carries, j));
        put(carries, j, xor(xor(sum, carry), running));
        running = majority(&mut lent, j - 1, sum, carry, running);
    }
    let top = xor(plane(x, n + 1), plane(carries, n + 1));
    put(carries, n + 1, xor(top, running));
}

/// Order 5 (iv): the planes of the total from 2 up, plus the bits z, by l - 1 gates. Planes from l up are 0.
#[inline(always)]
fn raised<const N: usize>(
    mut lent: Lent,
    total: &Planes<N>,
    z: Sharing,
    l: usize,
    result: &mut Planes<N>,
) {
    assert!(l >= 1 && l + 1 < N);
    let mut carry = z;
    for j in 0..l - 1 {
        let bits = plane(total, j + 2);
        put(result, j, xor(bits, carry));
        carry = lent.bit_gate(j, bits, carry);
    }
    put(result, l - 1, xor(plane(total, l + 1), carry));
    for planes in result {
        planes[l..].fill(0);
    }
}

/// Order 5 on planes, in place: 3l + 1 gates.
#[inline(always)]
fn decompose<const N: usize>(lent: Lent, x: &mut Planes<N>, l: usize) {
    let mut sums = [[0; N]; 3];
    let (first, lent) = split_at(lent, l + 1);
    carries(first, x, l + 1, &mut sums);
    let (second, lent) = split_at(lent, l);
    total(second, x, l, &mut sums);
    let (mut third, lent) = split_at(lent, 1);
    let [low, high] = [plane(&sums, 0), plane(&sums, 1)];
    let z = xor(xor(low, high), third.bit_gate(0, low, high));
    let (fourth, _) = split_at(lent, l - 1);
    raised(fourth, &sums, z, l, x);
}

/// The planes of 4a in ring 31: figure k goes to the low half of row k, figure k + 32 to its high half.
fn load_31(a: &Words, rows: &mut [u64; 32]) {
    let r = Ring::new(31);
    let (low, high) = a.split_at(32);
    for ((row, &a), &b) in rows.iter_mut().zip(low).zip(high) {
        *row = r.four_times(a) | r.four_times(b) << 32;
    }
    turn_32(rows);
}

fn store_31(rows: &mut [u64; 32], z: &mut Words) {
    turn_32(rows);
    let (low, high) = z.split_at_mut(32);
    for ((row, a), b) in rows.iter().zip(low).zip(high) {
        (*a, *b) = (row & 0xffff_ffff, row >> 32);
    }
}

/// The planes of 4a in ring 61.
fn load_61(a: &Words, rows: &mut Words) {
    for (row, &a) in rows.iter_mut().zip(a) {
        *row = Ring::new(61).four_times(a);
    }
    turn_64(rows);
}

fn store_61(rows: &mut Words, z: &mut Words) {
    turn_64(rows);
    *z = *rows;
}

/// Loads, decomposes and stores, place by place.
#[inline(always)]
fn run<const N: usize>(
    lent: Lent,
    [a0, a1, a2]: [&Words; 3],
    [z0, z1, z2]: [&mut Words; 3],
    l: usize,
    load: fn(&Words, &mut [u64; N]),
    store: fn(&mut [u64; N], &mut Words),
) {
    let mut x = [[0; N]; 3];
    let [x0, x1, x2] = &mut x;
    load(a0, x0);
    load(a1, x1);
    load(a2, x2);
    decompose(lent, &mut x, l);
    let [x0, x1, x2] = &mut x;
    store(x0, z0);
    store(x1, z1);
    store(x2, z2);
}

/// All of the call but its answer's words.
struct Batch<'a> {
    width: u64,
    bits: u64,
    shares: [&'a [u64]; 3],
    lent: Lent<'a>,
    results: [&'a mut [u64]; 3],
}

/// A run of 64 words; 23 where it is not.
fn words(run: &[u64]) -> Result<&Words, Refusal> {
    run.try_into().map_err(|_| 23)
}

fn words_mut(run: &mut [u64]) -> Result<&mut Words, Refusal> {
    run.try_into().map_err(|_| 23)
}

/// Checks 8, 9 and 11; the runs from their start, as long as the gates need them.
fn supply(lent: Lent, gates: u64) -> Result<Lent, Refusal> {
    let channels = lent.channels.each_ref().map(|channel| channel.len());
    let masks = lent.masks.map(<[u64]>::len);
    refuse_if(uneven(masks) || uneven(channels), 8)?;
    refuse_if((masks[0] as u64) < gates, 9)?;
    refuse_if((channels[0] as u64) < gates, 11)?;
    Ok(split_at(lent, gates as usize).0)
}

/// The gates spent.
#[inline(always)]
fn attempt(batch: Batch) -> Result<u64, Refusal> {
    let [a0, a1, a2] = batch.shares;
    let [z0, z1, z2] = batch.results;
    let [a0, a1, a2] = [words(a0)?, words(a1)?, words(a2)?];
    let [z0, z1, z2] = [words_mut(z0)?, words_mut(z1)?, words_mut(z2)?];
    refuse_if(batch.width != 31 && batch.width != 61, 5)?;
    let r = Ring::new(batch.width);
    refuse_if(batch.bits < 1 || batch.bits > batch.width - 2, 7)?;
    refuse_if(any_outside(r, [a0, a1, a2]), 10)?;
    let (l, gates) = (batch.bits as usize, 3 * batch.bits + 1);
    let lent = supply(batch.lent, gates)?;
    let (shares, results) = ([a0, a1, a2], [z0, z1, z2]);
    if batch.width == 31 {
        run(lent, shares, results, l, load_31, store_31);
    } else {
        run(lent, shares, results, l, load_61, store_61);
    }
    Ok(gates)
}

/// 64 figures, by the call that the library exports: a slice is passed as its address and its length. MALFORMED changes nothing.
#[allow(improper_ctypes_definitions)]
pub extern "C" fn survey_batch(
    width: u64,
    bits: u64,
    a0: &[u64],
    a1: &[u64],
    a2: &[u64],
    m0: &[u64],
    m1: &[u64],
    m2: &[u64],
    c0: &mut [u64],
    c1: &mut [u64],
    c2: &mut [u64],
    z0: &mut [u64],
    z1: &mut [u64],
    z2: &mut [u64],
    answer: &mut [u64],
) -> u64 {
    let Ok(answer) = <&mut [u64; 3]>::try_from(answer) else {
        return MALFORMED;
    };
    let lent = Lent {
        masks: [m0, m1, m2],
        channels: [c0, c1, c2],
    };
    let batch = Batch {
        width,
        bits,
        shares: [a0, a1, a2],
        lent,
        results: [z0, z1, z2],
    };
    let (refusal, gates) = match attempt(batch) {
        Ok(gates) => (0, gates),
        Err(refusal) => (refusal, 0),
    };
    *answer = [refusal, 0, gates];
    refusal
}
