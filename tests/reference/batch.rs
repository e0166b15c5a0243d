//! Sixty-four at a time (02, P13): the checks, then the single order's circuit, figure by figure.

use crate::circuit::Circuit;
use crate::gate::Gates;
use crate::layout::{ANSWER_WORDS, MALFORMED};
use crate::machine::{check_lengths, refuse_if, Refusal};
use crate::record::{Register, Shares};
use crate::ring::Ring;

/// 02: "three runs of 64 sub-shares".
pub const FIGURES: usize = 64;

/// 02: "23 when one of the six runs isn't 64 long".
pub const NOT_64: Refusal = 23;

/// 02: "of one ring, 31 or 61".
pub const WIDTHS: [u64; 2] = [31, 61];

/// A call: the ring's width, l, and the twelve runs of words that are lent with them.
pub struct Batch<'a> {
    pub width: u64,
    pub bits: u64,
    /// Run i has sub-share i of each figure.
    pub shares: [&'a [u64]; 3],
    pub masks: [&'a [u64]; 3],
    pub channels: [&'a mut [u64]; 3],
    pub results: [&'a mut [u64]; 3],
}

/// 02: "count, 3l + 1".
pub fn gates(bits: u64) -> u64 {
    3 * bits + 1
}

/// 02: "It checks 5 (13 too), 7 for l, then sub-shares in range by 10, then 8, 9 and 11", and 23 "before all of these".
fn check(batch: &Batch) -> Result<Ring, Refusal> {
    let results = batch.results.each_ref().map(|run| run.len());
    let six = [batch.shares.map(<[u64]>::len), results].concat();
    refuse_if(six.iter().any(|&length| length != FIGURES), NOT_64)?;
    refuse_if(!WIDTHS.contains(&batch.width), 5)?;
    let ring = Ring::of_width(batch.width).ok_or(5u64)?;
    refuse_if(batch.bits < 1 || batch.bits > ring.width() - 2, 7)?;
    let mut shares = batch.shares.iter().copied().flatten();
    refuse_if(shares.any(|&share| share >= ring.modulus()), 10)?;
    let masks = batch.masks.map(<[u64]>::len);
    let channels = batch.channels.each_ref().map(|run| run.len());
    check_lengths(masks)?;
    check_lengths(channels)?;
    refuse_if((masks[0] as u64) < gates(batch.bits), 9)?;
    refuse_if((channels[0] as u64) < gates(batch.bits), 11)?;
    Ok(ring)
}

/// 02: "the single order's definition fed bit k of each item": the result of figure k, and the bits that it sends.
fn figure(batch: &Batch, ring: Ring, k: usize) -> (Shares, Vec<Shares>) {
    let (a, l) = (batch.shares.map(|run| run[k]), batch.bits);
    let circuit = Circuit::Decompose { ring, a, l };
    let moduli = circuit.moduli();
    let bits = |tape: &[u64]| -> Vec<u64> { tape.iter().map(|item| item >> k & 1).collect() };
    let items = batch.masks.map(|tape| bits(&tape[..moduli.len()]));
    let mut gates = Gates::new(items.each_ref().map(Vec::as_slice), &moduli);
    let Register::Bits { shares, .. } = circuit.run(&mut gates) else {
        unreachable!("a decomposition leaves bits");
    };
    assert_eq!(gates.sent.len(), moduli.len(), "gates of {circuit:?}");
    (shares, gates.sent)
}

/// Bit k of a word set to a bit.
fn set_bit(word: &mut u64, k: usize, bit: u64) {
    *word = *word & !(1 << k) | bit << k;
}

/// The call; how many gates it has spent. A refusal leaves results and channels unchanged.
pub fn decompose(batch: &mut Batch) -> Result<u64, Refusal> {
    let ring = check(batch)?;
    for k in 0..FIGURES {
        let (result, sent) = figure(batch, ring, k);
        for i in 0..3 {
            batch.results[i][k] = result[i];
            for (word, bits) in batch.channels[i].iter_mut().zip(&sent) {
                set_bit(word, k, bits[i]);
            }
        }
    }
    Ok(gates(batch.bits))
}

/// The call with its answer as words; MALFORMED changes nothing, not even the answer.
pub fn batch_words(batch: &mut Batch, answer: &mut [u64]) -> u64 {
    if answer.len() != ANSWER_WORDS {
        return MALFORMED;
    }
    let (refusal, gates) = match decompose(batch) {
        Ok(gates) => (0, gates),
        Err(refusal) => (refusal, 0),
    };
    answer.copy_from_slice(&[refusal, 0, gates]);
    refusal
}
