//! 64 wages decomposed into their bits by one call, beside 64 orders of their own: results and words sent are the same.
//! examples/batch.md walks through it.

#[allow(dead_code)]
#[path = "../../include/survey.rs"]
mod survey;

use survey::BATCH_FIGURES;

const WIDTH: u64 = 31;
const P: u64 = (1 << WIDTH) - 1;
/// Every wage is below 2^12.
const BITS: u64 = 12;
const GATES: usize = 3 * BITS as usize + 1;
/// Wages that are opened at the end.
const OPENED: usize = 4;

const RECORD_WORDS: usize = 83;
const ANSWER_WORDS: usize = 3;
const NUMBER: u64 = 1;
const DECOMPOSE: u64 = 5;

/// A run of words for each of three places.
type Three = [Vec<u64>; 3];

/// Raw words (splitmix64). They come from a formula so that this program prints the same each time; a survey takes them from a
/// source that nobody can foresee.
struct Raw(u64);

impl Raw {
    fn word(&mut self) -> u64 {
        self.0 = self.0.wrapping_add(0x9e37_79b9_7f4a_7c15);
        let z = (self.0 ^ self.0 >> 30).wrapping_mul(0xbf58_476d_1ce4_e5b9);
        let z = (z ^ z >> 27).wrapping_mul(0x94d0_49bb_1331_11eb);
        z ^ z >> 31
    }

    fn words(&mut self, length: usize) -> Vec<u64> {
        (0..length).map(|_| self.word()).collect()
    }
}

fn wage(k: usize) -> u64 {
    1900 + 377 * k as u64 % 1600
}

/// Sub-shares of the wages: two items of the ring for each, and what is then left of it.
fn share(raw: &mut Raw) -> Three {
    let mut items = vec![0; 2 * BATCH_FIGURES];
    // Some words to spare: one in 2^31 is dropped.
    let raw = raw.words(items.len() + 3);
    let refusal = survey::prepare(WIDTH, &raw, &mut items, &mut [0; 2]);
    assert_eq!(refusal, 0, "the preparation is refused");
    let (a0, a1) = items.split_at(BATCH_FIGURES);
    let rest = |k: usize| (wage(k) + (P - a0[k]) + (P - a1[k])) % P;
    let a2 = (0..BATCH_FIGURES).map(rest).collect();
    [a0.to_vec(), a1.to_vec(), a2]
}

/// All wages by one call: results, words on the channels, gates.
fn by_batch(shares: &Three, masks: &Three) -> (Three, Three, u64) {
    let mut results = [0; 3].map(|_| vec![0; BATCH_FIGURES]);
    let mut channels = [0; 3].map(|_| vec![0; GATES]);
    let mut answer = [0; ANSWER_WORDS];
    let refusal = survey::batch(
        WIDTH,
        BITS,
        shares.each_ref().map(Vec::as_slice),
        masks.each_ref().map(Vec::as_slice),
        channels.each_mut().map(Vec::as_mut_slice),
        results.each_mut().map(Vec::as_mut_slice),
        &mut answer,
    );
    assert_eq!(refusal, 0, "the batch is refused");
    (results, channels, answer[2])
}

/// One wage by an order of its own, from register 0 to register 1: its result, the words on the channels, gates.
fn by_order([s0, s1, s2]: [u64; 3], masks: &Three) -> ([u64; 3], Three, u64) {
    let mut record = [0; RECORD_WORDS];
    record[..5].copy_from_slice(&[NUMBER, WIDTH, s0, s1, s2]);
    let mut channels = [0; 3].map(|_| vec![0; GATES]);
    let mut answer = [0; ANSWER_WORDS];
    let refusal = survey::step(
        &[DECOMPOSE, 1, 0, BITS],
        &mut record,
        masks.each_ref().map(Vec::as_slice),
        &[],
        channels.each_mut().map(Vec::as_mut_slice),
        &mut answer,
    );
    assert_eq!(refusal, 0, "the order is refused");
    ([record[7], record[8], record[9]], channels, answer[2])
}

/// Word k of each place.
fn at(runs: &Three, k: usize) -> [u64; 3] {
    runs.each_ref().map(|run| run[k])
}

/// Bit k of each word: what belongs to wage k.
fn bits(runs: &Three, k: usize) -> Three {
    let of_wage = |run: &Vec<u64>| run.iter().map(|word| word >> k & 1).collect();
    runs.each_ref().map(of_wage)
}

fn main() {
    let mut raw = Raw(64);
    let shares = share(&mut raw);
    let masks = [0; 3].map(|_| raw.words(GATES));
    let (results, channels, gates) = by_batch(&shares, &masks);
    println!("{BATCH_FIGURES} wages to {BITS} bits by one call: {gates} gates");

    let (mut alike, mut gates) = (0, 0);
    for k in 0..BATCH_FIGURES {
        let (result, sent, spent) = by_order(at(&shares, k), &bits(&masks, k));
        let same = result == at(&results, k) && sent == bits(&channels, k);
        alike += u64::from(same);
        gates += spent;
    }
    println!(
        "by {BATCH_FIGURES} orders: {gates} gates, and {alike} times the same result and words"
    );

    for k in 0..OPENED {
        let [z0, z1, z2] = at(&results, k);
        println!("wage {k}: {z0} ^ {z1} ^ {z2} = {}", z0 ^ z1 ^ z2);
    }
}
