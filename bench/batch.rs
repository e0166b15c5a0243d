//! Rows of `survey_batch`, 64 figures a call.

use crate::batch_runs::{Call, Runs};
use crate::batches::{sizes, Case};
use crate::interface;
use crate::measure::{measure, Row};
use jobs::draw::Draw;
use plain::batch::survey_batch;
use reference::batch::{batch_words, Batch, FIGURES};
use reference::layout::ANSWER_WORDS;
use std::hint::black_box;

const ROUNDS: usize = 401;
const TURNS: usize = 50;
/// Random calls for each ring and bit count on which plain Rust is held against the reference.
const CASES: usize = 20;
/// Words of each mask tape and channel.
const LENGTH: usize = 512;

/// Rows by the single order's, with ring width and bits.
const ROWS: [(&str, [u64; 2]); 3] = [
    ("decompose 2, ring 31", [31, 2]),
    ("decompose 29, ring 31", [31, 29]),
    ("decompose 59, ring 61", [61, 59]),
];

fn plain_batch(batch: &mut Batch, answer: &mut [u64]) -> u64 {
    let ([a0, a1, a2], [m0, m1, m2]) = (batch.shares, batch.masks);
    let [c0, c1, c2] = &mut batch.channels;
    let [z0, z1, z2] = &mut batch.results;
    survey_batch(
        batch.width,
        batch.bits,
        a0,
        a1,
        a2,
        m0,
        m1,
        m2,
        c0,
        c1,
        c2,
        z0,
        z1,
        z2,
        answer,
    )
}

/// What a call reads.
struct Given {
    width: u64,
    bits: u64,
    shares: [Vec<u64>; 3],
    masks: [Vec<u64>; 3],
}

fn given(draw: &mut Draw, [width, bits]: [u64; 2]) -> Given {
    let p = (1 << width) - 1;
    let mut run = |length: usize, bound: u64| -> Vec<u64> {
        (0..length).map(|_| draw.below(bound)).collect()
    };
    Given {
        width,
        bits,
        shares: [0; 3].map(|_| run(FIGURES, p)),
        masks: [0; 3].map(|_| run(LENGTH, u64::MAX)),
    }
}

/// All that a side's calls write.
#[derive(Clone, PartialEq, Eq)]
struct Written {
    channels: [Vec<u64>; 3],
    results: [Vec<u64>; 3],
    answer: [u64; ANSWER_WORDS],
}

impl Written {
    fn new() -> Written {
        Written {
            channels: [0; 3].map(|_| vec![0; LENGTH]),
            results: [0; 3].map(|_| vec![0; FIGURES]),
            answer: [77; ANSWER_WORDS],
        }
    }

    fn call(&mut self, call: Call, given: &Given) {
        let mut batch = Batch {
            width: black_box(given.width),
            bits: black_box(given.bits),
            shares: given.shares.each_ref().map(Vec::as_slice),
            masks: given.masks.each_ref().map(Vec::as_slice),
            channels: self.channels.each_mut().map(Vec::as_mut_slice),
            results: self.results.each_mut().map(Vec::as_mut_slice),
        };
        black_box(call(black_box(&mut batch), &mut self.answer));
    }
}

/// Nanoseconds of one call: Rattle, plain Rust.
fn times(draw: &mut Draw, size: [u64; 2]) -> Vec<f64> {
    let given = &given(draw, size);
    let calls: [Call; 3] = [interface::batch, plain_batch, batch_words];
    let mut sides = calls.map(|call| (call, Written::new()));
    for (call, written) in &mut sides {
        written.call(*call, given);
    }
    let [(_, ours), others @ ..] = &sides;
    assert_eq!(ours.answer[0], 0, "a batch of {size:?} is refused");
    assert!(
        others.iter().all(|(_, theirs)| theirs == ours),
        "a batch of {size:?} differs"
    );
    let [mut ours, mut theirs, _] =
        sides.map(|(call, mut written)| move || black_box(&mut written).call(call, given));
    measure(ROUNDS, TURNS, &mut [&mut ours, &mut theirs])
}

/// Plain Rust does what the reference does, on accepted and refused calls.
pub fn compare(draw: &mut Draw) {
    let mut expected = Runs::new(draw);
    let mut found = expected.clone();
    for (ring, bits) in sizes() {
        for _ in 0..CASES {
            let case = Case::new(draw, ring, bits);
            let returned = case.run(batch_words, &mut expected);
            let same = case.run(plain_batch, &mut found) == returned;
            let words = expected.differences(&found, &case.lengths);
            assert!(
                same && words.is_empty(),
                "plain Rust differs: {}",
                case.text()
            );
        }
    }
    assert!(expected == found, "plain Rust writes other words");
}

/// A batch's row, by the name of the single order's.
fn name(single: &str) -> String {
    format!("batch: {single}")
}

pub fn rows(draw: &mut Draw) -> Vec<Row> {
    let row = |&(single, size): &(&str, [u64; 2])| Row {
        name: name(single),
        times: times(draw, size),
    };
    ROWS.iter().map(row).collect()
}

/// Rattle's nanoseconds for one figure of a batch, where the single order has such a row.
pub fn per_figure(rows: &[Row], single: &str) -> Option<f64> {
    let row = rows.iter().find(|row| row.name == name(single))?;
    Some(row.times[0] / FIGURES as f64)
}

/// 64 orders of their own, by the row of one, beside a batch.
pub fn beside_single(rows: &[Row]) {
    println!(
        "{:<28} {:>10} {:>10} {:>6}",
        "64 figures, ns", "one by one", "batch", "times"
    );
    for (single, _) in ROWS {
        let order = rows.iter().find(|row| row.name == single).unwrap().times[0];
        let figure = per_figure(rows, single).unwrap();
        let all = FIGURES as f64;
        println!(
            "{single:<28} {:>10.1} {:>10.1} {:>6.1}",
            order * all,
            figure * all,
            order / figure
        );
    }
}
