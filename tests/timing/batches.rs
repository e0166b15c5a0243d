//! 64 decompositions at once: accepted, and refused by each check.

use crate::cases::{Case, ANSWER, CHANNELS, MASKS, RESULTS, SHARES};
use crate::refusals::by_three;
use crate::words::Word::{Any, Public};
use reference::batch::{gates, FIGURES, NOT_64, WIDTHS};
use reference::layout::MALFORMED;
use reference::ring::Ring;

/// How many bits, where nothing else is said.
const BITS: u64 = 11;
/// Words of tapes and channels past those that are used.
const MORE: [usize; 2] = [7, 12];
const NO_WIDTHS: [u64; 6] = [0, 13, 30, 62, (1 << 32) + 31, u64::MAX];

pub fn rings() -> [Ring; 2] {
    WIDTHS.map(|width| Ring::of_width(width).expect("a ring"))
}

/// A batch with so many words more than it takes.
fn batch(ring: Ring, bits: u64, [masks, channels]: [usize; 2]) -> Case {
    let name = format!(
        "batch of {bits} bits, ring {}, {masks} and {channels} words more",
        ring.width()
    );
    let needed = gates(bits) as usize;
    Case::batch(name, ring, bits, needed + masks, needed + channels)
}

/// The one of the table, and that refusals are made of.
pub fn usual(ring: Ring) -> Case {
    batch(ring, BITS, [0; 2])
}

/// Numbers of bits first, middle and last, on runs that are used up and on longer ones.
fn accepted(ring: Ring) -> Vec<Case> {
    let last = ring.width() - 2;
    let of = |bits: u64| [[0; 2], MORE].map(|more| batch(ring, bits, more));
    [1, 2, last / 2, last].map(of).concat()
}

/// A refusal whatever the sub-shares are, so that they may be any words.
fn with_any_shares(case: &Case, by: u64, how: &str, change: impl FnOnce(&mut Case)) -> Case {
    case.refused(by, how, |case| {
        for run in &mut case.runs[SHARES] {
            run.words.fill(Any);
        }
        change(case);
    })
}

fn by_length(case: &Case, run: usize, by: u64, lent: usize) -> Case {
    let how = format!("run {run} of {lent} words");
    with_any_shares(case, by, &how, |case| case.runs[run].lent = lent)
}

/// The answer of another length, then each of the six runs.
fn by_lengths(case: &Case) -> Vec<Case> {
    let answers = [0, 2, 4].map(|lent| by_length(case, ANSWER, MALFORMED, lent));
    let lengths = [0, FIGURES - 1, FIGURES + 1, 2 * FIGURES];
    let of_run = |run: usize| lengths.map(|lent| by_length(case, run, NOT_64, lent));
    let runs = SHARES.chain(RESULTS).flat_map(of_run);
    answers.into_iter().chain(runs).collect()
}

fn by_numbers(case: &Case) -> Vec<Case> {
    let e = case.numbers[0];
    let number = |by: u64, place: usize, number: u64| {
        with_any_shares(case, by, &format!("number {place} is {number}"), |case| {
            case.numbers[place] = number;
        })
    };
    let widths = NO_WIDTHS.map(|width| number(5, 0, width));
    let bits = [0, e - 1, u64::MAX].map(|bits| number(7, 1, bits));
    [&widths[..], &bits].concat()
}

/// A sub-share out of range, the first or the last of a run, whatever the others are.
fn by_share(case: &Case) -> Vec<Case> {
    let p = (1 << case.numbers[0]) - 1;
    let share = |run: usize, k: usize, share: u64| {
        with_any_shares(case, 10, &format!("word {k} of run {run}"), |case| {
            case.runs[run].words[k] = Public(share);
        })
    };
    let of_run = |run: usize| [share(run, 0, p), share(run, FIGURES - 1, u64::MAX)];
    SHARES.flat_map(of_run).collect()
}

fn refused(ring: Ring) -> Vec<Case> {
    let case = usual(ring);
    [
        by_lengths(&case),
        by_numbers(&case),
        by_share(&case),
        by_three(&case, 9, MASKS),
        by_three(&case, 11, CHANNELS),
    ]
    .concat()
}

pub fn batches() -> Vec<Case> {
    let of_ring = |ring: Ring| [accepted(ring), refused(ring)].concat();
    rings().map(of_ring).concat()
}
