//! Rows of `survey_step`, one order a call.

use crate::arena::Arena;
use crate::interface;
use crate::measure::{measure, Row};
use crate::steps::Case;
use jobs::draw::Draw;
use jobs::orders::{needs, Needs};
use plain::layout::survey_step;
use reference::layout::{read_order, record_words, step_words, ANSWER_WORDS};
use reference::machine::Lent;
use reference::record::{Record, Register};
use reference::ring::Ring;
use std::hint::black_box;

const ROUNDS: usize = 401;
const TURNS: usize = 100;
/// Random orders on which plain Rust is held against the reference.
const CASES: usize = 20_000;
/// Words of each lent run. No power of two: with 512, a page, a row moved from program to program (bench/README.md).
const LENGTH: usize = 600;
/// Where tapes and channels stand before each call.
const POSITIONS: [u64; 3] = [3, 5, 7];

type Step = fn(&[u64], &mut [u64], &mut Lent, &mut [u64]) -> u64;

fn plain_step(order: &[u64], record: &mut [u64], lent: &mut Lent, answer: &mut [u64]) -> u64 {
    let [m0, m1, m2] = lent.masks;
    let [c0, c1, c2] = &mut lent.channels;
    survey_step(order, record, m0, m1, m2, lent.dealer, c0, c1, c2, answer)
}

/// Each row with its order: number sources 0 and 1 are of ring 61, 2 of ring 31; 4 and 5 are bits.
const ROWS: [(&str, [u64; 4]); 15] = [
    ("deal, ring 61", [1, 15, 61, 1_234_567]),
    ("add, ring 61", [2, 15, 0, 1]),
    ("scale, ring 61", [3, 15, 0, 7_654_321]),
    ("multiply, ring 31", [4, 15, 2, 3]),
    ("multiply, ring 61", [4, 15, 0, 1]),
    ("decompose 2, ring 31", [5, 15, 2, 2]),
    ("decompose 29, ring 31", [5, 15, 2, 29]),
    ("decompose 59, ring 61", [5, 15, 0, 59]),
    ("convert 31 to 61", [6, 15, 2, 61]),
    ("convert 61 to 31", [6, 15, 0, 31]),
    ("shift by 0, ring 61", [7, 15, 0, 0]),
    ("shift by 14, ring 61", [7, 15, 0, 14]),
    ("compose 29, ring 31", [8, 15, 5, 31]),
    ("compose 59, ring 61", [8, 15, 4, 61]),
    ("open, ring 61", [9, 0, 0, 0]),
];

/// Registers of every kind and ring, two of them empty.
fn record(draw: &mut Draw) -> Record {
    let mut record = Record::empty();
    let widths = [61, 61, 31, 31, 0, 0, 13, 13, 61, 31, 0, 61, 13, 0];
    let counts = [59, 29, 11, 3];
    let mut bits = counts.into_iter();
    for (place, width) in record.registers.iter_mut().zip(widths) {
        *place = match Ring::of_width(width) {
            Some(ring) => Register::Number {
                ring,
                shares: [0; 3].map(|_| draw.below(ring.modulus())),
            },
            None => {
                let count = bits.next().unwrap();
                let shares = [0; 3].map(|_| draw.below(1 << count));
                Register::Bits { count, shares }
            }
        };
    }
    [record.masks, record.channels, record.dealer] = POSITIONS;
    record
}

/// Tapes that the order finds in range from its positions on.
struct Tapes {
    masks: [Vec<u64>; 3],
    dealer: Vec<u64>,
}

fn tapes(draw: &mut Draw, record: &Record, order: &[u64]) -> Tapes {
    let moduli = match needs(record, read_order(order).unwrap()) {
        Needs::Masks(moduli) => moduli,
        _ => Vec::new(),
    };
    let from = POSITIONS[0] as usize;
    let mut tape = || -> Vec<u64> {
        let item = |k: usize| draw.below(*moduli.get(k.wrapping_sub(from)).unwrap_or(&u64::MAX));
        (0..LENGTH).map(item).collect()
    };
    Tapes {
        masks: [tape(), tape(), tape()],
        dealer: (0..LENGTH).map(|_| draw.below(8191)).collect(),
    }
}

/// All that a side's calls write.
#[derive(Clone, PartialEq, Eq)]
struct Written {
    record: Vec<u64>,
    channels: [Vec<u64>; 3],
    answer: [u64; ANSWER_WORDS],
}

impl Written {
    /// One call, from the same positions each time.
    fn call(&mut self, step: Step, order: &[u64], tapes: &Tapes) {
        let at = self.record.len() - POSITIONS.len();
        self.record[at..].copy_from_slice(&POSITIONS);
        let mut lent = Lent {
            masks: tapes.masks.each_ref().map(|tape| &tape[..]),
            dealer: &tapes.dealer,
            channels: self.channels.each_mut().map(|channel| &mut channel[..]),
        };
        black_box(step(
            black_box(order),
            &mut self.record,
            &mut lent,
            &mut self.answer,
        ));
    }
}

/// Nanoseconds of one call: Rattle, plain Rust, reference.
fn times(draw: &mut Draw, order: &[u64]) -> Vec<f64> {
    let record = record(draw);
    let tapes = &tapes(draw, &record, order);
    let start = Written {
        record: record_words(&record),
        channels: [0; 3].map(|_| vec![0; LENGTH]),
        answer: [77; ANSWER_WORDS],
    };
    let mut sides: [(Step, Written); 3] =
        [interface::step, plain_step, step_words].map(|step| (step as Step, start.clone()));
    for (step, written) in &mut sides {
        written.call(*step, order, tapes);
    }
    let [(_, ours), others @ ..] = &sides;
    assert_eq!(ours.answer[0], 0, "{order:?} is refused");
    assert!(
        others.iter().all(|(_, theirs)| theirs == ours),
        "{order:?} differs"
    );
    let [mut ours, mut theirs, mut reference] =
        sides.map(|(step, mut written)| move || black_box(&mut written).call(step, order, tapes));
    measure(ROUNDS, TURNS, &mut [&mut ours, &mut theirs, &mut reference])
}

/// Plain Rust does what the reference does, on accepted, refused and malformed orders.
pub fn compare(draw: &mut Draw) {
    let mut expected = Arena::new(draw);
    let mut found = expected.clone();
    for _ in 0..CASES {
        let mut case = Case::new(draw);
        if draw.chance(4) {
            case.damage(draw);
        }
        let run = |step: Step, arena: &mut Arena| {
            case.load(arena);
            let (mut record, mut answer) = (case.record.clone(), vec![77; case.answer_length]);
            let mut lent = arena.lend(&case.lengths);
            let returned = step(&case.order, &mut record, &mut lent, &mut answer);
            (returned, record, answer)
        };
        assert!(
            run(step_words, &mut expected) == run(plain_step, &mut found),
            "plain Rust differs: {}",
            case.text()
        );
    }
    assert!(expected == found, "plain Rust writes other words");
}

pub fn rows(draw: &mut Draw) -> Vec<Row> {
    let row = |(name, order): &(&str, [u64; 4])| Row {
        name: name.to_string(),
        times: times(draw, order),
    };
    ROWS.iter().map(row).collect()
}
