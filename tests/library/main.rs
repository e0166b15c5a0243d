//! Runs a static library on random cases and compares every word with the
//! reference: library [CASES [SEED]]

mod arena;
mod batch_runs;
mod batches;
mod figures;
mod interface;
mod steps;
mod tapes;

use arena::Arena;
use batch_runs::Runs;
use interface::survey::MALFORMED;
use jobs::draw::Draw;
use jobs::tally::{argument, Tally};
use reference::batch::{batch_words, NOT_64};
use reference::layout::{prepare_words, step_words};
use reference::machine::Lent;
use reference::ring::Ring;

const CASES: u64 = 200_000;
/// Shifts by each amount in each ring; a fourth of them must be accepted.
const SHIFTS: u64 = 200;
/// Calls of `survey_batch` for each ring and bit count; half of them are spoilt.
const BATCHES: u64 = 130;
/// After so many cases all lent words are compared, not just those about
/// the positions.
const FULL: u64 = 5_000;
/// After so many failures no more steps are tried.
const ENOUGH: u64 = 50;

type Step = fn(&[u64], &mut [u64], &mut Lent, &mut [u64]) -> u64;
type Prepare = fn(u64, &[u64], &mut [u64], &mut [u64]) -> u64;

/// Words lent in front of two that must stay as they are.
struct Guarded {
    words: Vec<u64>,
    length: usize,
}

impl Guarded {
    fn new(words: &[u64]) -> Guarded {
        let guard = [0x5a5a_5a5a_5a5a_5a5a; 2];
        Guarded {
            words: [words, &guard].concat(),
            length: words.len(),
        }
    }

    fn lent(&mut self) -> &mut [u64] {
        &mut self.words[..self.length]
    }
}

/// What a call returned and left in its small runs.
type Outcome = (u64, Vec<u64>, Vec<u64>);

fn step_outcome(step: Step, case: &steps::Case, arena: &mut Arena) -> Outcome {
    case.load(arena);
    let mut record = Guarded::new(&case.record);
    let mut answer = Guarded::new(&vec![77; case.answer_length]);
    let mut lent = arena.lend(&case.lengths);
    let returned = step(&case.order, record.lent(), &mut lent, answer.lent());
    (returned, record.words, answer.words)
}

fn tape_outcome(prepare: Prepare, case: &tapes::Case) -> Outcome {
    let mut run = Guarded::new(&case.run);
    let mut answer = Guarded::new(&vec![77; case.answer_length]);
    let returned = prepare(case.code, &case.raw, run.lent(), answer.lent());
    (returned, run.words, answer.words)
}

/// Words in which two outcomes differ, the returned number apart.
fn difference(ours: &Outcome, theirs: &Outcome) -> String {
    let part = |name: &str, a: &[u64], b: &[u64]| -> String {
        let places = a.iter().zip(b).enumerate();
        let other = places.filter(|(_, (x, y))| x != y);
        let texts = other.map(|(k, (x, y))| format!(" {name}[{k}] expected {x}, found {y};"));
        texts.take(4).collect()
    };
    format!(
        "expected {}, returned {};{}{}",
        ours.0,
        theirs.0,
        part("run", &ours.1, &theirs.1),
        part("answer", &ours.2, &theirs.2)
    )
}

/// One order by the reference and by the library, which are lent the same words; the refusal, or none where words differ.
fn run_step(
    name: &str,
    case: &steps::Case,
    [ours, theirs]: [&mut Arena; 2],
    tally: &mut Tally,
) -> Option<u64> {
    let expected = step_outcome(step_words, case, ours);
    let found = step_outcome(interface::step, case, theirs);
    let about = |arena: &Arena| arena.about(case.positions, case.width()).concat();
    let same_words = about(ours) == about(theirs);
    tally.case(expected == found && same_words, || {
        let words = if same_words {
            ""
        } else {
            " lent words differ;"
        };
        let text = difference(&expected, &found);
        format!("{name}: {text}{words} {}", case.text())
    });
    if !same_words {
        theirs.clone_from(ours);
    }
    same_words.then_some(expected.0)
}

fn run_steps(cases: u64, seed: u64, tally: &mut Tally) {
    let mut draw = Draw::new(seed);
    let mut ours = Arena::new(&mut draw);
    let mut theirs = ours.clone();
    for number in 1..=cases {
        if tally.failed() > ENOUGH {
            println!("stopped at step {number}");
            return;
        }
        let mut case = steps::Case::new(&mut draw);
        if draw.chance(4) {
            case.damage(&mut draw);
        }
        let name = format!("step {number}");
        let met = run_step(&name, &case, [&mut ours, &mut theirs], tally);
        if let Some(refusal) = met {
            tally.meet("step", refusal);
        }
        if met == Some(0) {
            tally.meet("accepted kind", case.order[0]);
        }
        if met.is_some() && (number % FULL == 0 || number == cases) {
            let text = format!("words far from the positions differ by step {number}");
            tally.case(ours == theirs, || text);
        }
    }
}

/// Shifts by every amount in every ring, on tapes and channels about as long as they need.
fn run_shifts(seed: u64, tally: &mut Tally) {
    let mut draw = Draw::new(seed);
    let mut ours = Arena::new(&mut draw);
    let mut theirs = ours.clone();
    for ring in Ring::all() {
        for s in 0..=ring.width() - 3 {
            let name = format!("shift by {s} in ring {}", ring.width());
            let mut accepted = 0;
            for _ in 0..SHIFTS {
                if tally.failed() > ENOUGH {
                    println!("stopped at {name}");
                    return;
                }
                let case = steps::Case::shift(&mut draw, ring, s);
                let met = run_step(&name, &case, [&mut ours, &mut theirs], tally);
                accepted += u64::from(met == Some(0));
            }
            tally.case(accepted >= SHIFTS / 4, || {
                format!("{name}: {accepted} accepted with equal words")
            });
            tally.case(ours == theirs, || {
                format!("words far from a call's differ by the last {name}")
            });
        }
    }
}

fn run_tapes(cases: u64, seed: u64, tally: &mut Tally) {
    let mut draw = Draw::new(seed);
    for number in 1..=cases {
        let case = tapes::Case::new(&mut draw);
        let expected = tape_outcome(prepare_words, &case);
        let found = tape_outcome(interface::survey::prepare, &case);
        tally.case(expected == found, || {
            let text = difference(&expected, &found);
            format!("tape {number}: {text} {}", case.text())
        });
        tally.meet("tape", expected.0);
    }
}

/// One call by the reference and by the library.
fn run_batch(case: &batches::Case, ours: &mut Runs, theirs: &mut Runs, tally: &mut Tally) {
    let expected = case.run(batch_words, ours);
    let found = case.run(interface::batch, theirs);
    let words = ours.differences(theirs, &case.lengths);
    tally.case(expected == found && words.is_empty(), || {
        let shown = words[..words.len().min(12)].join("; ");
        let text = case.text();
        format!("batch: expected {expected}, returned {found}; {shown}; {text}")
    });
    if !words.is_empty() {
        theirs.clone_from(ours);
    }
    tally.meet("batch", expected);
    if expected == 0 {
        tally.meet(accepted_in(case.width), case.bits);
    }
}

/// What is counted of the accepted calls in a ring.
fn accepted_in(width: u64) -> &'static str {
    match width {
        31 => "bits of an accepted batch in ring 31",
        _ => "bits of an accepted batch in ring 61",
    }
}

fn run_batches(seed: u64, tally: &mut Tally) {
    let mut draw = Draw::new(seed);
    let mut ours = Runs::new(&mut draw);
    let mut theirs = ours.clone();
    let sizes = batches::sizes();
    for turn in 1..=BATCHES {
        for &(ring, bits) in &sizes {
            if tally.failed() > ENOUGH {
                println!("stopped at batch {turn} of {bits} bits");
                return;
            }
            let case = batches::Case::new(&mut draw, ring, bits);
            run_batch(&case, &mut ours, &mut theirs, tally);
        }
        tally.case(ours == theirs, || {
            format!("words far from a call's differ by batch {turn} of each size")
        });
    }
    for (ring, bits) in sizes {
        let times = tally.met(accepted_in(ring.width()), bits);
        tally.case(times >= BATCHES / 4, || {
            format!(
                "{times} accepted batches of {bits} bits, ring {}",
                ring.width()
            )
        });
    }
}

fn main() {
    let (cases, seed) = (argument(1, CASES), argument(2, 1));
    let mut tally = Tally::default();
    figures::run(&mut tally);
    run_steps(cases, seed, &mut tally);
    run_shifts(seed, &mut tally);
    run_tapes(cases, seed, &mut tally);
    run_batches(seed, &mut tally);
    let all: Vec<u64> = (0..=11).collect();
    tally.claim("step", &[&all[..], &[MALFORMED]].concat());
    tally.claim("accepted kind", &all[1..=9]);
    tally.claim("tape", &[0, 5, 12, MALFORMED]);
    tally.claim("batch", &[0, 5, 7, 8, 9, 10, 11, NOT_64, MALFORMED]);
    tally.finish();
}
