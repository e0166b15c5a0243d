//! Runs of a job, when they are fair, and what party 1 sees of them (01, "What demand 3 compares").

use reference::layout::{record_words, REGISTER_WORDS};
use reference::machine::{step, work, Answer, Lent, Work};
use reference::order::Order;
use reference::record::{Record, Register, REGISTERS};

/// Party 1 holds sub-shares and mask tapes 1 and 2, sends channel 1 and receives channel 2.
pub const OWN: usize = 1;
pub const FAR: usize = 2;
/// Sub-share, mask tape and channel that it does not see.
pub const LACKED: usize = 0;

/// An order, and how many items of each mask tape it is lent, all where there is no number; of the dealer's tape it is
/// lent all.
pub struct Entry {
    pub order: Order,
    pub lent: Option<usize>,
}

impl Entry {
    pub fn lent_of<'a>(&self, tape: &'a [u64]) -> &'a [u64] {
        &tape[..self.lent.unwrap_or(tape.len())]
    }
}

pub struct Job {
    pub entries: Vec<Entry>,
    pub channels: [Vec<u64>; 3],
}

#[derive(Clone)]
pub struct Tapes {
    pub masks: [Vec<u64>; 3],
    pub dealer: Vec<u64>,
}

/// An order of a run: the record before it, and what it leaves and answers.
pub struct Outcome {
    pub order: Order,
    pub before: Record,
    pub record: Record,
    pub channels: [Vec<u64>; 3],
    pub answer: Answer,
}

pub fn run(job: &Job, tapes: &Tapes) -> Vec<Outcome> {
    let mut record = Record::empty();
    let mut channels = job.channels.clone();
    let outcome = |entry: &Entry| {
        let before = record.clone();
        let mut lent = Lent {
            masks: tapes.masks.each_ref().map(|tape| entry.lent_of(tape)),
            dealer: &tapes.dealer,
            channels: channels.each_mut().map(Vec::as_mut_slice),
        };
        let answer = step(&mut record, entry.order, &mut lent);
        Outcome {
            order: entry.order,
            before,
            record: record.clone(),
            channels: channels.clone(),
            answer,
        }
    };
    job.entries.iter().map(outcome).collect()
}

/// The last outcome of a run.
pub fn end(course: &[Outcome]) -> &Outcome {
    course.last().expect("a job with orders")
}

/// Where a gate's items and its words stand, and its modulus.
pub struct Gate {
    pub item: usize,
    pub word: usize,
    pub modulus: u64,
}

fn gates_of(outcome: &Outcome) -> Vec<Gate> {
    let (before, spent) = (&outcome.before, outcome.answer.gates as usize);
    let moduli = match work(before, outcome.order) {
        Ok(Work::Gates { circuit, .. }) => circuit.moduli(),
        _ => Vec::new(),
    };
    let gate = |(k, modulus)| Gate {
        item: before.masks as usize + k,
        word: before.channels as usize + k,
        modulus,
    };
    moduli
        .into_iter()
        .enumerate()
        .map(gate)
        .take(spent)
        .collect()
}

/// The gates of a run, in turn.
pub fn gates(course: &[Outcome]) -> Vec<Gate> {
    course.iter().flat_map(gates_of).collect()
}

/// 4a is below p if the order decomposes, converts or shifts a.
fn takes_small(outcome: &Outcome) -> bool {
    let (Order::Decompose { x, .. } | Order::Convert { x, .. } | Order::Shift { x, .. }) =
        outcome.order
    else {
        return true;
    };
    let register = outcome.before.registers[x as usize];
    matches!(register, Register::Number { ring, .. } if 4 * register.value() < ring.modulus())
}

/// No deal is refused for its number, no order for a tape item, and every 4a is below p.
pub fn is_fair(course: &[Outcome]) -> bool {
    course
        .iter()
        .all(|outcome| match (outcome.order, outcome.answer.refusal) {
            (Order::Deal { .. }, 7) | (_, 10) => false,
            (_, refusal) => refusal != 0 || takes_small(outcome),
        })
}

/// What party 1 sees after an order, but for the channel that it receives.
#[derive(PartialEq)]
pub struct View {
    /// The kind of each register, and its width or count.
    kinds: Vec<[u64; 2]>,
    shares: Vec<[u64; 2]>,
    positions: [u64; 3],
    sends: Vec<u64>,
    answer: Answer,
}

fn view(outcome: &Outcome) -> View {
    let words = record_words(&outcome.record);
    let registers = || words.chunks(REGISTER_WORDS).take(REGISTERS);
    View {
        kinds: registers().map(|words| [words[0], words[1]]).collect(),
        shares: registers()
            .map(|words| [OWN, FAR].map(|i| words[2 + i]))
            .collect(),
        positions: outcome.record.positions(),
        sends: outcome.channels[OWN].clone(),
        answer: outcome.answer,
    }
}

pub fn views(course: &[Outcome]) -> Vec<View> {
    course.iter().map(view).collect()
}

/// Channel i after each order.
pub fn channel(course: &[Outcome], i: usize) -> Vec<&[u64]> {
    course.iter().map(|o| &o.channels[i][..]).collect()
}

/// Sub-share i of each register after an order; 0 of an empty one.
pub fn shares(outcome: &Outcome, i: usize) -> Vec<u64> {
    let words = record_words(&outcome.record);
    let registers = words.chunks(REGISTER_WORDS).take(REGISTERS);
    registers.map(|words| words[2 + i]).collect()
}
