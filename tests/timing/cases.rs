//! Cases: a call with all that is public about it, and which of its words are secret.

use crate::format::{BATCH, PREPARE, RUNS, STEP};
use crate::words::Word::{self, Any, Below, Public};
use jobs::draw::Draw;
use jobs::orders::{needs, Needs};
use reference::batch::FIGURES;
use reference::layout::{read_order, read_record, ANSWER_WORDS};
use reference::record::LIMIT;
use reference::ring::Ring;
use std::ops::Range;

pub const ORDER: usize = 0;
pub const RECORD: usize = 1;
pub const MASKS: Range<usize> = 2..5;
pub const DEALER: usize = 5;
pub const CHANNELS: Range<usize> = 6..9;
pub const ANSWER: usize = 9;
pub const SHARES: Range<usize> = 10..13;
pub const RESULTS: Range<usize> = 13..16;

/// Words given in front of a position and behind what the order takes.
const MARGIN: usize = 4;

#[derive(Clone)]
pub struct Run {
    pub lent: usize,
    /// Where the words start that a round gives; those around keep what earlier rounds left.
    pub from: usize,
    pub words: Vec<Word>,
}

impl Run {
    pub fn whole(words: Vec<Word>) -> Run {
        let (lent, from) = (words.len(), 0);
        Run { lent, from, words }
    }
}

#[derive(Clone)]
pub struct Case {
    pub name: String,
    /// STEP, PREPARE with its code, or BATCH with its width and bits.
    pub call: u64,
    pub numbers: [u64; 2],
    pub runs: [Run; RUNS],
    /// The refusal that it is meant to meet, or 0.
    pub meant: u64,
}

/// Where an order stands on tapes and channels.
#[derive(Clone, Copy, Debug)]
pub enum At {
    Start,
    Middle,
    /// The last word that 01 allows is taken.
    End,
}

#[derive(Clone, Copy)]
pub enum Register {
    Empty,
    Number(Ring),
    Bits(u64),
}

impl Register {
    fn words(self) -> [Word; 5] {
        let (tag, size, bound) = match self {
            Register::Empty => return [Public(0); 5],
            Register::Number(ring) => (1, ring.width(), ring.modulus()),
            Register::Bits(count) => (2, count, 1 << count),
        };
        let share = Below(bound);
        [Public(tag), Public(size), share, share, share]
    }
}

/// A position, and the run lent with it: the items from there on, other words before and behind.
fn stretch(at: At, middle: usize, items: &[Word]) -> (Word, Run) {
    let (limit, need) = (LIMIT as usize, items.len());
    let (position, lent) = match at {
        At::Start => (0, need + MARGIN),
        At::Middle => (middle, middle + need),
        At::End => (limit - need, limit),
    };
    let from = position.saturating_sub(MARGIN);
    let words = [&vec![Any; position - from], items, &[Any; MARGIN]].concat();
    (Public(position as u64), Run { lent, from, words })
}

/// What an order takes: the items of each mask tape, those of the dealer's tape, and the words of each channel.
fn taken(registers: &[Word], order: [Word; 4]) -> [Vec<Word>; 3] {
    // In turn 1 every secret is 0.
    let sample = |word: &Word| word.drawn(1, &mut Draw::new(0));
    let mut words: Vec<u64> = registers.iter().map(sample).collect();
    words.extend([0; 3]);
    let order: Vec<u64> = order.iter().map(sample).collect();
    let record = read_record(&words).expect("a record");
    let items = |moduli: Vec<u64>| moduli.into_iter().map(Below).collect();
    match needs(&record, read_order(&order).expect("an order")) {
        Needs::Masks(moduli) => [items(moduli.clone()), vec![], vec![Any; moduli.len()]],
        Needs::Dealer(moduli) => [vec![], items(moduli), vec![]],
        Needs::Nothing => [vec![], vec![], vec![Any; usize::from(order[0] == 9)]],
    }
}

impl Case {
    /// An accepted order, given in words.
    pub fn order(name: String, registers: [Register; 16], order: [Word; 4], at: At) -> Case {
        let mut record = registers.map(Register::words).concat();
        let [masks, dealer, channels] = taken(&record, order);
        let (masks_at, masks) = stretch(at, 40, &masks);
        let (channels_at, channels) = stretch(at, 25, &channels);
        let (dealer_at, dealer) = stretch(at, 9, &dealer);
        record.extend([masks_at, channels_at, dealer_at]);
        let mut runs = [(); RUNS].map(|_| Run::whole(vec![]));
        runs[ORDER] = Run::whole(order.to_vec());
        runs[RECORD] = Run::whole(record);
        runs[MASKS].fill(masks);
        runs[DEALER] = dealer;
        runs[CHANNELS].fill(channels);
        runs[ANSWER] = Run::whole(vec![Public(77); ANSWER_WORDS]);
        Case {
            name,
            call: STEP,
            numbers: [0; 2],
            runs,
            meant: 0,
        }
    }

    /// A preparation of so many items.
    pub fn preparation(name: String, code: u64, raw: Vec<Word>, length: usize, meant: u64) -> Case {
        let mut runs = [(); RUNS].map(|_| Run::whole(vec![]));
        runs[DEALER] = Run::whole(raw);
        runs[CHANNELS.start] = Run::whole(vec![Any; length]);
        runs[ANSWER] = Run::whole(vec![Public(77); 2]);
        Case {
            name,
            call: PREPARE,
            numbers: [code, 0],
            runs,
            meant,
        }
    }

    /// A batch, its mask tapes and its channels so long.
    pub fn batch(name: String, ring: Ring, bits: u64, masks: usize, channels: usize) -> Case {
        let words = |lent: usize| Run {
            lent,
            from: 0,
            words: vec![Any; lent + MARGIN],
        };
        let mut runs = [(); RUNS].map(|_| Run::whole(vec![]));
        runs[MASKS].fill(words(masks));
        runs[CHANNELS].fill(words(channels));
        runs[ANSWER] = Run::whole(vec![Public(77); ANSWER_WORDS]);
        runs[SHARES].fill(Run::whole(vec![Below(ring.modulus()); FIGURES]));
        runs[RESULTS].fill(Run::whole(vec![Any; FIGURES]));
        Case {
            name,
            call: BATCH,
            numbers: [ring.width(), bits],
            runs,
            meant: 0,
        }
    }

    /// This call so changed that it is refused. No item is taken then, so any word may stand there.
    pub fn refused(&self, by: u64, how: &str, change: impl FnOnce(&mut Case)) -> Case {
        let mut case = self.clone();
        for run in &mut case.runs[MASKS.start..=DEALER] {
            run.words.fill(Any);
        }
        change(&mut case);
        case.name = format!("{}, refused by {by}: {how}", self.name);
        case.meant = by;
        case
    }

    /// Lends so many words of each of some runs.
    pub fn lend(&mut self, runs: Range<usize>, lent: usize) {
        for run in &mut self.runs[runs] {
            run.lent = lent;
        }
    }

    /// The words of all runs, one after the other.
    pub fn words(&self) -> Vec<Word> {
        self.runs.iter().flat_map(|run| run.words.clone()).collect()
    }
}
