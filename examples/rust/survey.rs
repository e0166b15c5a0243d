//! A set for Rust programs: orders as an enum, the answer as a `Result`.

#[allow(dead_code)]
#[path = "../../include/survey.rs"]
mod words;

/// The words of a record, an order and an answer (crates/layout/specs/Layout.antt).
const RECORD_WORDS: usize = 83;
const MASKS_AT: usize = 80;
const CHANNELS_AT: usize = 81;
const ORDER_WORDS: usize = 4;
const ANSWER_WORDS: usize = 3;

/// An order of 01; the listing needs two of the nine kinds.
pub enum Order {
    Deal { d: u64, e: u64, v: u64 },
    Open { x: u64 },
}

impl Order {
    fn words(&self) -> [u64; ORDER_WORDS] {
        match *self {
            Order::Deal { d, e, v } => [1, d, e, v],
            Order::Open { x } => [9, x, 0, 0],
        }
    }
}

/// What an accepted order answers; the gates spent are the answer's third word.
pub struct Answer {
    pub value: u64,
}

/// The record, the tapes lent and the channels of a set.
pub struct Set<'a> {
    record: [u64; RECORD_WORDS],
    masks: [&'a [u64]; 3],
    dealer: &'a [u64],
    channels: [Vec<u64>; 3],
}

impl<'a> Set<'a> {
    /// The empty machine, with channels of so many words.
    pub fn new(masks: [&'a [u64]; 3], dealer: &'a [u64], words: usize) -> Set<'a> {
        Set {
            record: [0; RECORD_WORDS],
            masks,
            dealer,
            channels: [0; 3].map(|_| vec![0; words]),
        }
    }

    /// One order; the error is the refusal number.
    pub fn step(&mut self, order: Order) -> Result<Answer, u64> {
        let order = order.words();
        let mut answer = [0; ANSWER_WORDS];
        let [c0, c1, c2] = &mut self.channels;
        let refusal = words::step(
            &order,
            &mut self.record,
            self.masks,
            self.dealer,
            [c0, c1, c2],
            &mut answer,
        );
        match refusal {
            0 => Ok(Answer { value: answer[1] }),
            _ => Err(refusal),
        }
    }

    /// The positions of mask tapes and channels.
    pub fn positions(&self) -> [u64; 2] {
        [self.record[MASKS_AT], self.record[CHANNELS_AT]]
    }
}
