//! The job program: lines in, printed lines out.

use crate::machine::{step, Lent};
use crate::order::Order;
use crate::record::Record;

/// 01: "Reading stops after line 1,000,000."
pub const LAST_LINE: usize = 1_000_000;
/// 01: "At most 512 lines of each tape kind and wires of 1,024 words."
pub const TAPE_LINES: usize = 512;
pub const CHANNEL_WORDS: usize = 1024;

/// An unreadable line, an unknown kind or a tape line too many.
pub const UNREADABLE: u64 = 13;

/// One printed line.
#[derive(Clone, Copy, Debug, PartialEq, Eq)]
pub struct Row {
    pub line: u64,
    pub refusal: u64,
    pub value: u64,
    pub masks: u64,
    pub channels: u64,
}

impl Row {
    pub fn text(&self) -> String {
        let Row {
            line,
            refusal,
            value,
            masks,
            channels,
        } = self;
        format!("{line},{refusal},{value},{masks},{channels}\n")
    }
}

enum Line {
    Masks([u64; 3]),
    Dealer(u64),
    Order(Order),
}

/// 01: "decimal of 1 to 20 digits", below 2^64.
fn read_field(text: &[u8]) -> Option<u64> {
    let digits = (1..=20).contains(&text.len()) && text.iter().all(u8::is_ascii_digit);
    let value = |sum: u128, digit: &u8| 10 * sum + u128::from(digit - b'0');
    digits.then(|| text.iter().fold(0, value))?.try_into().ok()
}

fn read_line(text: &[u8]) -> Option<Line> {
    let fields: Option<Vec<u64>> = text.split(|&b| b == b',').map(read_field).collect();
    match fields?[..] {
        [0, t0, t1, t2] => Some(Line::Masks([t0, t1, t2])),
        [10, item] => Some(Line::Dealer(item)),
        [kind, ref fields @ ..] => Order::new(kind, fields).map(Line::Order),
        [] => None,
    }
}

/// The machine of a job, its tapes and its channels.
pub struct Session {
    pub record: Record,
    pub masks: [Vec<u64>; 3],
    pub dealer: Vec<u64>,
    channels: [Vec<u64>; 3],
    lines: u64,
}

impl Session {
    pub fn new() -> Session {
        Session {
            record: Record::empty(),
            masks: Default::default(),
            dealer: Vec::new(),
            channels: [0; 3].map(|_| vec![0; CHANNEL_WORDS]),
            lines: 0,
        }
    }

    /// Takes the next line, without its byte 10; what it prints.
    pub fn line(&mut self, text: &[u8]) -> Option<Row> {
        self.lines += 1;
        let (refusal, value) = match read_line(text) {
            Some(Line::Masks(items)) if self.masks[0].len() < TAPE_LINES => {
                for (tape, item) in self.masks.iter_mut().zip(items) {
                    tape.push(item);
                }
                return None;
            }
            Some(Line::Dealer(item)) if self.dealer.len() < TAPE_LINES => {
                self.dealer.push(item);
                return None;
            }
            Some(Line::Order(order)) => self.order(order),
            _ => (UNREADABLE, 0),
        };
        Some(Row {
            line: self.lines,
            refusal,
            value,
            masks: self.record.masks,
            channels: self.record.channels,
        })
    }

    fn order(&mut self, order: Order) -> (u64, u64) {
        let mut lent = Lent {
            masks: self.masks.each_ref().map(Vec::as_slice),
            dealer: &self.dealer,
            channels: self.channels.each_mut().map(Vec::as_mut_slice),
        };
        let answer = step(&mut self.record, order, &mut lent);
        (answer.refusal, answer.value)
    }
}

impl Default for Session {
    fn default() -> Session {
        Session::new()
    }
}

/// All that a job prints.
pub fn run(input: &[u8]) -> Vec<Row> {
    let mut session = Session::new();
    input
        .split_inclusive(|&b| b == b'\n')
        .take(LAST_LINE)
        .filter_map(|line| session.line(line.strip_suffix(b"\n").unwrap_or(line)))
        .collect()
}

pub fn print(rows: &[Row]) -> String {
    rows.iter().map(Row::text).collect()
}
