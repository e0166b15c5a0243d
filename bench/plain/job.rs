//! The job program: lines in, printed lines out.

use crate::record::{Record, CHANNELS_AT, MASKS_AT};
use crate::step::{step, with_three, Order, Runs};
use std::io::{Read, Result, Write};

const LAST_LINE: u64 = 1_000_000;
const TAPE_LINES: usize = 512;
const CHANNEL_WORDS: usize = 1024;
const UNREADABLE: u64 = 13;
const BUFFER: usize = 1 << 16;
/// No printed line is longer: five numbers of at most 20 digits, each with a byte after it.
const LONGEST: usize = 105;

/// The fields of a line so far.
#[derive(Default)]
struct Line {
    fields: [u64; 4],
    commas: usize,
    digits: u32,
    seen: bool,
    spoiled: bool,
}

impl Line {
    #[inline(always)]
    fn byte(&mut self, byte: u8) {
        self.seen = true;
        match byte {
            _ if self.spoiled => (),
            b'0'..=b'9' => self.digit(u64::from(byte - b'0')),
            b',' if self.digits > 0 && self.commas < 3 => {
                self.commas += 1;
                self.digits = 0;
            }
            _ => self.spoiled = true,
        }
    }

    #[inline(always)]
    fn digit(&mut self, digit: u64) {
        self.digits += 1;
        let field = &mut self.fields[self.commas];
        match field.checked_mul(10).and_then(|n| n.checked_add(digit)) {
            Some(value) if self.digits <= 20 => *field = value,
            _ => self.spoiled = true,
        }
    }

    /// The number of fields, 0 where the line cannot be read.
    fn count(&self) -> usize {
        if self.spoiled || self.digits == 0 {
            0
        } else {
            self.commas + 1
        }
    }
}

/// The machine of a job, its tapes and its channels.
struct Session {
    record: Record,
    masks: [[u64; TAPE_LINES]; 3],
    masks_taken: usize,
    dealer: [u64; TAPE_LINES],
    dealer_taken: usize,
    channels: [[u64; CHANNEL_WORDS]; 3],
}

impl Session {
    fn new() -> Session {
        Session {
            record: [0; 83],
            masks: [[0; TAPE_LINES]; 3],
            masks_taken: 0,
            dealer: [0; TAPE_LINES],
            dealer_taken: 0,
            channels: [[0; CHANNEL_WORDS]; 3],
        }
    }

    /// Refusal and value of a line that prints.
    fn line(&mut self, line: &Line) -> Option<(u64, u64)> {
        let order = match (line.count(), line.fields) {
            (4, [0, items @ ..]) if self.masks_taken < TAPE_LINES => {
                for (tape, item) in self.masks.iter_mut().zip(items) {
                    tape[self.masks_taken] = item;
                }
                self.masks_taken += 1;
                return None;
            }
            (2, [10, item, ..]) if self.dealer_taken < TAPE_LINES => {
                self.dealer[self.dealer_taken] = item;
                self.dealer_taken += 1;
                return None;
            }
            (2, [9, x, ..]) => Some(Order::Open { x }),
            (4, [kind, a, b, c]) => with_three(kind, a, b, c),
            _ => None,
        };
        Some(order.map_or((UNREADABLE, 0), |order| self.order(order)))
    }

    fn order(&mut self, order: Order) -> (u64, u64) {
        let runs = Runs {
            masks: self.masks.each_ref().map(|tape| &tape[..self.masks_taken]),
            dealer: &self.dealer[..self.dealer_taken],
            channels: self.channels.each_mut().map(|channel| &mut channel[..]),
        };
        let answer = step(&mut self.record, order, runs);
        (answer.refusal, answer.value)
    }
}

/// Writes the decimal of n and a byte at `at`; the place after both.
fn put(out: &mut [u8], at: usize, n: u64, end: u8) -> usize {
    let digits = n.checked_ilog10().map_or(1, |log| log as usize + 1);
    let mut left = n;
    for place in out[at..at + digits].iter_mut().rev() {
        *place = b'0' + (left % 10) as u8;
        left /= 10;
    }
    out[at + digits] = end;
    at + digits + 1
}

/// A job under way: the lines read, and what they printed so far.
struct Job<W> {
    session: Session,
    line: Line,
    number: u64,
    out: Vec<u8>,
    at: usize,
    output: W,
}

impl<W: Write> Job<W> {
    fn bytes(&mut self, bytes: &[u8]) -> Result<()> {
        for &byte in bytes {
            if byte != b'\n' {
                self.line.byte(byte);
                continue;
            }
            self.end_line()?;
            if self.number == LAST_LINE {
                break;
            }
        }
        Ok(())
    }

    fn end_line(&mut self) -> Result<()> {
        self.number += 1;
        let line = std::mem::take(&mut self.line);
        match self.session.line(&line) {
            Some((refusal, value)) => self.print(refusal, value),
            None => Ok(()),
        }
    }

    fn print(&mut self, refusal: u64, value: u64) -> Result<()> {
        if self.at + LONGEST > BUFFER {
            self.write_out()?;
        }
        let record = &self.session.record;
        let fields = [
            self.number,
            refusal,
            value,
            record[MASKS_AT],
            record[CHANNELS_AT],
        ];
        for (field, end) in fields.into_iter().zip(*b",,,,\n") {
            self.at = put(&mut self.out, self.at, field, end);
        }
        Ok(())
    }

    fn write_out(&mut self) -> Result<()> {
        self.output.write_all(&self.out[..self.at])?;
        self.at = 0;
        Ok(())
    }
}

/// Reads a job to its end, and prints a line for each order.
pub fn run(mut input: impl Read, output: impl Write) -> Result<()> {
    let mut buffer = vec![0; BUFFER];
    let mut job = Job {
        session: Session::new(),
        line: Line::default(),
        number: 0,
        out: vec![0; BUFFER],
        at: 0,
        output,
    };
    loop {
        let n = input.read(&mut buffer)?;
        job.bytes(&buffer[..n])?;
        if n == 0 || job.number == LAST_LINE {
            break;
        }
    }
    if job.line.seen {
        job.end_line()?;
    }
    job.write_out()
}
