//! The traces of a case: each draw's against the first one's.

use crate::symbols::Symbols;
use std::fmt::{Display, Formatter, Result};

/// Where the trace of a draw leaves the first one's.
pub struct Difference {
    draw: usize,
    line: usize,
    first: String,
    other: String,
    /// The last instruction that both have: the branch, or the one that reads or writes elsewhere.
    address: u64,
    pub function: String,
}

impl Display for Difference {
    fn fmt(&self, f: &mut Formatter) -> Result {
        let Difference {
            draw,
            line,
            first,
            other,
            address,
            function,
        } = self;
        write!(f, "draw {draw} leaves the first draw's trace at line {line}: {other}, not {first}, after {address:#x} in {function}")
    }
}

fn lines(trace: &[u8]) -> impl Iterator<Item = &[u8]> {
    trace.split(|&byte| byte == b'\n')
}

/// The address in the line of an instruction.
fn instruction(line: &[u8]) -> Option<u64> {
    let text = std::str::from_utf8(line.strip_prefix(b"I  ")?).ok()?;
    u64::from_str_radix(text.split(',').next()?, 16).ok()
}

fn difference(draw: usize, first: &[u8], other: &[u8], symbols: &Symbols) -> Difference {
    let same = lines(first).zip(lines(other)).take_while(|(a, b)| a == b);
    let line = same.count();
    let text = |trace: &[u8]| {
        let line = lines(trace).nth(line).unwrap_or_default();
        format!("{:?}", String::from_utf8_lossy(line))
    };
    let common = lines(first).take(line).filter_map(instruction);
    let address = common.last().unwrap_or(0);
    Difference {
        draw,
        line: line + 1,
        first: text(first),
        other: text(other),
        address,
        function: symbols.name(address).to_string(),
    }
}

#[derive(Default)]
pub struct Comparison {
    draws: usize,
    first: Vec<u8>,
    pub difference: Option<Difference>,
    /// Instructions executed below the caller, in each trace that is not the first again.
    pub instructions: Vec<u64>,
}

impl Comparison {
    /// Takes the trace of the next draw.
    pub fn take(&mut self, trace: &[u8], symbols: &Symbols) {
        let draw = self.draws;
        self.draws += 1;
        if draw > 0 && trace == self.first {
            return;
        }
        let own = ["traced_step", "traced_prepare", "traced_batch"];
        let below = lines(trace)
            .filter_map(instruction)
            .filter(|&i| !own.contains(&symbols.name(i)));
        self.instructions.push(below.count() as u64);
        if draw == 0 {
            self.first = trace.to_vec();
        } else if self.difference.is_none() {
            self.difference = Some(difference(draw, &self.first, trace, symbols));
        }
    }

    /// Whether so many draws were traced, and the library was entered.
    pub fn is_whole(&self, draws: usize) -> bool {
        self.draws == draws && self.instructions.iter().all(|&count| count > 0)
    }
}
