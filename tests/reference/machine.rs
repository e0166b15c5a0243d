//! The machine's step: the checks in 01's order, then the order itself.

use crate::circuit::Circuit;
use crate::gate::Gates;
use crate::order::Order;
use crate::record::{Record, Register, Shares, LIMIT, REGISTERS};
use crate::ring::Ring;

/// 01, "Why an order is refused".
pub type Refusal = u64;

/// The seven runs of words lent to a step.
pub struct Lent<'a> {
    /// The three mask tapes (01: "strands").
    pub masks: [&'a [u64]; 3],
    pub dealer: &'a [u64],
    /// The three channels (01: "wires"); channel i carries party i's words.
    pub channels: [&'a mut [u64]; 3],
}

#[derive(Clone, Copy, Debug, PartialEq, Eq)]
pub struct Answer {
    pub refusal: Refusal,
    pub value: u64,
    pub gates: u64,
}

/// What is left to do once the checks that need no lent run have passed.
pub enum Work {
    Deal { d: usize, ring: Ring, v: u64 },
    Put { d: usize, register: Register },
    Gates { d: usize, circuit: Circuit },
    Open { register: Register },
}

pub(crate) fn refuse_if(condition: bool, refusal: Refusal) -> Result<(), Refusal> {
    if condition {
        Err(refusal)
    } else {
        Ok(())
    }
}

/// 3 when empty, then 4 when bits.
fn number(register: Register) -> Result<(Ring, Shares), Refusal> {
    match register {
        Register::Empty => Err(3),
        Register::Bits { .. } => Err(4),
        Register::Number { ring, shares } => Ok((ring, shares)),
    }
}

/// 3 when empty, then 4 when a number.
fn bits(register: Register) -> Result<(u64, Shares), Refusal> {
    match register {
        Register::Empty => Err(3),
        Register::Number { .. } => Err(4),
        Register::Bits { count, shares } => Ok((count, shares)),
    }
}

/// 3 a source empty; 4 a source is bits; 6 rings differ.
fn pair(x: Register, y: Register) -> Result<(Ring, Shares, Shares), Refusal> {
    refuse_if([x, y].contains(&Register::Empty), 3)?;
    let (ring, x) = number(x)?;
    let (other, y) = number(y)?;
    refuse_if(ring != other, 6)?;
    Ok((ring, x, y))
}

fn ring_of(width: u64) -> Result<Ring, Refusal> {
    Ring::of_width(width).ok_or(5)
}

/// The checks 1 to 7, none of which looks at a lent run.
pub fn work(record: &Record, order: Order) -> Result<Work, Refusal> {
    refuse_if(!record.is_sound(), 1)?;
    let numbers = order.registers();
    refuse_if(numbers.iter().any(|&n| n >= REGISTERS as u64), 2)?;
    let at = |n: u64| record.registers[n as usize];
    let d = numbers[0] as usize;
    let circuit = match order {
        Order::Deal { e, v, .. } => {
            let ring = ring_of(e)?;
            refuse_if(v >= ring.modulus(), 7)?;
            return Ok(Work::Deal { d, ring, v });
        }
        Order::Add { x, y, .. } => {
            let (ring, x, y) = pair(at(x), at(y))?;
            let shares = [0, 1, 2].map(|i| ring.add(x[i], y[i]));
            let register = Register::Number { ring, shares };
            return Ok(Work::Put { d, register });
        }
        Order::Scale { x, c, .. } => {
            let (ring, x) = number(at(x))?;
            refuse_if(c >= ring.modulus(), 7)?;
            let shares = x.map(|part| ring.mul(c, part));
            let register = Register::Number { ring, shares };
            return Ok(Work::Put { d, register });
        }
        Order::Open { x } => {
            refuse_if(at(x) == Register::Empty, 3)?;
            return Ok(Work::Open { register: at(x) });
        }
        _ => circuit(order, at)?,
    };
    Ok(Work::Gates { d, circuit })
}

/// The sources and fields of an order with gates.
fn circuit(order: Order, at: impl Fn(u64) -> Register) -> Result<Circuit, Refusal> {
    Ok(match order {
        Order::Multiply { x, y, .. } => {
            let (ring, x, y) = pair(at(x), at(y))?;
            Circuit::Multiply { ring, x, y }
        }
        Order::Decompose { x, l, .. } => {
            let (ring, a) = number(at(x))?;
            refuse_if(l < 1 || l > ring.width() - 2, 7)?;
            Circuit::Decompose { ring, a, l }
        }
        Order::Convert { x, f, .. } => {
            let (from, a) = number(at(x))?;
            let to = ring_of(f)?;
            Circuit::Convert { from, to, a }
        }
        Order::Shift { x, s, .. } => {
            let (ring, a) = number(at(x))?;
            refuse_if(s > ring.width() - 3, 7)?;
            Circuit::Shift { ring, a, s }
        }
        Order::Compose { x, f, .. } => {
            let (count, words) = bits(at(x))?;
            let to = ring_of(f)?;
            Circuit::Compose { to, count, words }
        }
        _ => unreachable!("an order without gates"),
    })
}

/// Items or words left from a position on.
fn left(length: usize, position: u64) -> u64 {
    (length as u64).saturating_sub(position)
}

/// 8 for three runs: unequal length, or over 1,000,000 words.
pub(crate) fn check_lengths(lengths: [usize; 3]) -> Result<(), Refusal> {
    let unequal = lengths[0] != lengths[1] || lengths[1] != lengths[2];
    refuse_if(unequal || lengths.iter().any(|&n| n as u64 > LIMIT), 8)
}

/// Writes one word on each channel and moves the position.
fn send(record: &mut Record, lent: &mut Lent, words: Shares) {
    for (channel, word) in lent.channels.iter_mut().zip(words) {
        channel[record.channels as usize] = word;
    }
    record.channels += 1;
}

fn deal(record: &mut Record, lent: &Lent, ring: Ring, v: u64) -> Result<Register, Refusal> {
    refuse_if(lent.dealer.len() as u64 > LIMIT, 8)?;
    refuse_if(left(lent.dealer.len(), record.dealer) < 2, 9)?;
    let at = record.dealer as usize;
    let [r0, r1] = [lent.dealer[at], lent.dealer[at + 1]];
    refuse_if(r0 >= ring.modulus() || r1 >= ring.modulus(), 10)?;
    record.dealer += 2;
    let shares = [r0, r1, ring.sub(ring.sub(v, r0), r1)];
    Ok(Register::Number { ring, shares })
}

fn open(record: &mut Record, lent: &mut Lent, register: Register) -> Result<u64, Refusal> {
    let (Register::Number { shares, .. } | Register::Bits { shares, .. }) = register else {
        unreachable!("an empty register is refused before");
    };
    let lengths = lent.channels.each_ref().map(|c| c.len());
    check_lengths(lengths)?;
    refuse_if(left(lengths[0], record.channels) < 1, 11)?;
    // 01: "unit i sends sub-share i+1"
    send(record, lent, [shares[1], shares[2], shares[0]]);
    Ok(register.value())
}

/// 01: "All with gates, last": 8, 9, 11, then 10.
fn check_gates(record: &Record, lent: &Lent, moduli: &[u64]) -> Result<(), Refusal> {
    let tapes = lent.masks.map(|tape| tape.len());
    let channels = lent.channels.each_ref().map(|c| c.len());
    check_lengths(tapes)?;
    check_lengths(channels)?;
    refuse_if(left(tapes[0], record.masks) < moduli.len() as u64, 9)?;
    refuse_if(left(channels[0], record.channels) < moduli.len() as u64, 11)?;
    let in_range = |tape: &[u64]| {
        let items = &tape[record.masks as usize..];
        items.iter().zip(moduli).all(|(item, m)| item < m)
    };
    refuse_if(!lent.masks.iter().all(|tape| in_range(tape)), 10)
}

fn run(record: &mut Record, lent: &mut Lent, circuit: Circuit) -> Result<(Register, u64), Refusal> {
    let moduli = circuit.moduli();
    check_gates(record, lent, &moduli)?;
    let items = lent.masks.map(|tape| &tape[record.masks as usize..]);
    let mut gates = Gates::new(items, &moduli);
    let register = circuit.run(&mut gates);
    assert_eq!(gates.sent.len(), moduli.len(), "gates of {circuit:?}");
    let spent = gates.sent.len() as u64;
    for words in gates.sent {
        send(record, lent, words);
    }
    record.masks += spent;
    Ok((register, spent))
}

fn attempt(record: &mut Record, order: Order, lent: &mut Lent) -> Result<Answer, Refusal> {
    let mut answer = Answer {
        refusal: 0,
        value: 0,
        gates: 0,
    };
    match work(record, order)? {
        Work::Deal { d, ring, v } => record.registers[d] = deal(record, lent, ring, v)?,
        Work::Put { d, register } => record.registers[d] = register,
        Work::Gates { d, circuit } => {
            (record.registers[d], answer.gates) = run(record, lent, circuit)?
        }
        Work::Open { register } => answer.value = open(record, lent, register)?,
    }
    Ok(answer)
}

/// One order. A refused one changes nothing and answers value 0 and 0 gates.
pub fn step(record: &mut Record, order: Order, lent: &mut Lent) -> Answer {
    attempt(record, order, lent).unwrap_or_else(|refusal| Answer {
        refusal,
        value: 0,
        gates: 0,
    })
}
