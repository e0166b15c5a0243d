//! One order: the checks in 01's order, then the gates.

use crate::circuits;
use crate::gates::{Lent, Sharing};
use crate::record::{register, store_bits, store_number, Record};
use crate::record::{BITS, CHANNELS_AT, DEALER_AT, EMPTY, LIMIT, MASKS_AT, NUMBER};
use crate::ring::Ring;
pub use reference::order::Order;

/// 01, "Why an order is refused".
pub type Refusal = u64;

/// The kinds with three fields.
pub fn with_three(kind: u64, a: u64, b: u64, c: u64) -> Option<Order> {
    Some(match kind {
        1 => Order::Deal { d: a, e: b, v: c },
        2 => Order::Add { d: a, x: b, y: c },
        3 => Order::Scale { d: a, x: b, c },
        4 => Order::Multiply { d: a, x: b, y: c },
        5 => Order::Decompose { d: a, x: b, l: c },
        6 => Order::Convert { d: a, x: b, f: c },
        7 => Order::Shift { d: a, x: b, s: c },
        8 => Order::Compose { d: a, x: b, f: c },
        _ => return None,
    })
}

/// The registers that it names, the destination first.
fn registers(order: Order) -> [u64; 3] {
    match order {
        Order::Deal { d, .. } => [d; 3],
        Order::Open { x } => [x; 3],
        Order::Add { d, x, y } | Order::Multiply { d, x, y } => [d, x, y],
        Order::Scale { d, x, .. }
        | Order::Decompose { d, x, .. }
        | Order::Convert { d, x, .. }
        | Order::Shift { d, x, .. }
        | Order::Compose { d, x, .. } => [d, x, x],
    }
}

/// The seven runs of words.
pub struct Runs<'a> {
    pub masks: [&'a [u64]; 3],
    pub dealer: &'a [u64],
    pub channels: [&'a mut [u64]; 3],
}

#[derive(Default)]
pub struct Answer {
    pub refusal: Refusal,
    pub value: u64,
    pub gates: u64,
}

impl Answer {
    pub fn refused(refusal: Refusal) -> Answer {
        Answer {
            refusal,
            ..Answer::default()
        }
    }
}

pub fn refuse_if(met: bool, refusal: Refusal) -> Result<(), Refusal> {
    if met {
        Err(refusal)
    } else {
        Ok(())
    }
}

fn number(record: &Record, x: u64) -> Result<(Ring, Sharing), Refusal> {
    match register(record, x) {
        [EMPTY, ..] => Err(3),
        [BITS, ..] => Err(4),
        [_, e, shares @ ..] => Ok((Ring::new(e), shares)),
    }
}

fn bits(record: &Record, x: u64) -> Result<(u64, Sharing), Refusal> {
    match register(record, x) {
        [EMPTY, ..] => Err(3),
        [NUMBER, ..] => Err(4),
        [_, l, shares @ ..] => Ok((l, shares)),
    }
}

/// 3 before 4, of either source; then 6.
fn pair(record: &Record, x: u64, y: u64) -> Result<(Ring, Sharing, Sharing), Refusal> {
    let empty = |n: u64| register(record, n)[0] == EMPTY;
    refuse_if(empty(x) || empty(y), 3)?;
    let (r, x) = number(record, x)?;
    let (other, y) = number(record, y)?;
    refuse_if(r != other, 6)?;
    Ok((r, x, y))
}

fn ring(width: u64) -> Result<Ring, Refusal> {
    Ring::of_width(width).ok_or(5)
}

pub fn uneven(lengths: [usize; 3]) -> bool {
    lengths[0] != lengths[1] || lengths[1] != lengths[2] || lengths[0] as u64 > LIMIT
}

fn left(length: usize, at: u64) -> u64 {
    (length as u64).saturating_sub(at)
}

/// All words of three tapes united, each as `seen` makes it: one pass, and no word is tested by itself.
fn united([t0, t1, t2]: [&[u64]; 3], seen: impl Fn(u64) -> u64) -> u64 {
    let words = t0.iter().zip(t1).zip(t2);
    words.fold(0, |all, ((&a, &b), &c)| all | seen(a) | seen(b) | seen(c))
}

/// Whether an item is no bit.
fn any_wider(tapes: [&[u64]; 3]) -> bool {
    united(tapes, |item| item) > 1
}

/// Whether an item is p or more: it has a bit from e up, or the number after it has.
pub fn any_outside(r: Ring, tapes: [&[u64]; 3]) -> bool {
    united(tapes, |item| item | item.wrapping_add(1)) > r.p
}

/// Checks 8, 9, 11 and 10 for gates on bits and then in ring r; the runs from the positions on.
fn supply<'a>(
    record: &Record,
    runs: Runs<'a>,
    on_bits: u64,
    in_ring: u64,
    r: Ring,
) -> Result<Lent<'a>, Refusal> {
    let lengths = runs.channels.each_ref().map(|channel| channel.len());
    refuse_if(uneven(runs.masks.map(<[u64]>::len)) || uneven(lengths), 8)?;
    let n = on_bits + in_ring;
    refuse_if(left(runs.masks[0].len(), record[MASKS_AT]) < n, 9)?;
    refuse_if(left(lengths[0], record[CHANNELS_AT]) < n, 11)?;
    let (middle, n) = (on_bits as usize, n as usize);
    let from = record[MASKS_AT] as usize;
    let masks = runs.masks.map(|tape| &tape[from..from + n]);
    let outside = any_wider(masks.map(|tape| &tape[..middle]))
        | any_outside(r, masks.map(|tape| &tape[middle..]));
    refuse_if(outside, 10)?;
    let from = record[CHANNELS_AT] as usize;
    let channels = runs.channels.map(|channel| &mut channel[from..from + n]);
    Ok(Lent { masks, channels })
}

/// The gates that an order has spent.
type Spent = Result<u64, Refusal>;

fn deal(record: &mut Record, dealer: &[u64], d: u64, e: u64, v: u64) -> Spent {
    let r = ring(e)?;
    refuse_if(v >= r.p, 7)?;
    refuse_if(dealer.len() as u64 > LIMIT, 8)?;
    refuse_if(left(dealer.len(), record[DEALER_AT]) < 2, 9)?;
    let at = record[DEALER_AT] as usize;
    let [r0, r1] = [dealer[at], dealer[at + 1]];
    refuse_if(r0 >= r.p || r1 >= r.p, 10)?;
    record[DEALER_AT] += 2;
    store_number(record, d, r, [r0, r1, r.sub(r.sub(v, r0), r1)]);
    Ok(0)
}

fn add(record: &mut Record, d: u64, x: u64, y: u64) -> Spent {
    let (r, x, y) = pair(record, x, y)?;
    let sum = |i: usize| r.add(x[i], y[i]);
    store_number(record, d, r, [sum(0), sum(1), sum(2)]);
    Ok(0)
}

fn scale(record: &mut Record, d: u64, x: u64, c: u64) -> Spent {
    let (r, x) = number(record, x)?;
    refuse_if(c >= r.p, 7)?;
    store_number(record, d, r, x.map(|part| r.mul(part, c)));
    Ok(0)
}

/// Moves the positions past an order's gates.
fn spend(record: &mut Record, gates: u64) -> Spent {
    record[MASKS_AT] += gates;
    record[CHANNELS_AT] += gates;
    Ok(gates)
}

fn multiply(record: &mut Record, runs: Runs, d: u64, x: u64, y: u64) -> Spent {
    let (r, x, y) = pair(record, x, y)?;
    let mut lent = supply(record, runs, 0, 1, r)?;
    store_number(record, d, r, lent.ring_gate(0, r, x, y));
    spend(record, 1)
}

fn decompose(record: &mut Record, runs: Runs, d: u64, x: u64, l: u64) -> Spent {
    let (r, a) = number(record, x)?;
    refuse_if(l < 1 || l > r.width - 2, 7)?;
    let gates = 3 * l + 1;
    let lent = supply(record, runs, gates, 0, r)?;
    let z = circuits::decompose(lent, r, a, l as usize);
    store_bits(record, d, l, z);
    spend(record, gates)
}

fn convert(record: &mut Record, runs: Runs, d: u64, x: u64, f: u64) -> Spent {
    let (e, a) = number(record, x)?;
    let f = ring(f)?;
    let lent = supply(record, runs, 1, 4, f)?;
    store_number(record, d, f, circuits::convert(lent, e, f, a));
    spend(record, 5)
}

fn shift(record: &mut Record, runs: Runs, d: u64, x: u64, s: u64) -> Spent {
    let (r, a) = number(record, x)?;
    refuse_if(s > r.width - 3, 7)?;
    let l = r.width - 2;
    let (on_bits, in_ring) = (3 * l + 1, 2 * (l - s));
    let lent = supply(record, runs, on_bits, in_ring, r)?;
    let z = circuits::shift(lent, r, a, s as usize);
    store_number(record, d, r, z);
    spend(record, on_bits + in_ring)
}

fn compose(record: &mut Record, runs: Runs, d: u64, x: u64, f: u64) -> Spent {
    let (l, w) = bits(record, x)?;
    let f = ring(f)?;
    let lent = supply(record, runs, 0, 2 * l, f)?;
    let z = circuits::compose(lent, f, w, 0, l as usize);
    store_number(record, d, f, z);
    spend(record, 2 * l)
}

fn open(record: &mut Record, channels: [&mut [u64]; 3], x: u64) -> Result<u64, Refusal> {
    let [tag, size, shares @ ..] = register(record, x);
    refuse_if(tag == EMPTY, 3)?;
    let lengths = channels.each_ref().map(|channel| channel.len());
    refuse_if(uneven(lengths), 8)?;
    refuse_if(left(lengths[0], record[CHANNELS_AT]) < 1, 11)?;
    let at = record[CHANNELS_AT] as usize;
    let ([c0, c1, c2], [s0, s1, s2]) = (channels, shares);
    [c0[at], c1[at], c2[at]] = [s1, s2, s0];
    record[CHANNELS_AT] += 1;
    Ok(match tag {
        BITS => s0 ^ s1 ^ s2,
        _ => Ring::new(size).reduce(s0 + s1 + s2),
    })
}

#[inline(always)]
fn attempt(record: &mut Record, order: Order, runs: Runs) -> Result<Answer, Refusal> {
    refuse_if(registers(order).iter().any(|&n| n > 15), 2)?;
    let gates = match order {
        Order::Deal { d, e, v } => deal(record, runs.dealer, d, e, v)?,
        Order::Add { d, x, y } => add(record, d, x, y)?,
        Order::Scale { d, x, c } => scale(record, d, x, c)?,
        Order::Multiply { d, x, y } => multiply(record, runs, d, x, y)?,
        Order::Decompose { d, x, l } => decompose(record, runs, d, x, l)?,
        Order::Convert { d, x, f } => convert(record, runs, d, x, f)?,
        Order::Shift { d, x, s } => shift(record, runs, d, x, s)?,
        Order::Compose { d, x, f } => compose(record, runs, d, x, f)?,
        Order::Open { x } => {
            let value = open(record, runs.channels, x)?;
            return Ok(Answer {
                value,
                ..Answer::default()
            });
        }
    };
    Ok(Answer {
        gates,
        ..Answer::default()
    })
}

/// One order on a sound record, which it leaves sound; a refused one changes nothing.
#[inline(always)]
pub fn step(record: &mut Record, order: Order, runs: Runs) -> Answer {
    attempt(record, order, runs).unwrap_or_else(Answer::refused)
}
