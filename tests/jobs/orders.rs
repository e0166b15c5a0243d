//! Random orders for a record: right ones, and ones near the edges.

use crate::draw::Draw;
use reference::machine::{work, Work};
use reference::order::Order;
use reference::record::{Record, Register};
use reference::ring::Ring;

const BIG: u64 = u64::MAX;

/// Which tape an order takes from, and what each item must be below.
pub enum Needs {
    Masks(Vec<u64>),
    Dealer(Vec<u64>),
    Nothing,
}

pub fn needs(record: &Record, order: Order) -> Needs {
    match work(record, order) {
        Ok(Work::Gates { circuit, .. }) => Needs::Masks(circuit.moduli()),
        Ok(Work::Deal { ring, .. }) => Needs::Dealer(vec![ring.modulus(); 2]),
        _ => Needs::Nothing,
    }
}

/// The places of number registers, with their rings.
fn numbers(record: &Record) -> Vec<(u64, Ring)> {
    let places = (0..).zip(&record.registers);
    places
        .filter_map(|(place, register)| match register {
            Register::Number { ring, .. } => Some((place, *ring)),
            _ => None,
        })
        .collect()
}

fn places(record: &Record, wanted: impl Fn(&Register) -> bool) -> Vec<u64> {
    let places = (0..).zip(&record.registers);
    places
        .filter_map(|(place, register)| wanted(register).then_some(place))
        .collect()
}

/// The fields of a number order, none without a source.
fn number_fields(draw: &mut Draw, record: &Record, kind: u64, d: u64) -> Option<Vec<u64>> {
    let numbers = numbers(record);
    let (x, ring) = draw.pick_any(&numbers)?;
    let third = match kind {
        2 | 4 => {
            let alike: Vec<_> = numbers.iter().filter(|n| n.1 == ring).collect();
            draw.pick(&alike).0
        }
        3 => draw.item(ring.modulus()),
        5 => 1 + draw.item(ring.width() - 2),
        6 => draw.ring().width(),
        _ => draw.item(ring.width() - 2),
    };
    Some(vec![d, x, third])
}

/// A destination, seldom above 9 so that some registers stay empty.
fn destination(draw: &mut Draw) -> u64 {
    if draw.chance(4) {
        draw.below(16)
    } else {
        draw.below(10)
    }
}

fn fields(draw: &mut Draw, record: &Record, kind: u64) -> Option<Vec<u64>> {
    let d = destination(draw);
    match kind {
        1 => {
            let ring = draw.ring();
            Some(vec![d, ring.width(), draw.item(ring.modulus())])
        }
        8 => {
            let bits = places(record, |r| matches!(r, Register::Bits { .. }));
            let x = draw.pick_any(&bits)?;
            Some(vec![d, x, draw.ring().width()])
        }
        9 => {
            let held = places(record, |r| *r != Register::Empty);
            Some(vec![draw.pick_any(&held)?])
        }
        _ => number_fields(draw, record, kind, d),
    }
}

/// An order that passes the checks 2 to 7 on this record.
pub fn sensible(draw: &mut Draw, record: &Record) -> Order {
    let kind = 1 + draw.below(9);
    let (kind, fields) = match fields(draw, record, kind) {
        Some(fields) => (kind, fields),
        None => (1, fields(draw, record, 1).unwrap()),
    };
    Order::new(kind, &fields).unwrap()
}

/// Register 15, a number above it or, mostly, one of the usual ones.
fn edgy_register(draw: &mut Draw, usual: u64) -> u64 {
    match draw.below(40) {
        0 => 16,
        1 => draw.pick(&[17, 31, 255, 256, 1 << 32, (1 << 32) + 3, 1 << 63, BIG]),
        2 => 15,
        _ => usual,
    }
}

fn edgy_source(draw: &mut Draw) -> u64 {
    let usual = draw.below(16);
    edgy_register(draw, usual)
}

fn edgy_width(draw: &mut Draw) -> u64 {
    const OTHERS: [u64; 14] = [
        0,
        1,
        2,
        12,
        14,
        30,
        32,
        60,
        62,
        64,
        (1 << 32) + 13,
        (1 << 32) + 31,
        1 << 63,
        BIG,
    ];
    if draw.chance(70) {
        draw.ring().width()
    } else {
        draw.pick(&OTHERS)
    }
}

/// A number about the modulus of a ring.
fn edgy_number(draw: &mut Draw, ring: Ring) -> u64 {
    let p = ring.modulus();
    let inside = draw.below(p);
    draw.pick(&[0, 1, p - 2, p - 1, p, p + 1, 2 * p, BIG, inside, inside])
}

/// A bit count or shift about the ends of its range.
fn edgy_count(draw: &mut Draw, ring: Ring) -> u64 {
    let e = ring.width();
    let any = draw.below(e);
    draw.pick(&[0, 1, 2, e - 4, e - 3, e - 2, e - 1, e, any, any, 64, BIG])
}

/// An order with fields at the edges, right or wrong.
pub fn edgy(draw: &mut Draw, record: &Record) -> Order {
    let kind = 1 + draw.below(9);
    let usual = destination(draw);
    let d = edgy_register(draw, usual);
    let x = edgy_source(draw);
    let ring = match record.registers.get(x as usize) {
        Some(Register::Number { ring, .. }) => *ring,
        _ => draw.ring(),
    };
    let fields = match kind {
        1 => {
            let width = edgy_width(draw);
            let ring = Ring::of_width(width).unwrap_or(ring);
            vec![d, width, edgy_number(draw, ring)]
        }
        2 | 4 => vec![d, x, edgy_source(draw)],
        3 => vec![d, x, edgy_number(draw, ring)],
        5 | 7 => vec![d, x, edgy_count(draw, ring)],
        6 | 8 => vec![d, x, edgy_width(draw)],
        _ => vec![x],
    };
    Order::new(kind, &fields).unwrap()
}
