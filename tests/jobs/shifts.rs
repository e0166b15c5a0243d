//! Jobs that shift by every amount in every ring, of figures about each half and of any size.

use crate::draw::Draw;
use crate::writer::{Spoil, Writer};
use reference::order::Order;
use reference::record::Register;
use reference::ring::Ring;

const SEED: u64 = 7;

/// A figure that leaves half of 2^s, one that leaves just less, the largest with 4a below p, and any of the ring.
fn figures(draw: &mut Draw, ring: Ring, s: u64) -> [u64; 4] {
    let l = ring.width() - 2;
    let step = 1 << s;
    let [at_half, other] = [0; 2].map(|_| step * draw.below(1 << (l - s)) + step / 2);
    let any = draw.item(ring.modulus());
    [at_half, other - u64::from(s > 0), (1 << l) - 1, any]
}

/// Deals a figure, shifts it with one item too few and with all, and opens what it gives.
fn job(draw: &mut Draw, ring: Ring, s: u64, v: u64) -> Vec<u8> {
    let mut writer = Writer::new(false);
    let e = ring.width();
    writer.supplied(draw, Order::Deal { d: 3, e, v });
    let shift = Order::Shift { d: 8, x: 3, s };
    writer.supply(draw, shift, 1, Spoil::Not);
    writer.order(shift);
    writer.supplied(draw, shift);
    let shifted = writer.record().registers[8];
    assert!(matches!(shifted, Register::Number { .. }), "not accepted");
    writer.order(Order::Open { x: 8 });
    writer.finish(draw)
}

pub fn jobs() -> Vec<Vec<u8>> {
    let mut draw = Draw::new(SEED);
    let mut jobs = Vec::new();
    for ring in Ring::all() {
        for s in 0..=ring.width() - 3 {
            for v in figures(&mut draw, ring, s) {
                jobs.push(job(&mut draw, ring, s, v));
            }
        }
    }
    jobs
}
