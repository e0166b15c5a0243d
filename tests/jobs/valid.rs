//! Jobs of accepted orders of all kinds in all rings.

use crate::draw::Draw;
use crate::orders::{sensible, Needs};
use crate::writer::Writer;
use reference::order::Order;

/// An order that can be accepted, of `most` gates at most.
pub fn choose(draw: &mut Draw, writer: &Writer, most: usize) -> Order {
    let mut order = sensible(draw, writer.record());
    for _ in 0..12 {
        let small = match writer.needs(order) {
            Needs::Masks(moduli) => moduli.len() <= most,
            _ => true,
        };
        if small && writer.fits(order) {
            break;
        }
        order = sensible(draw, writer.record());
    }
    order
}

pub fn job(draw: &mut Draw) -> Vec<u8> {
    let mut writer = Writer::new(draw.chance(70));
    let most = draw.pick(&[5, 12, 40, 120, 512]);
    let orders = 1_000 + draw.below(600);
    while writer.orders < orders && writer.words_left() > 0 {
        let order = choose(draw, &writer, most);
        let [_, d, ..] = order.words();
        writer.supplied(draw, order);
        if draw.chance(30) {
            writer.order(Order::Open { x: d });
        }
        if draw.chance(12) {
            writer.release();
        }
    }
    writer.finish(draw)
}
