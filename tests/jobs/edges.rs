//! Jobs near the edges of every check.

use crate::draw::Draw;
use crate::orders::edgy;
use crate::valid::choose;
use crate::writer::{Spoil, Writer};
use reference::order::Order;

/// Gates of the orders in one scene at most, so that tapes last.
const MOST: usize = 24;

/// A tape one item short of the order, then exactly long enough.
fn short_then_enough(draw: &mut Draw, writer: &mut Writer) {
    let order = choose(draw, writer, MOST);
    writer.supply(draw, order, 1, Spoil::Not);
    writer.order(order);
    writer.supplied(draw, order);
}

/// An item out of range somewhere among those the order takes.
fn spoilt_item(draw: &mut Draw, writer: &mut Writer, spoil: Spoil) {
    let order = choose(draw, writer, MOST);
    writer.supply(draw, order, 0, spoil);
    writer.order(order);
}

/// Openings until just a few channel words are left.
fn crowd(draw: &mut Draw, writer: &mut Writer) {
    let deal = Order::Deal { d: 7, e: 13, v: 5 };
    writer.supplied(draw, deal);
    let keep = draw.place(12);
    for _ in keep..writer.words_left() {
        writer.order(Order::Open { x: 7 });
    }
}

/// Tape lines up to the last that is taken, and a few more.
fn overflow(draw: &mut Draw, writer: &mut Writer) {
    let (masks, dealer) = writer.lines_left();
    if draw.chance(50) {
        for _ in 0..masks + 1 + draw.place(3) {
            writer.mask_line([0; 3].map(|_| draw.below(2)));
        }
    } else {
        for _ in 0..dealer + 1 + draw.place(3) {
            let item = draw.below(8191);
            writer.dealer_line(item);
        }
    }
}

/// 01: shift by 0 in ring 61 takes 296 items. "With 295 items left: 9."
fn longest_order(draw: &mut Draw, writer: &mut Writer) {
    let v = draw.item(1 << 59);
    writer.supplied(draw, Order::Deal { d: 15, e: 61, v });
    let shift = Order::Shift { d: 14, x: 15, s: 0 };
    writer.supply(draw, shift, 1, Spoil::Not);
    writer.order(shift);
    writer.supplied(draw, shift);
    writer.order(Order::Open { x: 14 });
}

fn scene(draw: &mut Draw, writer: &mut Writer, late: bool) {
    match draw.below(100) {
        0..=24 => {
            let order = choose(draw, writer, MOST);
            writer.supplied(draw, order);
        }
        25..=69 => {
            let order = edgy(draw, writer.record());
            writer.order(order);
        }
        70..=77 => {
            let order = edgy(draw, writer.record());
            if writer.fits(order) {
                writer.supply(draw, order, 0, Spoil::Not);
            }
            writer.order(order);
        }
        78..=85 => short_then_enough(draw, writer),
        86..=97 if late => spoilt_item(draw, writer, Spoil::Hard),
        86..=97 => spoilt_item(draw, writer, Spoil::Softly),
        98 if late => overflow(draw, writer),
        99 if late => crowd(draw, writer),
        _ => writer.order(Order::Open { x: draw.below(17) }),
    }
}

pub fn job(draw: &mut Draw) -> Vec<u8> {
    let mut writer = Writer::new(false);
    let orders = 1_000 + draw.below(600);
    match draw.below(10) {
        0 => crowd(draw, &mut writer),
        1 => overflow(draw, &mut writer),
        2 | 3 => longest_order(draw, &mut writer),
        _ => (),
    }
    let calm = orders * (40 + draw.below(50)) / 100;
    while writer.orders < orders {
        let late = writer.orders > calm;
        scene(draw, &mut writer, late);
    }
    writer.finish(draw)
}
