//! The library under test, called as the reference is.

#[path = "../../include/survey.rs"]
pub mod survey;

use reference::batch::Batch;
use reference::machine::Lent;

pub fn step(order: &[u64], record: &mut [u64], lent: &mut Lent, answer: &mut [u64]) -> u64 {
    let [c0, c1, c2] = &mut lent.channels;
    survey::step(order, record, lent.masks, lent.dealer, [c0, c1, c2], answer)
}

pub fn batch(batch: &mut Batch, answer: &mut [u64]) -> u64 {
    let Batch {
        width,
        bits,
        shares,
        masks,
        channels: [c0, c1, c2],
        results: [z0, z1, z2],
    } = batch;
    let (channels, results): ([&mut [u64]; 3], _) = ([c0, c1, c2], [&mut z0[..], z1, z2]);
    survey::batch(*width, *bits, *shares, *masks, channels, results, answer)
}
