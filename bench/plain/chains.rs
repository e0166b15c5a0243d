//! Loops over products and over gates: the work of crates/timing.

use crate::gates::{ring_words, Sharing};
use crate::ring::Ring;

/// Products of two slices; a word out of range gives 0.
pub fn multiply(width: u64, xs: &[u64], ys: &[u64], zs: &mut [u64]) -> u64 {
    let Some(r) = Ring::of_width(width) else {
        return 0;
    };
    if xs.len() != zs.len() || ys.len() != zs.len() {
        return 0;
    }
    for i in 0..zs.len() {
        let (x, y) = (xs[i], ys[i]);
        zs[i] = if x < r.p && y < r.p { r.mul(x, y) } else { 0 };
    }
    zs.len() as u64
}

/// The three words at the head of a run.
fn triple(words: &[u64]) -> Sharing {
    [words[0], words[1], words[2]]
}

/// A chain of gates, each from the last one's sharing, up to an item out of range.
pub fn gates(width: u64, [x, y, items]: [&[u64]; 3], [c0, c1, c2]: [&mut [u64]; 3]) -> u64 {
    let Some(r) = Ring::of_width(width) else {
        return 0;
    };
    let n = c0.len();
    if x.len() != 3 || y.len() != 3 || c1.len() != n || c2.len() != n || items.len() / 3 < n {
        return 0;
    }
    let in_range = |s: Sharing| s.iter().all(|&word| word < r.p);
    let (mut z, y) = (triple(x), triple(y));
    if !in_range(z) || !in_range(y) {
        return 0;
    }
    for i in 0..n {
        let t = triple(&items[3 * i..]);
        if !in_range(t) {
            return i as u64;
        }
        z = ring_words(r, z, y, t);
        [c0[i], c1[i], c2[i]] = z;
    }
    n as u64
}
