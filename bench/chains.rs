//! Rows of products and of chains of gates: the static library of crates/timing.

use crate::measure::{measure, Row};
use jobs::draw::Draw;
use std::cell::RefCell;
use std::hint::black_box;

const WIDTHS: [u64; 3] = [13, 31, 61];
/// No power of two: a load waits for a store that lies whole pages away.
const ELEMENTS: usize = 1000;
const ROUNDS: usize = 401;
const TURNS: usize = 50;

/// What crates/timing exports: each slice is a pointer and a length.
mod library {
    extern "C" {
        fn timing_multiply(
            width: u64,
            xs: *const u64,
            xn: usize,
            ys: *const u64,
            yn: usize,
            zs: *mut u64,
            zn: usize,
        ) -> u64;
        fn timing_gate(
            width: u64,
            x: *const u64,
            xn: usize,
            y: *const u64,
            yn: usize,
            items: *const u64,
            tn: usize,
            c0: *mut u64,
            n0: usize,
            c1: *mut u64,
            n1: usize,
            c2: *mut u64,
            n2: usize,
        ) -> u64;
    }

    pub fn multiply(width: u64, xs: &[u64], ys: &[u64], zs: &mut [u64]) -> u64 {
        // SAFETY: each pointer comes with its slice's length, and the function has no `requires`.
        unsafe {
            timing_multiply(
                width,
                xs.as_ptr(),
                xs.len(),
                ys.as_ptr(),
                ys.len(),
                zs.as_mut_ptr(),
                zs.len(),
            )
        }
    }

    pub fn gates(width: u64, [x, y, items]: [&[u64]; 3], [c0, c1, c2]: [&mut [u64]; 3]) -> u64 {
        // SAFETY: as above.
        unsafe {
            timing_gate(
                width,
                x.as_ptr(),
                x.len(),
                y.as_ptr(),
                y.len(),
                items.as_ptr(),
                items.len(),
                c0.as_mut_ptr(),
                c0.len(),
                c1.as_mut_ptr(),
                c1.len(),
                c2.as_mut_ptr(),
                c2.len(),
            )
        }
    }
}

type Multiply = fn(u64, &[u64], &[u64], &mut [u64]) -> u64;
type Gates = fn(u64, [&[u64]; 3], [&mut [u64]; 3]) -> u64;

/// n words below 2^e - 1.
fn words(draw: &mut Draw, width: u64, n: usize) -> Vec<u64> {
    (0..n).map(|_| draw.below((1 << width) - 1)).collect()
}

/// Two factors and the items of a chain.
fn chain(draw: &mut Draw, width: u64) -> [Vec<u64>; 3] {
    [3, 3, 3 * ELEMENTS].map(|n| words(draw, width, n))
}

fn same_products(width: u64, xs: &[u64], ys: &[u64], room: usize) {
    let run = |multiply: Multiply| {
        let mut zs = vec![7; room];
        (multiply(width, xs, ys, &mut zs), zs)
    };
    assert!(
        run(library::multiply) == run(plain::chains::multiply),
        "products differ at width {width}"
    );
}

fn same_gates(width: u64, given: [&[u64]; 3], room: [usize; 3]) {
    let run = |gates: Gates| {
        let mut channels = room.map(|n| vec![7; n]);
        let done = gates(width, given, channels.each_mut().map(|c| &mut c[..]));
        (done, channels)
    };
    assert!(
        run(library::gates) == run(plain::chains::gates),
        "gates differ at width {width}"
    );
}

/// Both sides agree on lengths that do not fit and on other widths.
fn compare_lengths(draw: &mut Draw, width: u64) {
    let (xs, ys) = (words(draw, width, ELEMENTS), words(draw, width, ELEMENTS));
    let [x, y, items] = &chain(draw, width);
    for w in [width, 0, 1, 12, 64] {
        for room in [ELEMENTS, ELEMENTS - 1, 0] {
            same_products(w, &xs, &ys, room);
            same_gates(w, [x, y, items], [room; 3]);
            same_gates(w, [x, y, items], [ELEMENTS, room, ELEMENTS]);
        }
        same_gates(w, [&x[1..], y, items], [ELEMENTS; 3]);
        same_gates(w, [x, y, &items[1..]], [ELEMENTS; 3]);
    }
}

/// Both sides agree on words out of range.
fn compare_ranges(draw: &mut Draw, width: u64) {
    let p = (1 << width) - 1;
    let (mut xs, ys) = (words(draw, width, ELEMENTS), words(draw, width, ELEMENTS));
    let [x, y, mut items] = chain(draw, width);
    for bad in [p, p + 1, u64::MAX] {
        xs[draw.place(ELEMENTS)] = bad;
        same_products(width, &xs, &ys, ELEMENTS);
        same_products(width, &ys, &xs, ELEMENTS);
        same_gates(width, [&[x[0], bad, x[2]], &y, &items], [ELEMENTS; 3]);
        same_gates(width, [&x, &[y[0], y[1], bad], &items], [ELEMENTS; 3]);
        items[draw.place(3 * ELEMENTS)] = bad;
        same_gates(width, [&x, &y, &items], [ELEMENTS; 3]);
    }
}

/// Nanoseconds for one element. The sides write to the same words: how fast a loop is goes by where its slices lie, too.
fn times(mut ours: impl FnMut(), mut theirs: impl FnMut()) -> Vec<f64> {
    let times = measure(ROUNDS, TURNS, &mut [&mut ours, &mut theirs]);
    times.iter().map(|time| time / ELEMENTS as f64).collect()
}

fn multiplication(draw: &mut Draw, width: u64) -> Vec<f64> {
    let (xs, ys) = (&words(draw, width, ELEMENTS), &words(draw, width, ELEMENTS));
    let zs = &RefCell::new(vec![0; ELEMENTS]);
    let side = |multiply: Multiply| {
        move || {
            let mut zs = zs.borrow_mut();
            let zs = black_box(&mut zs[..]);
            black_box(multiply(black_box(width), black_box(xs), black_box(ys), zs));
        }
    };
    times(side(library::multiply), side(plain::chains::multiply))
}

fn gate(draw: &mut Draw, width: u64) -> Vec<f64> {
    let given = &chain(draw, width);
    let channels = &RefCell::new([0; 3].map(|_| vec![0; ELEMENTS]));
    let side = |gates: Gates| {
        move || {
            let given = black_box(given).each_ref().map(|run| &run[..]);
            let mut channels = channels.borrow_mut();
            let channels = black_box(&mut *channels).each_mut().map(|c| &mut c[..]);
            black_box(gates(black_box(width), given, channels));
        }
    };
    times(side(library::gates), side(plain::chains::gates))
}

/// Both sides do the same.
pub fn compare(draw: &mut Draw) {
    for width in WIDTHS {
        compare_lengths(draw, width);
        compare_ranges(draw, width);
    }
}

pub fn rows(draw: &mut Draw) -> Vec<Row> {
    let mut rows_of = |name: &str, times: fn(&mut Draw, u64) -> Vec<f64>| {
        WIDTHS.map(|width| Row {
            name: format!("{name}, ring {width}"),
            times: times(draw, width),
        })
    };
    [rows_of("product", multiplication), rows_of("gate", gate)]
        .into_iter()
        .flatten()
        .collect()
}
