//! Every kind of order, accepted: rings, parameters, positions.

use crate::cases::{At, Case, Register};
use crate::words::Word::{self, Below, Public};
use reference::ring::Ring;

/// Places in the record, alike in all cases: two numbers of the case's ring, one of another, bits, nothing, nothing.
pub const X: u64 = 0;
pub const Y: u64 = 1;
pub const OF_OTHER_RING: u64 = 2;
pub const BITS: u64 = 3;
pub const EMPTY: u64 = 4;
const D: u64 = 5;
/// The last register that `registers` leaves empty.
pub const SPARE: usize = 12;

const NAMES: [&str; 9] = [
    "deal",
    "add",
    "scale",
    "multiply",
    "decompose",
    "convert",
    "shift",
    "compose",
    "open",
];

/// How many bits BITS has, and an order decomposes into, where nothing else is said.
const COUNT: u64 = 11;

fn registers(ring: Ring, count: u64) -> [Register; 16] {
    use Register::{Bits, Empty, Number};
    let [r13, r31, r61] = Ring::all();
    let x = Number(ring);
    let other = Number(if ring == r13 { r31 } else { r13 });
    let [a, b, c] = [Number(r13), Number(r31), Number(r61)];
    let bits = Bits(count);
    let [few, some, most] = [1, 30, 59].map(Bits);
    [
        x, x, other, bits, Empty, Empty, c, most, few, a, b, some, Empty, x, bits, c,
    ]
}

fn field_text(field: Word) -> String {
    match field {
        Public(field) => field.to_string(),
        _ => "secret".to_string(),
    }
}

/// An order of a kind with its fields, on numbers of a ring and on so many bits.
fn order(kind: u64, fields: [Word; 3], ring: Ring, count: u64, at: At) -> Case {
    let [a, b, c] = fields;
    let name = format!(
        "{} {}, ring {}, {count} bits, at the {at:?}",
        NAMES[kind as usize - 1],
        fields.map(field_text).join(" "),
        ring.width()
    );
    Case::order(name, registers(ring, count), [Public(kind), a, b, c], at)
}

/// One order of each kind: those of the table, and those that refusals are made of.
pub fn usual(kind: u64, ring: Ring, at: At) -> Case {
    let (e, p) = (ring.width(), ring.modulus());
    let fields = match kind {
        1 => [Public(D), Public(e), Below(p)],
        2 | 4 => [D, X, Y].map(Public),
        3 => [D, X, p / 3].map(Public),
        5 => [D, X, COUNT].map(Public),
        6 => [D, X, 31].map(Public),
        7 => [D, X, 3].map(Public),
        8 => [D, BITS, e].map(Public),
        _ => [X, 0, 0].map(Public),
    };
    order(kind, fields, ring, COUNT, at)
}

/// Orders on X of a kind, for each value of the last field, at each place.
fn on_x(kind: u64, lasts: &[u64], ring: Ring, places: &[At]) -> Vec<Case> {
    let one = |last: u64, at: At| order(kind, [D, X, last].map(Public), ring, COUNT, at);
    let at_places = |&last: &u64| places.iter().map(move |&at| one(last, at));
    lasts.iter().flat_map(at_places).collect()
}

fn compositions(ring: Ring, at: At) -> Vec<Case> {
    let fields = [D, BITS, ring.width()].map(Public);
    let counts = [1, COUNT, 30, 59];
    counts.map(|count| order(8, fields, ring, count, at)).into()
}

fn openings_of_bits(ring: Ring, at: At) -> Vec<Case> {
    let fields = [BITS, 0, 0].map(Public);
    let counts = [1, COUNT, 59];
    counts.map(|count| order(9, fields, ring, count, at)).into()
}

/// Every kind in a ring. Those with few instructions at all three places.
fn of_ring(ring: Ring) -> Vec<Case> {
    let (e, p) = (ring.width(), ring.modulus());
    let two = [At::Start, At::Middle];
    let three = [At::Start, At::Middle, At::End];
    // 01: "d is the destination, which may equal a source".
    let onto_source =
        |kind, fields: [u64; 3]| order(kind, fields.map(Public), ring, COUNT, At::Middle);
    [
        three.map(|at| usual(1, ring, at)).into(),
        on_x(2, &[Y, X], ring, &two),
        on_x(3, &[0, 1, p / 3, p - 1], ring, &two),
        on_x(4, &[Y, X], ring, &three),
        on_x(5, &[1, (e - 2) / 2, e - 2], ring, &two),
        on_x(6, &Ring::all().map(Ring::width), ring, &three),
        on_x(7, &[0, 3, (e - 3) / 2, e - 3], ring, &two),
        two.map(|at| compositions(ring, at)).concat(),
        three.map(|at| usual(9, ring, at)).into(),
        two.map(|at| openings_of_bits(ring, at)).concat(),
        vec![onto_source(4, [X, X, Y])],
        vec![onto_source(5, [X, X, COUNT])],
        vec![onto_source(8, [BITS, BITS, e])],
    ]
    .concat()
}

pub fn accepted() -> Vec<Case> {
    Ring::all().map(of_ring).concat()
}
