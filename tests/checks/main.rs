//! Self-checks of the reference: the figures of 01, the edges of every check
//! and long runs of random sharings against 01's formulas.

mod batches;
mod bench;
mod figures;
mod gates;
mod layouts;
mod lines;
mod refusals;
mod tapes;
mod traces;
mod values;

fn main() {}
