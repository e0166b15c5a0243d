//! The machine of 01 in plain Rust, written to be fast: what the benchmark holds Rattle against.

pub mod batch;
pub mod chains;
mod circuits;
mod gates;
pub mod job;
pub mod layout;
mod record;
mod ring;
mod squares;
pub mod step;
