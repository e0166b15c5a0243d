//! A second program for the machine of 01 ("The three-unit survey set"),
//! written from that paper alone, and for what 02 adds to it. It favours
//! plain 128-bit remainders and lists of single shared bits over speed.

pub mod batch;
pub mod circuit;
pub mod gate;
pub mod job;
pub mod layout;
pub mod machine;
pub mod order;
pub mod record;
pub mod ring;
pub mod tape;
