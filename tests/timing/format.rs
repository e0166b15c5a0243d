//! How a call goes to the traced caller and comes back, in words.
//!
//! A round is STEP, PREPARE or BATCH, the numbers that it takes (a preparation's code and 0, a batch's width and bits), the places
//! of the runs, and the words given of each run. Back come the number returned and, of each run that a call may write, the given
//! words as the call left them.

/// Order, record, three mask tapes, dealer's tape, three channels, answer; then a batch's three runs of sub-shares and of results.
/// A preparation takes its raw words from the dealer's tape and fills the first channel.
pub const RUNS: usize = 16;
pub const WRITTEN: [usize; 8] = [1, 6, 7, 8, 9, 13, 14, 15];

pub const STEP: u64 = 0;
pub const PREPARE: u64 = 1;
pub const BATCH: u64 = 2;

/// Of each run, how many words are lent, where the given ones start, and how many are given.
pub type Places = [[u64; 3]; RUNS];

/// The words that there are of each run: some more than 01 allows.
pub const ROOM: usize = 1_000_064;
