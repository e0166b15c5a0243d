//! The program that is traced: takes rounds from standard input, makes each call, writes what it left to standard output.
//!
//! read(2) puts the words where the library is lent them, and they stay where they are for all rounds, so nothing but the
//! library depends on them between two marks. A mark is a store to TRACE_MARK.

mod format;
#[allow(dead_code)]
#[path = "../../include/survey.rs"]
mod survey;

use format::{Places, BATCH, PREPARE, ROOM, RUNS, STEP, WRITTEN};
use std::arch::asm;

type Runs = [Vec<u64>; RUNS];
type Lent<'a> = [&'a mut [u64]; RUNS];

extern "C" {
    fn read(file: i32, to: *mut u8, bytes: usize) -> isize;
    fn write(file: i32, from: *const u8, bytes: usize) -> isize;
}

#[no_mangle]
static mut TRACE_MARK: u64 = 0;

#[inline(always)]
fn mark() {
    // SAFETY: there is one thread.
    unsafe { (&raw mut TRACE_MARK).write_volatile(1) }
}

/// The fault that the caller is built with, if any, on a sub-share. In instructions, so that no compiler takes it away, and
/// such that a tracer which optimises would miss it: of the branch both ways lead to the same place, one by a second test, and
/// what is read by the index is dropped at once.
#[no_mangle]
#[inline(never)]
fn planted(share: u64) {
    static TABLE: [u64; 8] = [0; 8];
    let share = share % 8;
    // SAFETY: nothing is written, the index is below 8 and the divisor is not 0.
    unsafe {
        if cfg!(planted = "branch") {
            asm!("jmp 3f", "2:", "jmp 4f", "3:", "test {0:e}, 1", "jnz 2b", "test {0:e}, 1", "jz 2b", "4:", in(reg) share);
        }
        if cfg!(planted = "index") {
            asm!("mov {0}, [{1} + 8*{0}]", "xor {0:e}, {0:e}", inout(reg) share => _, in(reg) &TABLE);
        }
        if cfg!(planted = "division") {
            asm!("div {0:e}", in(reg) share + 1, inout("eax") 1000 => _, inout("edx") 0 => _);
        }
    }
}

#[no_mangle]
#[inline(never)]
fn traced_step(lent: Lent) -> u64 {
    let [order, record, m0, m1, m2, dealer, c0, c1, c2, answer, ..] = lent;
    mark();
    planted(record[2]);
    let returned = survey::step(order, record, [m0, m1, m2], dealer, [c0, c1, c2], answer);
    mark();
    returned
}

#[no_mangle]
#[inline(never)]
fn traced_prepare(code: u64, lent: Lent) -> u64 {
    let [_, _, _, _, _, raw, run, _, _, answer, ..] = lent;
    mark();
    let returned = survey::prepare(code, raw, run, answer);
    mark();
    returned
}

#[no_mangle]
#[inline(never)]
fn traced_batch(width: u64, bits: u64, lent: Lent) -> u64 {
    let [_, _, m0, m1, m2, _, c0, c1, c2, answer, a0, a1, a2, z0, z1, z2] = lent;
    let (shares, masks) = ([&*a0, a1, a2], [&*m0, m1, m2]);
    mark();
    planted(shares[0].first().copied().unwrap_or(0));
    let (channels, results) = ([c0, c1, c2], [z0, z1, z2]);
    let returned = survey::batch(width, bits, shares, masks, channels, results, answer);
    mark();
    returned
}

fn bytes(words: &mut [u64]) -> &mut [u8] {
    // SAFETY: every byte may have every value.
    unsafe { std::slice::from_raw_parts_mut(words.as_mut_ptr().cast(), size_of_val(words)) }
}

/// Fills the words from standard input; false at its end.
fn fill(words: &mut [u64]) -> bool {
    let mut left = bytes(words);
    while !left.is_empty() {
        // SAFETY: so many bytes may be written there.
        let count = unsafe { read(0, left.as_mut_ptr(), left.len()) };
        if count <= 0 {
            return false;
        }
        left = &mut left[count as usize..];
    }
    true
}

/// Writes the words to standard output.
fn send(words: &mut [u64]) {
    let mut left = &*bytes(words);
    while !left.is_empty() {
        // SAFETY: so many bytes may be read there.
        let count = unsafe { write(1, left.as_ptr(), left.len()) };
        assert!(count > 0, "standard output");
        left = &left[count as usize..];
    }
}

/// Of a run, the words that are given.
fn given<'a>(run: &'a mut [u64], place: &[u64; 3]) -> &'a mut [u64] {
    &mut run[place[1] as usize..][..place[2] as usize]
}

fn call([call, first, second]: [u64; 3], runs: &mut Runs, places: &Places) -> u64 {
    let mut places = places.iter();
    let lent = runs
        .each_mut()
        .map(|run| &mut run[..places.next().unwrap()[0] as usize]);
    match call {
        STEP => traced_step(lent),
        PREPARE => traced_prepare(first, lent),
        BATCH => traced_batch(first, second, lent),
        _ => panic!("no call {call}"),
    }
}

/// One round; false where standard input ends.
fn round(runs: &mut Runs) -> bool {
    let (mut head, mut places) = ([0; 3], Places::default());
    if !fill(&mut head) {
        return false;
    }
    let filled = fill(places.as_flattened_mut());
    let mut given_runs = runs.iter_mut().zip(&places);
    assert!(
        filled && given_runs.all(|(run, place)| fill(given(run, place))),
        "standard input"
    );
    send(&mut [call(head, runs, &places)]);
    for k in WRITTEN {
        send(given(&mut runs[k], &places[k]));
    }
    true
}

fn main() {
    let mut runs: Runs = std::array::from_fn(|_| vec![0; ROOM]);
    while round(&mut runs) {}
}
