//! The library for Rust programs: every run of words is a slice. include/survey.h has the layout of the words.

/// Returned for words in no layout: 01's refusals end at 13, and of 02's, 14 to 23, `batch` has the last.
pub const MALFORMED: u64 = 100;

/// The length of each of `batch`'s runs of sub-shares and of results.
pub const BATCH_FIGURES: usize = 64;

extern "C" {
    fn survey_step(
        order: *const u64,
        order_length: usize,
        record: *mut u64,
        record_length: usize,
        m0: *const u64,
        m0_length: usize,
        m1: *const u64,
        m1_length: usize,
        m2: *const u64,
        m2_length: usize,
        dealer: *const u64,
        dealer_length: usize,
        c0: *mut u64,
        c0_length: usize,
        c1: *mut u64,
        c1_length: usize,
        c2: *mut u64,
        c2_length: usize,
        answer: *mut u64,
        answer_length: usize,
    ) -> u64;

    fn survey_prepare(
        code: u64,
        raw: *const u64,
        raw_length: usize,
        run: *mut u64,
        run_length: usize,
        answer: *mut u64,
        answer_length: usize,
    ) -> u64;

    fn survey_batch(
        width: u64,
        bits: u64,
        a0: *const u64,
        a0_length: usize,
        a1: *const u64,
        a1_length: usize,
        a2: *const u64,
        a2_length: usize,
        m0: *const u64,
        m0_length: usize,
        m1: *const u64,
        m1_length: usize,
        m2: *const u64,
        m2_length: usize,
        c0: *mut u64,
        c0_length: usize,
        c1: *mut u64,
        c1_length: usize,
        c2: *mut u64,
        c2_length: usize,
        z0: *mut u64,
        z0_length: usize,
        z1: *mut u64,
        z1_length: usize,
        z2: *mut u64,
        z2_length: usize,
        answer: *mut u64,
        answer_length: usize,
    ) -> u64;
}

/// One order on a record, with three mask tapes, the dealer's tape and three channels.
pub fn step(
    order: &[u64],
    record: &mut [u64],
    [m0, m1, m2]: [&[u64]; 3],
    dealer: &[u64],
    [c0, c1, c2]: [&mut [u64]; 3],
    answer: &mut [u64],
) -> u64 {
    // SAFETY: each pointer comes with its slice's length, and no slice that is written overlaps another.
    unsafe {
        survey_step(
            order.as_ptr(),
            order.len(),
            record.as_mut_ptr(),
            record.len(),
            m0.as_ptr(),
            m0.len(),
            m1.as_ptr(),
            m1.len(),
            m2.as_ptr(),
            m2.len(),
            dealer.as_ptr(),
            dealer.len(),
            c0.as_mut_ptr(),
            c0.len(),
            c1.as_mut_ptr(),
            c1.len(),
            c2.as_mut_ptr(),
            c2.len(),
            answer.as_mut_ptr(),
            answer.len(),
        )
    }
}

/// A run of items from raw words, for a ring code.
pub fn prepare(code: u64, raw: &[u64], run: &mut [u64], answer: &mut [u64]) -> u64 {
    // SAFETY: as above.
    unsafe {
        survey_prepare(
            code,
            raw.as_ptr(),
            raw.len(),
            run.as_mut_ptr(),
            run.len(),
            answer.as_mut_ptr(),
            answer.len(),
        )
    }
}

/// 64 figures of a ring decomposed into so many bits each: sub-shares, mask tapes, channels, results.
/// Every call needs mask tapes of its own.
#[rustfmt::skip]
pub fn batch(
    width: u64,
    bits: u64,
    [a0, a1, a2]: [&[u64]; 3],
    [m0, m1, m2]: [&[u64]; 3],
    [c0, c1, c2]: [&mut [u64]; 3],
    [z0, z1, z2]: [&mut [u64]; 3],
    answer: &mut [u64],
) -> u64 {
    // SAFETY: as above.
    unsafe {
        survey_batch(
            width, bits,
            a0.as_ptr(), a0.len(), a1.as_ptr(), a1.len(), a2.as_ptr(), a2.len(),
            m0.as_ptr(), m0.len(), m1.as_ptr(), m1.len(), m2.as_ptr(), m2.len(),
            c0.as_mut_ptr(), c0.len(), c1.as_mut_ptr(), c1.len(), c2.as_mut_ptr(), c2.len(),
            z0.as_mut_ptr(), z0.len(), z1.as_mut_ptr(), z1.len(), z2.as_mut_ptr(), z2.len(),
            answer.as_mut_ptr(), answer.len(),
        )
    }
}
