//! Squares of bits turned over their diagonal: bit c of row r becomes bit r of row c.

/// In each block of 2h rows, rows h apart exchange the columns of m, which are the odd ones of width h.
#[inline(always)]
fn level<const N: usize>(rows: &mut [u64; N], h: usize, m: u64) {
    for block in rows.chunks_exact_mut(2 * h) {
        let (low, high) = block.split_at_mut(h);
        for (a, b) in low.iter_mut().zip(high) {
            let t = (*a ^ (*b << h)) & m;
            *a ^= t;
            *b ^= t >> h;
        }
    }
}

/// Squares of 32 rows and columns, of which each half of the rows' bits is one.
#[inline(always)]
fn five_levels<const N: usize>(rows: &mut [u64; N]) {
    level(rows, 1, 0xaaaa_aaaa_aaaa_aaaa);
    level(rows, 2, 0xcccc_cccc_cccc_cccc);
    level(rows, 4, 0xf0f0_f0f0_f0f0_f0f0);
    level(rows, 8, 0xff00_ff00_ff00_ff00);
    level(rows, 16, 0xffff_0000_ffff_0000);
}

pub fn turn_32(rows: &mut [u64; 32]) {
    five_levels(rows);
}

pub fn turn_64(rows: &mut [u64; 64]) {
    five_levels(rows);
    level(rows, 32, 0xffff_ffff_0000_0000);
}
