//! Figures of 01, with the masks of 02, P5, by the library alone.

use crate::interface::{self, survey::BATCH_FIGURES};
use jobs::tally::Tally;
use reference::batch::Batch;
use reference::layout::{ANSWER_WORDS, RECORD_WORDS, REGISTER_WORDS};
use reference::machine::Lent;

type Answered = [u64; ANSWER_WORDS];

/// Runs one order on a record with these mask tapes, and gives the answer and channels of their length.
fn with_items(
    order: [u64; 4],
    record: &mut [u64],
    masks: [Vec<u64>; 3],
) -> (Answered, [Vec<u64>; 3]) {
    let mut channels = masks.each_ref().map(|tape| vec![0; tape.len()]);
    let mut lent = Lent {
        masks: masks.each_ref().map(Vec::as_slice),
        dealer: &[],
        channels: channels.each_mut().map(Vec::as_mut_slice),
    };
    let mut words = [77; ANSWER_WORDS];
    interface::step(&order, record, &mut lent, &mut words);
    (words, channels)
}

/// Runs one order on a record with so many items a tape.
fn answer(order: [u64; 4], record: &mut [u64], items: usize) -> Answered {
    with_items(order, record, [0; 3].map(|_| vec![1; items])).0
}

/// A record with one number in register 0.
fn holding(width: u64, shares: [u64; 3]) -> Vec<u64> {
    let mut record = vec![0; RECORD_WORDS];
    record[..2].copy_from_slice(&[1, width]);
    record[2..5].copy_from_slice(&shares);
    record
}

/// What kind 5 or 6 of register 0 answers, and what the register then opens to.
fn opened(width: u64, shares: [u64; 3], kind: u64, field: u64) -> (Answered, u64) {
    let mut record = holding(width, shares);
    let answered = answer([kind, 0, 0, field], &mut record, 34);
    (answered, answer([9, 0, 0, 0], &mut record, 35)[1])
}

/// Decompositions to 11 bits in ring 13, then conversions; none is refused.
fn values(tally: &mut Tally) {
    let figures = [
        (13, [1, 2, 2], 5, 11, 5),
        (13, [8000, 100, 96], 5, 11, 5),
        (13, [8000, 8000, 387], 5, 11, 5),
        (13, [8190, 1, 0], 5, 11, 0),
        (13, [2047, 0, 0], 5, 11, 2047),
        (13, [2048, 0, 0], 5, 11, 1),
        (13, [2047, 1, 0], 5, 11, 0),
        (13, [8000, 100, 96], 6, 31, 5),
        (13, [2048, 0, 0], 6, 31, 2147477504),
        (13, [2048, 0, 0], 6, 13, 2048),
        (31, [10000, 0, 0], 6, 13, 1809),
        (31, [2147483646, 5000, 5001], 6, 13, 1809),
    ];
    for (width, shares, kind, field, value) in figures {
        let gates = if kind == 5 { 34 } else { 5 };
        let found = opened(width, shares, kind, field);
        tally.case(found == ([0, 0, gates], value), || {
            format!("kind {kind} of {shares:?} at {field}: {found:?}")
        });
    }
}

/// 1,2,2 by 3,0,0 with items 10,20,30: the words on the channels are the product's sub-shares, 19, 10, 8177 in ring 13.
fn products(tally: &mut Tally) {
    for width in [13, 31, 61] {
        let mut record = holding(width, [1, 2, 2]);
        record[REGISTER_WORDS..][..REGISTER_WORDS].copy_from_slice(&[1, width, 3, 0, 0]);
        let items = [10, 20, 30].map(|item| vec![item]);
        let (answered, channels) = with_items([4, 2, 0, 1], &mut record, items);
        let p = (1 << width) - 1;
        let z = [19, 10, p - 14];
        let product = &record[2 * REGISTER_WORDS..][2..REGISTER_WORDS];
        let found = (answered, channels.concat(), product);
        tally.case(found == ([0, 0, 1], z.to_vec(), &z), || {
            format!("a product in ring {width}: {found:?}")
        });
    }
}

/// Gates spent, and the refusal where the tapes hold one item less.
fn counts(tally: &mut Tally) {
    let counts = [
        (31, 5, 29, 88),
        (61, 5, 29, 88),
        (61, 5, 59, 178),
        (61, 7, 0, 296),
    ];
    for (width, kind, field, gates) in counts {
        for (items, expected) in [(gates, [0, 0, gates]), (gates - 1, [9, 0, 0])] {
            let mut record = holding(width, [1, 2, 3]);
            let found = answer([kind, 0, 0, field], &mut record, items as usize);
            tally.case(found == expected, || {
                format!("kind {kind} at {field} in ring {width}: {found:?}")
            });
        }
    }
}

/// 64 figures, the one at place k given and the others 1, at so many bits and with so many items a tape; the answer, and what
/// the given one opens to.
fn batched(width: u64, figure: [u64; 3], k: usize, bits: u64, items: usize) -> ([u64; 3], u64) {
    let runs = [0; 3].map(|_| vec![1; BATCH_FIGURES]);
    let (mut shares, mut results) = (runs.clone(), runs);
    for (run, share) in shares.iter_mut().zip(figure) {
        run[k] = share;
    }
    let masks = [3, 5, 6].map(|word| vec![word << k; items]);
    let mut channels = masks.clone();
    let mut batch = Batch {
        width,
        bits,
        shares: shares.each_ref().map(Vec::as_slice),
        masks: masks.each_ref().map(Vec::as_slice),
        channels: channels.each_mut().map(Vec::as_mut_slice),
        results: results.each_mut().map(Vec::as_mut_slice),
    };
    let mut words = [77; ANSWER_WORDS];
    interface::batch(&mut batch, &mut words);
    (words, results.iter().fold(0, |all, run| all ^ run[k]))
}

/// The decompositions of `values` at every place of a batch: in a ring of width e 8000 is p - 191, and 2048 is 2^(e-2).
fn batches(tally: &mut Tally) {
    for (width, gates) in [(31, 88), (61, 178)] {
        let (p, quarter) = ((1 << width) - 1, 1 << (width - 2));
        let figures = [
            ([1, 2, 2], 5),
            ([p - 191, 100, 96], 5),
            ([p - 191, p - 191, 387], 5),
            ([p - 1, 1, 0], 0),
            ([quarter - 1, 0, 0], quarter - 1),
            ([quarter, 0, 0], 1),
            ([quarter - 1, 1, 0], 0),
        ];
        for (shares, value) in figures {
            for k in 0..BATCH_FIGURES {
                let found = batched(width, shares, k, width - 2, gates);
                tally.case(found == ([0, 0, gates as u64], value), || {
                    format!("{shares:?} at place {k} in ring {width}: {found:?}")
                });
            }
        }
        let (found, _) = batched(width, [1; 3], 0, width - 2, gates - 1);
        tally.case(found == [9, 0, 0], || {
            format!("a batch lent {} items: {found:?}", gates - 1)
        });
    }
}

pub fn run(tally: &mut Tally) {
    values(tally);
    products(tally);
    counts(tally);
    batches(tally);
}
