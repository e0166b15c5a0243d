//! Every refusal that an order of each kind can meet, but those that test secrets, 1 for a sub-share and a deal's 7 and 10;
//! and words in no layout.

use crate::cases::{At, Case, ANSWER, CHANNELS, DEALER, MASKS, ORDER, RECORD};
use crate::orders::{usual, BITS, EMPTY, OF_OTHER_RING, SPARE, X};
use crate::words::Word::{self, Any, Below, Public};
use reference::layout::MALFORMED;
use reference::record::LIMIT;
use reference::ring::Ring;
use std::ops::Range;

/// Refusal, field of the order from 1 on, and what stands there.
type Field = (u64, usize, u64);

/// What checks 2 to 7 refuse.
fn fields(kind: u64, ring: Ring) -> Vec<Field> {
    let (e, p) = (ring.width(), ring.modulus());
    let source = [(2, 1, 16), (2, 2, 1 << 32), (3, 2, EMPTY), (4, 2, BITS)];
    let last: &[Field] = match kind {
        1 => return vec![(2, 1, 16), (5, 2, 14), (5, 2, 0)],
        2 | 4 => &[
            (2, 3, 16),
            (3, 3, EMPTY),
            (4, 3, BITS),
            (6, 3, OF_OTHER_RING),
        ],
        3 => &[(7, 3, p), (7, 3, u64::MAX)],
        5 => &[(7, 3, 0), (7, 3, e - 1)],
        6 => &[(5, 3, 14)],
        7 => &[(7, 3, e - 2), (7, 3, u64::MAX)],
        8 => return vec![(2, 1, 16), (2, 2, 16), (3, 2, EMPTY), (4, 2, X), (5, 3, 14)],
        _ => return vec![(2, 1, 16), (3, 1, EMPTY)],
    };
    [&source, last].concat()
}

fn by_field(case: &Case, (by, field, value): Field) -> Case {
    case.refused(by, &format!("field {field} is {value}"), |case| {
        // Without a ring there is no range for the number dealt.
        let dealt = &mut case.runs[ORDER].words[3];
        if !matches!(dealt, Public(_)) {
            *dealt = Any;
        }
        case.runs[ORDER].words[field] = Public(value);
    })
}

fn too_long(case: &Case, runs: Range<usize>) -> Case {
    case.refused(8, &format!("runs {runs:?} too long"), |case| {
        case.lend(runs, LIMIT as usize + 1)
    })
}

/// One word too few, and an end before the position.
fn too_short(case: &Case, by: u64, runs: Range<usize>) -> [Case; 2] {
    let first = &case.runs[runs.start];
    [first.lent - 1, first.from].map(|lent| {
        case.refused(by, &format!("{lent} words in runs {runs:?}"), |case| {
            case.lend(runs.clone(), lent)
        })
    })
}

/// Three runs of unequal length, too long and too short.
pub fn by_three(case: &Case, by: u64, runs: Range<usize>) -> Vec<Case> {
    let longer = |k: usize| {
        let lent = case.runs[k].lent + 1;
        case.refused(8, &format!("{lent} words in run {k}"), |case| {
            case.lend(k..k + 1, lent)
        })
    };
    let unequal = runs.clone().map(longer);
    let long = [too_long(case, runs.clone())];
    unequal
        .chain(long)
        .chain(too_short(case, by, runs))
        .collect()
}

/// What checks 8, 9 and 11 refuse.
fn by_runs(case: &Case, kind: u64) -> Vec<Case> {
    let dealer = DEALER..DEALER + 1;
    match kind {
        1 => {
            let [fewer, none] = too_short(case, 9, dealer.clone());
            vec![too_long(case, dealer), fewer, none]
        }
        2 | 3 => vec![],
        9 => by_three(case, 11, CHANNELS),
        _ => [by_three(case, 9, MASKS), by_three(case, 11, CHANNELS)].concat(),
    }
}

/// What check 10 refuses: the first item of the first tape or the last of the last, whatever the others are.
fn by_item(case: &Case) -> Vec<Case> {
    let taken = |word: &Word| matches!(word, Below(_));
    let tape = case.runs[MASKS.start].words.iter();
    let places = [tape.clone().position(taken), tape.clone().rposition(taken)];
    let refused = |(run, at): (usize, Option<usize>)| {
        let at = at?;
        Some(
            case.refused(10, &format!("word {at} of run {run}"), |case| {
                case.runs[run].words[at] = Public(u64::MAX);
            }),
        )
    };
    let runs = [MASKS.start, MASKS.end - 1];
    runs.into_iter().zip(places).filter_map(refused).collect()
}

/// What the words of a register refuse that the order does not read.
fn by_register(case: &Case, by: u64, tag: u64, size: u64, share: Word) -> Case {
    let how = format!("a register of tag {tag}, size {size}");
    case.refused(by, &how, |case| {
        let words = [Public(tag), Public(size), share, share, share];
        let place = words.len() * SPARE;
        case.runs[RECORD].words[place..][..words.len()].copy_from_slice(&words);
    })
}

/// Records that are not sound by what is public of them: a position, or a count of bits.
fn unsound(case: &Case) -> Vec<Case> {
    let end = case.runs[RECORD].words.len();
    let position = |k: usize| {
        case.refused(1, &format!("word {k} of the record"), |case| {
            case.runs[RECORD].words[k] = Public(LIMIT + 1);
        })
    };
    let count = |size: u64| by_register(case, 1, 2, size, Any);
    let positions = (end - 3..end).map(position);
    positions.chain([60, u64::MAX].map(count)).collect()
}

/// Lengths and registers that are in no layout.
fn malformed(case: &Case) -> Vec<Case> {
    let length = |k: usize, lent: usize| {
        let how = format!("run {k} of {lent} words");
        case.refused(MALFORMED, &how, |case| case.runs[k].lent = lent)
    };
    let register =
        |tag: u64, size: u64, share: Word| by_register(case, MALFORMED, tag, size, share);
    vec![
        length(ORDER, 3),
        length(ORDER, 5),
        length(RECORD, 82),
        length(RECORD, 84),
        length(ANSWER, 2),
        length(ANSWER, 4),
        register(3, 13, Any),
        register(1, 14, Any),
        register(0, 0, Public(1)),
    ]
}

fn of_kind(kind: u64, ring: Ring) -> Vec<Case> {
    let case = usual(kind, ring, At::Middle);
    let by_fields = fields(kind, ring)
        .into_iter()
        .map(|field| by_field(&case, field));
    [by_fields.collect(), by_runs(&case, kind), by_item(&case)].concat()
}

/// Kinds that are none, and an opening with more than its field.
fn no_orders() -> Vec<Case> {
    let case = usual(9, Ring::all()[1], At::Start);
    let changes = [(0, 0), (0, 10), (0, u64::MAX), (2, 1), (3, 1)];
    let word = |(k, value): (usize, u64)| {
        case.refused(MALFORMED, &format!("word {k} is {value}"), |case| {
            case.runs[ORDER].words[k] = Public(value);
        })
    };
    changes.map(word).into()
}

pub fn refused() -> Vec<Case> {
    let kinds = || 1..=9;
    let in_rings = |kind: u64| Ring::all().map(|ring| of_kind(kind, ring)).concat();
    let by_record = |kind: u64| {
        let case = usual(kind, Ring::all()[2], At::Start);
        [unsound(&case), malformed(&case)].concat()
    };
    let of_kinds = kinds().flat_map(in_rings);
    of_kinds
        .chain(kinds().flat_map(by_record))
        .chain(no_orders())
        .collect()
}
