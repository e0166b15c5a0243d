//! Preparations: what is dropped, and where, is public; what is kept is not.

use crate::cases::{Case, ANSWER};
use crate::words::Word::{self, Any, Dropped, Kept};
use reference::layout::MALFORMED;
use reference::ring::Ring;

/// Which raw words are kept (k) and dropped (d), up to the last that is used.
const PATTERNS: [&str; 10] = [
    "k",
    "dk",
    "dddk",
    "kkkkk",
    "dkkkkk",
    "kkdkkk",
    "kkdddkkk",
    "kkkkdk",
    "dkdkddkdk",
    "kkkkkkkkdkkkkkkkkkkkkkkkkkkkkkddkkkkkkkkkdkkkkkkkkkkkkkkkkkkkdkkk",
];
const CODES: [u64; 6] = [0, 2, 12, 14, 64, u64::MAX];
const UNUSED: usize = 3;

fn raw(pattern: &str, ring: Ring) -> Vec<Word> {
    let p = ring.modulus();
    let word = |letter: char| if letter == 'k' { Kept(p) } else { Dropped(p) };
    pattern.chars().map(word).collect()
}

/// A pattern with raw words left over, with none, and with a word too few.
fn of_pattern(pattern: &str, ring: Ring) -> [Case; 3] {
    let (e, words) = (ring.width(), raw(pattern, ring));
    let length = pattern.matches('k').count();
    let name = |what: &str| format!("prepare {pattern}, ring {e}, {what}");
    let more = [&words[..], &[Any; UNUSED]].concat();
    let fewer = words[..words.len() - 1].to_vec();
    [
        Case::preparation(name("words left"), e, more, length, 0),
        Case::preparation(name("all used"), e, words, length, 0),
        Case::preparation(name("a word too few"), e, fewer, length, 12),
    ]
}

fn bits(length: usize) -> [Case; 2] {
    let name = |what: &str| format!("prepare {length} bits, {what}");
    [
        Case::preparation(name("words left"), 1, vec![Any; length + UNUSED], length, 0),
        Case::preparation(name("a word too few"), 1, vec![Any; length - 1], length, 12),
    ]
}

fn answer_of(words: usize) -> Case {
    let mut case = Case::preparation(
        format!("prepare, answer of {words} words"),
        31,
        vec![Any; 5],
        5,
        MALFORMED,
    );
    case.runs[ANSWER].lent = words;
    case
}

pub fn prepared() -> Vec<Case> {
    let in_rings = |pattern: &str| Ring::all().map(|ring| of_pattern(pattern, ring)).concat();
    let nothing = [1, 13, 31, 61].map(|code| {
        Case::preparation(
            format!("prepare nothing, code {code}"),
            code,
            vec![Any; UNUSED],
            0,
            0,
        )
    });
    let no_ring = CODES
        .map(|code| Case::preparation(format!("prepare, code {code}"), code, vec![Any; 5], 5, 5));
    [
        PATTERNS.map(in_rings).concat(),
        [1, 2, 70].map(bits).concat(),
        nothing.into(),
        no_ring.into(),
        [1, 3].map(answer_of).into(),
    ]
    .concat()
}
