//! The words of a call: public ones, alike in all draws, and secret ones, drawn anew.

use jobs::draw::Draw;
use std::collections::BTreeSet;

/// Draws of the secrets of one case.
pub const DRAWS: usize = 20;

/// A secret word must have at least so many values among the draws, or all that it can have.
const VALUES: u64 = 4;

#[derive(Clone, Copy, PartialEq, Eq)]
pub enum Word {
    Public(u64),
    /// A secret below a bound.
    Below(u64),
    /// A secret that may be any word.
    Any,
    /// A raw word that is kept for a modulus: the bits of the modulus are not all ones.
    Kept(u64),
    /// One that is dropped: they are.
    Dropped(u64),
}

impl Word {
    /// Its value in the draw of a turn.
    pub fn drawn(self, turn: usize, draw: &mut Draw) -> u64 {
        let mut up_to = |top: u64| number(turn, top, draw);
        match self {
            Word::Public(word) => word,
            Word::Below(bound) => up_to(bound - 1),
            Word::Any => up_to(u64::MAX),
            Word::Kept(p) => up_to(p - 1) | up_to(u64::MAX) & !p,
            Word::Dropped(p) => p | up_to(u64::MAX) & !p,
        }
    }

    /// Whether so many values among the draws are enough.
    fn varies(self, values: &BTreeSet<u64>) -> bool {
        let least = match self {
            Word::Public(_) => 1,
            Word::Below(bound) => bound.min(VALUES),
            _ => VALUES,
        };
        values.len() as u64 >= least
    }
}

/// A secret from 0 to `top`. What a branch tests may be met by chance once in 2^61 draws, so in most turns the ends of the
/// range come up: the same end for all secrets of the call in turns 1 to 4, then any of them for each.
fn number(turn: usize, top: u64, draw: &mut Draw) -> u64 {
    let ends = [0, top.min(1), top / 2, top];
    let drawn = match top {
        u64::MAX => draw.word(),
        _ => draw.below(top + 1),
    };
    match turn {
        1..=4 => ends[turn - 1],
        5..=10 => draw.pick(&[0, top.min(1), top]),
        11..=14 if draw.chance(50) => draw.pick(&ends),
        _ => drawn,
    }
}

/// Whether the draws can show a difference: none is the first again, and each secret word has several values.
pub fn are_telling(words: &[Word], draws: &[Vec<u64>]) -> bool {
    let anew = draws[1..].iter().all(|draw| *draw != draws[0]);
    let values = |k: usize| draws.iter().map(|draw| draw[k]).collect();
    anew && (0..).zip(words).all(|(k, word)| word.varies(&values(k)))
}
