//! The words that are lent to `survey_batch`, with words before and behind them that must stay.

use jobs::draw::Draw;
use reference::batch::{Batch, FIGURES};
use reference::record::LIMIT;

/// Words in front of every lent run and behind the longest.
const GUARD: usize = 4;
/// The longest runs lent: sub-shares and results, answers, tapes and channels.
const MOST_FIGURES: usize = 2 * FIGURES;
const MOST_ANSWER: usize = 9;
const MOST_WORDS: usize = LIMIT as usize + 1;
/// Words of tapes and channels that are new in every call: more than any call takes.
pub const FRESH: usize = 200;
/// Words about the end of a run that are compared after every call.
const ABOUT_END: usize = 8;

pub type Three<T> = [T; 3];
pub type Call = fn(&mut Batch, &mut [u64]) -> u64;

/// How many words of each run are lent.
#[derive(Clone, Debug)]
pub struct Lengths {
    pub shares: Three<usize>,
    pub masks: Three<usize>,
    pub channels: Three<usize>,
    pub results: Three<usize>,
    pub answer: usize,
}

#[derive(Clone, PartialEq, Eq)]
pub struct Runs {
    pub shares: Three<Vec<u64>>,
    pub masks: Three<Vec<u64>>,
    pub channels: Three<Vec<u64>>,
    pub results: Three<Vec<u64>>,
    pub answer: Vec<u64>,
}

fn lend(runs: &Three<Vec<u64>>, lengths: Three<usize>) -> Three<&[u64]> {
    [0, 1, 2].map(|i| &runs[i][GUARD..][..lengths[i]])
}

fn lend_mut(runs: &mut Three<Vec<u64>>, [n0, n1, n2]: Three<usize>) -> Three<&mut [u64]> {
    let [r0, r1, r2] = runs.each_mut().map(|run| &mut run[GUARD..]);
    [&mut r0[..n0], &mut r1[..n1], &mut r2[..n2]]
}

/// Fills the words of three runs that a call may be lent.
pub fn fill(runs: &mut Three<Vec<u64>>, words: usize, mut word: impl FnMut() -> u64) {
    for run in runs {
        run[GUARD..][..words].fill_with(&mut word);
    }
}

/// A word of a run, as the call counts them.
pub fn put(run: &mut [u64], k: usize, word: u64) {
    run[GUARD + k] = word;
}

impl Runs {
    pub fn new(draw: &mut Draw) -> Runs {
        let mut run = |most: usize| -> Vec<u64> {
            let words = most + 2 * GUARD;
            (0..words).map(|_| draw.word()).collect()
        };
        let mut three = |most: usize| [run(most), run(most), run(most)];
        Runs {
            shares: three(MOST_FIGURES),
            masks: three(MOST_WORDS),
            channels: three(MOST_WORDS),
            results: three(MOST_FIGURES),
            answer: run(MOST_ANSWER),
        }
    }

    /// What the call returns.
    pub fn call(&mut self, call: Call, width: u64, bits: u64, lengths: &Lengths) -> u64 {
        let mut batch = Batch {
            width,
            bits,
            shares: lend(&self.shares, lengths.shares),
            masks: lend(&self.masks, lengths.masks),
            channels: lend_mut(&mut self.channels, lengths.channels),
            results: lend_mut(&mut self.results, lengths.results),
        };
        call(&mut batch, &mut self.answer[GUARD..][..lengths.answer])
    }

    /// The runs by name, with the lengths lent of them.
    fn named(&self, lengths: &Lengths) -> Vec<(String, &[u64], usize)> {
        let groups = [
            ("sub-shares", &self.shares, lengths.shares),
            ("mask tape", &self.masks, lengths.masks),
            ("channel", &self.channels, lengths.channels),
            ("results", &self.results, lengths.results),
        ];
        let answer = ("answer".to_string(), &self.answer[..], lengths.answer);
        let mut named = vec![answer];
        for (name, runs, lengths) in groups {
            for (i, run) in runs.iter().enumerate() {
                named.push((format!("{name} {i}"), run, lengths[i]));
            }
        }
        named
    }

    /// Where the other's words differ, as text: all that the call may take or write, and those about the ends of the runs.
    pub fn differences(&self, other: &Runs, lengths: &Lengths) -> Vec<String> {
        let mut texts = Vec::new();
        let pairs = self.named(lengths).into_iter().zip(other.named(lengths));
        for ((name, ours, length), (_, theirs, _)) in pairs {
            let front = 0..ours.len().min(GUARD + FRESH);
            let end = length..ours.len().min(length + ABOUT_END);
            let places = front.chain(end).filter(|&at| ours[at] != theirs[at]);
            texts.extend(places.map(|at| self.difference(&name, at, [ours[at], theirs[at]])));
        }
        texts
    }

    /// A word that differs, with the figures that it belongs to: of a channel by its bits, of results by its place.
    fn difference(&self, name: &str, at: usize, [expected, found]: [u64; 2]) -> String {
        let place = at as i64 - GUARD as i64;
        let figures: Vec<usize> = (0..FIGURES)
            .filter(|k| (expected ^ found) >> k & 1 == 1)
            .collect();
        let of_figures = match name.split(' ').next() {
            Some("channel") => format!(", of figures {figures:?}"),
            Some("results") => format!(
                ", of sub-shares {:?}",
                self.shares.each_ref().map(|run| run[at])
            ),
            _ => String::new(),
        };
        format!("{name}, word {place}: expected {expected:#x}, found {found:#x}{of_figures}")
    }
}
