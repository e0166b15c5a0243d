//! The rounds of a list of cases, and what the reference says that each leaves.

use crate::cases::{Case, Run};
use crate::format::{Places, BATCH, PREPARE, ROOM, RUNS, WRITTEN};
use crate::words::{are_telling, DRAWS};
use jobs::draw::Draw;
use reference::batch::{batch_words, Batch};
use reference::layout::{prepare_words, step_words};
use reference::machine::Lent;

/// The reference's runs.
type Runs = [Vec<u64>; RUNS];

/// What comes back of a draw: the number returned and the words of the runs that are written.
type Reply = Vec<u64>;

pub struct Rounds {
    /// For the caller's standard input.
    pub input: Vec<u64>,
    /// For each case, the replies to its draws, and whether the draws can show a difference.
    pub replies: Vec<Vec<Reply>>,
    pub telling: Vec<bool>,
}

fn head(case: &Case) -> Vec<u64> {
    let place = |run: &Run| [run.lent, run.from, run.words.len()].map(|n| n as u64);
    let places: Places = case.runs.each_ref().map(place);
    let [first, second] = case.numbers;
    [&[case.call, first, second], places.as_flattened()].concat()
}

/// Puts the words of a draw into the runs.
fn load(case: &Case, runs: &mut Runs, drawn: &[u64]) {
    let mut words = drawn.iter();
    for (run, given) in runs.iter_mut().zip(&case.runs) {
        let places = run[given.from..].iter_mut().take(given.words.len());
        places.for_each(|place| *place = *words.next().unwrap());
    }
}

/// Makes the call by the reference.
fn call(case: &Case, runs: &mut Runs) -> u64 {
    let mut given = case.runs.iter();
    let lent = runs
        .each_mut()
        .map(|run| &mut run[..given.next().unwrap().lent]);
    let [order, record, m0, m1, m2, dealer, c0, c1, c2, answer, a0, a1, a2, z0, z1, z2] = lent;
    let [first, second] = case.numbers;
    match case.call {
        PREPARE => prepare_words(first, dealer, c0, answer),
        BATCH => {
            let mut batch = Batch {
                width: first,
                bits: second,
                shares: [a0, a1, a2],
                masks: [m0, m1, m2],
                channels: [c0, c1, c2],
                results: [z0, z1, z2],
            };
            batch_words(&mut batch, answer)
        }
        _ => {
            let mut lent = Lent {
                masks: [m0, m1, m2],
                dealer,
                channels: [c0, c1, c2],
            };
            step_words(order, record, &mut lent, answer)
        }
    }
}

fn reply(case: &Case, runs: &mut Runs, drawn: &[u64]) -> Reply {
    load(case, runs, drawn);
    let returned = call(case, runs);
    let written = WRITTEN.map(|k| {
        let given = &case.runs[k];
        &runs[k][given.from..][..given.words.len()]
    });
    [&[returned], &written.concat()[..]].concat()
}

impl Rounds {
    pub fn of(cases: &[Case], seed: u64) -> Rounds {
        let mut draw = Draw::new(seed);
        let mut runs: Runs = std::array::from_fn(|_| vec![0; ROOM]);
        let mut rounds = Rounds {
            input: vec![],
            replies: vec![],
            telling: vec![],
        };
        for case in cases {
            let words = case.words();
            let drawn = |turn: usize| {
                words
                    .iter()
                    .map(|word| word.drawn(turn, &mut draw))
                    .collect()
            };
            let draws: Vec<Vec<u64>> = (0..DRAWS).map(drawn).collect();
            rounds.telling.push(are_telling(&words, &draws));
            let round = |drawn: &Vec<u64>| [head(case), drawn.clone()].concat();
            rounds.input.extend(draws.iter().flat_map(round));
            let replies = draws.iter().map(|drawn| reply(case, &mut runs, drawn));
            rounds.replies.push(replies.collect());
        }
        rounds
    }
}
