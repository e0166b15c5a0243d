//! What was found of each case.

use crate::cases::Case;
use crate::compare::{Comparison, Difference};
use crate::rounds::Rounds;
use crate::symbols::Symbols;
use crate::trace;
use crate::words::DRAWS;
use std::path::Path;
use std::thread::scope;

pub struct Finding {
    pub name: String,
    /// Why the case shows nothing.
    fault: Option<String>,
    pub difference: Option<Difference>,
    /// Instructions executed below the caller, in each trace that is not the first again.
    pub instructions: Vec<u64>,
}

impl Finding {
    /// What is wrong, if anything.
    pub fn text(&self) -> Option<String> {
        let difference = self
            .difference
            .as_ref()
            .map(|difference| difference.to_string());
        self.fault.clone().or(difference)
    }
}

pub struct Findings {
    pub list: Vec<Finding>,
    pub lines: u64,
}

/// Why a case shows nothing, if it does not: it must do what it is meant to, and all of it must have been traced.
fn fault(
    case: &Case,
    k: usize,
    rounds: &Rounds,
    found: &[Vec<u64>],
    seen: &Comparison,
) -> Option<String> {
    let expected = &rounds.replies[k];
    let otherwise = expected.iter().position(|reply| reply[0] != case.meant);
    let wrong = expected.iter().zip(found).position(|(a, b)| a != b);
    if !rounds.telling[k] {
        return Some("its draws are too much alike".to_string());
    }
    if let Some(draw) = otherwise {
        return Some(format!(
            "draw {draw} is meant to return {}, not {}",
            case.meant, expected[draw][0]
        ));
    }
    if !seen.is_whole(DRAWS) {
        return Some("not all of its draws were traced".to_string());
    }
    wrong.map(|draw| format!("draw {draw} does not leave what the reference does"))
}

/// Cuts what the caller wrote into the replies of each case.
fn replies(written: &[u8], rounds: &Rounds) -> Vec<Vec<Vec<u64>>> {
    let words = written
        .chunks_exact(8)
        .map(|word| u64::from_ne_bytes(word.try_into().unwrap()));
    let mut words = words.collect::<Vec<u64>>().into_iter();
    let mut reply = |like: &Vec<u64>| words.by_ref().take(like.len()).collect();
    let mut of_case = |like: &Vec<Vec<u64>>| like.iter().map(&mut reply).collect();
    rounds.replies.iter().map(&mut of_case).collect()
}

/// Traces cases in one process. The first is done twice: what happens once in a process alone is then over.
fn trace_list(caller: &Path, symbols: &Symbols, cases: Vec<&Case>, seed: u64) -> Findings {
    let cases: Vec<Case> = cases
        .first()
        .into_iter()
        .chain(&cases)
        .map(|case| Case::clone(case))
        .collect();
    let rounds = Rounds::of(&cases, seed);
    let input: Vec<u8> = rounds
        .input
        .iter()
        .flat_map(|word| word.to_ne_bytes())
        .collect();
    let mut seen: Vec<Comparison> = cases.iter().map(|_| Comparison::default()).collect();
    let mut traces = 0;
    let (written, lines) = trace::run(caller, symbols, &input, |part| {
        seen[traces / DRAWS].take(part, symbols);
        traces += 1;
    })
    .unwrap_or_else(|error| panic!("valgrind: {error}"));
    let found = replies(&written, &rounds);
    let finding = |(k, comparison): (usize, Comparison)| Finding {
        name: cases[k].name.clone(),
        fault: fault(&cases[k], k, &rounds, &found[k], &comparison),
        difference: comparison.difference,
        instructions: comparison.instructions,
    };
    let list = seen.into_iter().enumerate().skip(1).map(finding).collect();
    Findings { list, lines }
}

/// Traces cases in two processes side by side, every other case in each.
pub fn trace_cases(caller: &Path, cases: &[Case]) -> Findings {
    let symbols = Symbols::of(caller);
    let half = |k: usize| cases.iter().skip(k).step_by(2).collect();
    let trace = |k: usize| trace_list(caller, &symbols, half(k), k as u64);
    let halves = scope(|scope| {
        let other = scope.spawn(|| trace(1));
        [trace(0), other.join().unwrap()]
    });
    let lines = halves.iter().map(|findings| findings.lines).sum();
    let mut lists = halves.map(|findings| findings.list.into_iter());
    let list = (0..cases.len())
        .filter_map(|k| lists[k % 2].next())
        .collect();
    Findings { list, lines }
}
