//! Other tapes in the place of those that party 1 does not see.

use crate::runs::{end, gates, run, views, Gate, Job, Outcome, Tapes, FAR, LACKED, OWN};
use reference::order::Order;
use reference::record::Register;

/// The words that party 1 has received at the end of a run.
fn received(job: &Job, tapes: &Tapes) -> Vec<u64> {
    end(&run(job, tapes)).channels[FAR].clone()
}

/// The tapes with which party 1 receives `words` at the gates. The word of a gate is the lacked item and a number that
/// depends on the items before, so the lacked items are found in turn.
fn receiving(job: &Job, mut tapes: Tapes, gates: &[Gate], words: &[u64]) -> Tapes {
    for gate in gates {
        tapes.masks[LACKED][gate.item] = 0;
        let number = received(job, &tapes)[gate.word];
        tapes.masks[LACKED][gate.item] = (words[gate.word] + gate.modulus - number) % gate.modulus;
    }
    tapes
}

/// The tapes with which the deals of k hand party 1 the pairs that those of a run of the other job hand it.
fn handing(k: &Job, mut tapes: Tapes, course: &[Outcome]) -> Tapes {
    for (entry, outcome) in k.entries.iter().zip(course) {
        let (Order::Deal { d, v, .. }, 0) = (entry.order, outcome.answer.refusal) else {
            continue;
        };
        let Register::Number { ring, shares } = outcome.record.registers[d as usize] else {
            unreachable!("a deal makes a number");
        };
        let at = outcome.before.dealer as usize;
        tapes.dealer[at] = ring.sub(ring.sub(v, shares[OWN]), shares[FAR]);
        tapes.dealer[at + 1] = shares[OWN];
    }
    tapes
}

/// The tapes of the run of k that party 1 cannot tell from the run of j with `tapes`.
pub fn image(j: &Job, k: &Job, tapes: &Tapes) -> Tapes {
    let course = run(j, tapes);
    let handed = handing(k, tapes.clone(), &course);
    receiving(k, handed, &gates(&course), &end(&course).channels[FAR])
}

/// Tapes with which party 1 receives one word that it does not receive with `tapes`, and sees all else alike: the first
/// gate for which there are such tapes.
pub fn other(job: &Job, tapes: &Tapes) -> Option<Tapes> {
    let course = run(job, tapes);
    let gates = gates(&course);
    let changed = |k: usize| {
        let mut words = end(&course).channels[FAR].clone();
        let word = &mut words[gates[k].word];
        *word = (*word + 1) % gates[k].modulus;
        receiving(job, tapes.clone(), &gates[k..], &words)
    };
    let seen = views(&course);
    let unseen = |found: &Tapes| views(&run(job, found)) == seen;
    (0..gates.len()).map(changed).find(unseen)
}
