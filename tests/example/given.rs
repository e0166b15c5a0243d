//! The two jobs of the example and the tapes of a run of each.

use crate::runs::{end, gates, run, Entry, Job, Tapes};
use jobs::draw::Draw;
use reference::order::Order;

/// An order is lent all items.
const ALL: Option<usize> = None;

/// The dealer's tape of the run of J.
const DEALER: [u64; 5] = [8000, 100, 4000, 8000, u64::MAX];

/// The mask items that a gate takes are drawn.
const SEED: u64 = 1;

/// Gates and openings of a job, at most.
const MOST: usize = 512;

/// The items that nothing takes.
const LEFT: [[u64; 2]; 3] = [[u64::MAX, 0], [6, u64::MAX], [7, 8]];

/// An order by its kind and fields.
fn lending(lent: Option<usize>, kind: u64, fields: &[u64]) -> Entry {
    let order = Order::new(kind, fields).expect("one of the nine kinds");
    Entry { order, lent }
}

/// Tapes with which all is accepted that can be, so that a run shows what is public of a job.
fn zeros() -> Tapes {
    Tapes {
        masks: [0; 3].map(|_| vec![0; MOST]),
        dealer: DEALER.to_vec(),
    }
}

/// The job that deals a and b, with channels of a word more than it writes. Register 9 is empty, and the first shift is
/// lent too few items.
fn dealing(a: u64, b: u64) -> Job {
    let entries = vec![
        lending(ALL, 1, &[0, 13, a]),
        lending(ALL, 1, &[1, 13, b]),
        lending(ALL, 2, &[2, 0, 1]),
        lending(ALL, 9, &[2]),
        lending(ALL, 3, &[3, 0, 300]),
        lending(ALL, 4, &[4, 0, 1]),
        lending(Some(20), 5, &[5, 0, 3]),
        lending(ALL, 9, &[9]),
        lending(ALL, 6, &[6, 0, 31]),
        lending(Some(30), 7, &[7, 3, 10]),
        lending(ALL, 7, &[7, 3, 10]),
        lending(ALL, 8, &[8, 5, 13]),
        lending(ALL, 9, &[7]),
        lending(ALL, 5, &[10, 2, 3]),
        lending(ALL, 9, &[10]),
    ];
    let channels = [3, 1, 4].map(|word| vec![word; MOST]);
    let mut job = Job { entries, channels };
    let written = end(&run(&job, &zeros())).record.channels as usize;
    for channel in &mut job.channels {
        channel.truncate(written + 1);
    }
    job
}

pub fn job_j() -> Job {
    dealing(5, 7)
}

pub fn job_k() -> Job {
    dealing(4, 8)
}

/// The tapes of the run of J.
pub fn tapes_j() -> Tapes {
    let gates = gates(&run(&job_j(), &zeros()));
    let mut draw = Draw::new(SEED);
    let masks = LEFT.map(|left| {
        let taken = gates.iter().map(|gate| draw.below(gate.modulus));
        taken.chain(left).collect()
    });
    let dealer = DEALER.to_vec();
    Tapes { masks, dealer }
}

/// The tapes of the run of K: the mask tapes of the run of J, turned by one place.
pub fn tapes_k() -> Tapes {
    let [t0, t1, t2] = tapes_j().masks;
    Tapes {
        masks: [t1, t2, t0],
        dealer: vec![1, 2, 8190, 8190, 0],
    }
}
