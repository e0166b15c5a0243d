//! Random cases of `survey_batch`.

use crate::batch_runs::{fill, put, Call, Lengths, Runs, Three, FRESH};
use jobs::draw::Draw;
use reference::batch::{gates, FIGURES, WIDTHS};
use reference::layout::ANSWER_WORDS;
use reference::record::{Shares, LIMIT};
use reference::ring::Ring;
use std::collections::BTreeSet;

const BIG: u64 = u64::MAX;
const LIMIT_WORDS: usize = LIMIT as usize;

/// What the items of a call are.
#[derive(Clone, Copy, Debug)]
enum Items {
    Any,
    Zeros,
    Ones,
    /// Each item is 0 or has all bits.
    ZerosAndOnes,
}

pub struct Case {
    pub width: u64,
    pub bits: u64,
    pub lengths: Lengths,
    figures: Vec<Shares>,
    /// A sub-share out of range: its run, its figure, itself.
    outside: Option<(usize, usize, u64)>,
    items: Items,
    /// The seed of all other words.
    seed: u64,
}

/// Every ring and bit count.
pub fn sizes() -> Vec<(Ring, u64)> {
    let of_ring = |ring: Ring| (1..=ring.width() - 2).map(move |l| (ring, l));
    let rings = WIDTHS.map(|width| Ring::of_width(width).unwrap());
    rings.into_iter().flat_map(of_ring).collect()
}

/// A sub-share at the edges of what the circuit does with it: ends, quarters, patterns, runs of ones.
fn edge(draw: &mut Draw, ring: Ring) -> u64 {
    let (e, p) = (ring.width(), ring.modulus());
    let quarter = 1 << (e - 2);
    let j = draw.below(e);
    let pattern = draw.pick(&[0x5555, 0x3333, 0x0f0f]) * 0x0001_0001_0001_0001;
    let edges = [
        0,
        1,
        p - 1,
        p - 2,
        quarter - 1,
        quarter,
        quarter + 1,
        pattern & p,
        p ^ (pattern & p),
        1 << j,
        (1 << j) - 1,
        p - (1 << j),
    ];
    draw.pick(&edges)
}

/// Sub-shares of one figure: drawn, at the edges, or such that their total is at an edge, where carries run far.
fn figure(draw: &mut Draw, ring: Ring) -> Shares {
    match draw.below(4) {
        0 => [0; 3].map(|_| draw.below(ring.modulus())),
        1 => [0; 3].map(|_| draw.item(ring.modulus())),
        2 => [0; 3].map(|_| edge(draw, ring)),
        _ => {
            let [a, b] = [0; 2].map(|_| draw.item(ring.modulus()));
            let total = edge(draw, ring);
            let mut shares = [a, b, ring.sub(ring.sub(total, a), b)];
            shares.rotate_left(draw.place(3));
            shares
        }
    }
}

/// A length that suffices: exactly, nearly so, or the longest.
fn enough(draw: &mut Draw, needed: usize) -> usize {
    match draw.below(10) {
        0..=3 => needed,
        4 | 5 => needed + 1,
        6 => LIMIT_WORDS,
        _ => needed + draw.place(40),
    }
}

/// Makes three lengths unequal or too large.
fn uneven(draw: &mut Draw, lengths: &mut Three<usize>) {
    let one = &mut lengths[draw.place(3)];
    match draw.below(6) {
        0 | 1 => *one = (*one + 1).min(LIMIT_WORDS + 1),
        2 => *one = one.saturating_sub(1),
        3 => *one = draw.pick(&[0, LIMIT_WORDS, LIMIT_WORDS + 1]),
        _ => *lengths = [LIMIT_WORDS + 1; 3],
    }
}

fn too_few(draw: &mut Draw, needed: usize) -> Three<usize> {
    let any = draw.place(needed);
    [draw.pick(&[needed - 1, needed - 1, 0, any]); 3]
}

impl Case {
    /// A call of these bits; half of them are spoilt, by one fault or by several at once.
    pub fn new(draw: &mut Draw, ring: Ring, bits: u64) -> Case {
        let needed = gates(bits) as usize;
        let items = [
            Items::Any,
            Items::Any,
            Items::Zeros,
            Items::Ones,
            Items::ZerosAndOnes,
        ];
        let mut case = Case {
            width: ring.width(),
            bits,
            lengths: Lengths {
                shares: [FIGURES; 3],
                masks: [enough(draw, needed); 3],
                channels: [enough(draw, needed); 3],
                results: [FIGURES; 3],
                answer: ANSWER_WORDS,
            },
            figures: (0..FIGURES).map(|_| figure(draw, ring)).collect(),
            outside: None,
            items: draw.pick(&items),
            seed: draw.word(),
        };
        if draw.chance(50) {
            let count = draw.pick(&[1, 1, 2, 3]);
            let faults: BTreeSet<u64> = (0..count).map(|_| draw.below(8)).collect();
            faults.iter().for_each(|&fault| case.spoil(draw, fault));
        }
        case
    }

    /// What can be wrong with a call: what is checked last first, so that lengths are made short before they are made unequal.
    fn spoil(&mut self, draw: &mut Draw, fault: u64) {
        let (e, needed) = (self.width, gates(self.bits) as usize);
        let first = draw.chance(50);
        let Lengths {
            shares,
            masks,
            channels,
            results,
            answer,
        } = &mut self.lengths;
        match fault {
            0 => *channels = too_few(draw, needed),
            1 => *masks = too_few(draw, needed),
            2 => uneven(draw, if first { masks } else { channels }),
            3 => {
                let p = (1 << e) - 1;
                let any = draw.place(FIGURES);
                let k = draw.pick(&[0, FIGURES - 1, any]);
                self.outside = Some((draw.place(3), k, draw.at_least(p)));
            }
            4 => self.bits = draw.pick(&[0, e - 1, e, 64, 1 << 32, BIG]),
            5 => {
                let widths = [13, 13, 0, 1, 30, 32, 60, 62, 64, (1 << 32) + 31, BIG];
                self.width = draw.pick(&widths);
            }
            6 => {
                let runs = if first { shares } else { results };
                runs[draw.place(3)] = draw.pick(&[0, 1, FIGURES - 1, FIGURES + 1, 2 * FIGURES]);
            }
            _ => *answer = draw.pick(&[0, 1, 2, 4, 9]),
        }
    }

    /// Puts the words of the call where it will find them.
    pub fn load(&self, runs: &mut Runs) {
        let mut draw = Draw::new(self.seed);
        let items = self.items;
        fill(&mut runs.shares, 2 * FIGURES, || draw.word());
        fill(&mut runs.results, 2 * FIGURES, || draw.word());
        fill(&mut runs.channels, FRESH, || draw.word());
        fill(&mut runs.masks, FRESH, || match items {
            Items::Any => draw.word(),
            Items::Zeros => 0,
            Items::Ones => BIG,
            Items::ZerosAndOnes => draw.pick(&[0, BIG]),
        });
        for (k, figure) in self.figures.iter().enumerate() {
            for (run, &share) in runs.shares.iter_mut().zip(figure) {
                put(run, k, share);
            }
        }
        if let Some((run, k, share)) = self.outside {
            put(&mut runs.shares[run], k, share);
        }
        runs.answer.fill(77);
    }

    /// What the call returns on these runs.
    pub fn run(&self, call: Call, runs: &mut Runs) -> u64 {
        self.load(runs);
        runs.call(call, self.width, self.bits, &self.lengths)
    }

    pub fn text(&self) -> String {
        format!(
            "width {}, {} bits, {:?}, items {:?}, sub-share out of range {:?}",
            self.width, self.bits, self.lengths, self.items, self.outside
        )
    }
}
