//! The words that are lent: tapes and channels longer than any length used.

use jobs::draw::Draw;
use reference::machine::Lent;
use reference::record::LIMIT;

/// Room past the longest lent run, to catch words written beyond it.
const MARGIN: usize = 64;
pub const ROOM: usize = LIMIT as usize + MARGIN;

/// The lengths lent of each run.
#[derive(Clone, Debug)]
pub struct Lengths {
    pub masks: [usize; 3],
    pub dealer: usize,
    pub channels: [usize; 3],
}

#[derive(Clone, PartialEq, Eq)]
pub struct Arena {
    pub masks: [Vec<u64>; 3],
    pub dealer: Vec<u64>,
    pub channels: [Vec<u64>; 3],
}

impl Arena {
    pub fn new(draw: &mut Draw) -> Arena {
        let mut run = || -> Vec<u64> { (0..ROOM).map(|_| draw.word()).collect() };
        Arena {
            masks: [run(), run(), run()],
            dealer: run(),
            channels: [run(), run(), run()],
        }
    }

    pub fn lend(&mut self, lengths: &Lengths) -> Lent<'_> {
        let [m0, m1, m2] = &self.masks;
        let [c0, c1, c2] = &mut self.channels;
        let [n0, n1, n2] = lengths.channels;
        Lent {
            masks: [
                &m0[..lengths.masks[0]],
                &m1[..lengths.masks[1]],
                &m2[..lengths.masks[2]],
            ],
            dealer: &self.dealer[..lengths.dealer],
            channels: [&mut c0[..n0], &mut c1[..n1], &mut c2[..n2]],
        }
    }

    /// The words of each run about a position, those past its length too.
    pub fn about(&self, positions: [u64; 3], width: usize) -> [&[u64]; 7] {
        let window = |run: &'_ [u64], position: u64| {
            let at = (position as usize).min(ROOM);
            (at.saturating_sub(4), run.len().min(at + width + 4))
        };
        let [m0, m1, m2] = &self.masks;
        let [c0, c1, c2] = &self.channels;
        let [masks, channels, dealer] = positions;
        let runs: [(&Vec<u64>, u64); 7] = [
            (m0, masks),
            (m1, masks),
            (m2, masks),
            (&self.dealer, dealer),
            (c0, channels),
            (c1, channels),
            (c2, channels),
        ];
        runs.map(|(run, position)| {
            let (from, to) = window(run, position);
            &run[from..to]
        })
    }
}
