//! Sixty-four at a time: figures of 01 at every place, the single order beside it, the edges of each check and their turn.

use crate::bench::{sharing, Bench};
use jobs::draw::Draw;
use reference::batch::{batch_words, gates, Batch, FIGURES, NOT_64, WIDTHS};
use reference::layout::MALFORMED;
use reference::record::Shares;
use reference::ring::Ring;

const BIG: u64 = u64::MAX;
const LIMIT: usize = 1_000_000;

/// A call with runs of its own.
#[derive(Clone, PartialEq, Eq, Debug)]
struct Call {
    width: u64,
    bits: u64,
    shares: [Vec<u64>; 3],
    masks: [Vec<u64>; 3],
    channels: [Vec<u64>; 3],
    results: [Vec<u64>; 3],
    answer: Vec<u64>,
}

fn three(mut run: impl FnMut() -> Vec<u64>) -> [Vec<u64>; 3] {
    [run(), run(), run()]
}

fn modulus(width: u64) -> u64 {
    (1 << width) - 1
}

impl Call {
    /// Random sub-shares in range, and words anywhere else; tapes and channels with words to spare.
    fn new(draw: &mut Draw, width: u64, bits: u64) -> Call {
        let length = gates(bits) as usize;
        let shares = three(|| {
            let share = |_| draw.item(modulus(width));
            (0..FIGURES).map(share).collect()
        });
        let mut words = |n: usize| three(|| (0..n).map(|_| draw.word()).collect());
        Call {
            width,
            bits,
            shares,
            masks: words(length + 2),
            channels: words(length + 3),
            results: words(FIGURES),
            answer: vec![77; 3],
        }
    }

    fn put(&mut self, k: usize, figure: Shares) {
        for (run, share) in self.shares.iter_mut().zip(figure) {
            run[k] = share;
        }
    }

    fn figure(&self, k: usize) -> Shares {
        self.shares.each_ref().map(|run| run[k])
    }

    fn result(&self, k: usize) -> Shares {
        self.results.each_ref().map(|run| run[k])
    }

    fn call(&mut self) -> u64 {
        let mut batch = Batch {
            width: self.width,
            bits: self.bits,
            shares: self.shares.each_ref().map(Vec::as_slice),
            masks: self.masks.each_ref().map(Vec::as_slice),
            channels: self.channels.each_mut().map(Vec::as_mut_slice),
            results: self.results.each_mut().map(Vec::as_mut_slice),
        };
        batch_words(&mut batch, &mut self.answer)
    }

    /// What it is refused for, or 0; a refusal answers itself, 0 and 0, and changes nothing else.
    fn refusal(&mut self) -> u64 {
        let mut expected = self.clone();
        let refusal = self.call();
        if refusal == 0 {
            assert_eq!(self.answer, [0, 0, gates(self.bits)]);
            return 0;
        }
        if refusal != MALFORMED {
            expected.answer = vec![refusal, 0, 0];
        }
        assert_eq!(*self, expected);
        refusal
    }
}

/// 01's decompositions at full length, which it has in ring 13: 8000 is p - 191 there, and 2048 is 2^(e-2).
fn figures(width: u64) -> [(Shares, u64); 7] {
    let (p, quarter) = (modulus(width), 1 << (width - 2));
    [
        ([1, 2, 2], 5),
        ([p - 191, 100, 96], 5),
        ([p - 191, p - 191, 387], 5),
        ([p - 1, 1, 0], 0),
        ([quarter - 1, 0, 0], quarter - 1),
        ([quarter, 0, 0], 1),
        ([quarter - 1, 1, 0], 0),
    ]
}

#[test]
fn figures_of_01_at_every_place() {
    let mut draw = Draw::new(50);
    for width in WIDTHS {
        for k in 0..FIGURES {
            let mut call = Call::new(&mut draw, width, width - 2);
            let places = (0..7).map(|turn| (k + 9 * turn) % FIGURES);
            for (place, (figure, _)) in places.clone().zip(figures(width)) {
                call.put(place, figure);
            }
            assert_eq!(call.refusal(), 0);
            for (place, (figure, value)) in places.zip(figures(width)) {
                let [z0, z1, z2] = call.result(place);
                assert_eq!(z0 ^ z1 ^ z2, value, "{figure:?} at place {place}");
            }
        }
    }
}

/// Figure k by the machine's own order, with bit k of each item; what its register and its channels then hold.
fn by_order(call: &Call, k: usize) -> (Shares, [Vec<u64>; 3]) {
    let length = gates(call.bits) as usize;
    let mut bench = Bench::new(length);
    bench.put(0, call.width, call.figure(k));
    bench.masks = call.masks.each_ref().map(|tape| {
        let items = tape[..length].iter();
        items.map(|item| item >> k & 1).collect()
    });
    let answer = bench.step(5, &[0, 0, call.bits]);
    assert_eq!((answer.refusal, answer.gates), (0, gates(call.bits)));
    (bench.shares(0), bench.channels)
}

#[test]
fn each_figure_as_by_the_single_order() {
    let mut draw = Draw::new(51);
    for width in WIDTHS {
        for bits in 1..=width - 2 {
            let before = Call::new(&mut draw, width, bits);
            let mut call = before.clone();
            assert_eq!(call.refusal(), 0);
            let length = gates(bits) as usize;
            for k in 0..FIGURES {
                let (result, sent) = by_order(&before, k);
                assert_eq!(call.result(k), result);
                for (channel, sent) in call.channels.iter().zip(sent) {
                    let bits = channel[..length].iter().map(|word| word >> k & 1);
                    assert!(bits.eq(sent));
                }
            }
            for (channel, old) in call.channels.iter().zip(&before.channels) {
                assert_eq!(channel[length..], old[length..]);
            }
            assert_eq!((&call.shares, &call.masks), (&before.shares, &before.masks));
        }
    }
}

#[test]
fn any_words_serve_as_items() {
    let mut draw = Draw::new(52);
    for item in [0, 1, BIG - 1, BIG] {
        let mut call = Call::new(&mut draw, 31, 29);
        call.masks = call.masks.map(|tape| vec![item; tape.len()]);
        for k in 0..FIGURES {
            call.put(k, [1, 2, 2]);
        }
        assert_eq!(call.refusal(), 0);
        for k in 0..FIGURES {
            let [z0, z1, z2] = call.result(k);
            assert_eq!(z0 ^ z1 ^ z2, 5);
        }
    }
}

/// What spoils a call for each check, the last one first.
const FAULTS: [(u64, fn(&mut Call)); 7] = [
    (11, |call| {
        call.channels
            .iter_mut()
            .for_each(|run| run.truncate(gates(call.bits) as usize - 1))
    }),
    (9, |call| {
        call.masks
            .iter_mut()
            .for_each(|run| run.truncate(gates(call.bits) as usize - 1))
    }),
    (8, |call| call.channels[1].push(0)),
    (10, |call| call.shares[2][63] = modulus(call.width)),
    (7, |call| call.bits = call.width - 1),
    (5, |call| call.width = 13),
    (NOT_64, |call| {
        call.results[0].pop();
    }),
];

#[test]
fn the_first_of_several_faults() {
    let mut draw = Draw::new(53);
    for width in WIDTHS {
        for first in 0..FAULTS.len() {
            // The fault at `first`, with each set of those that are checked later.
            for others in 0..1 << first {
                let mut call = Call::new(&mut draw, width, 9);
                let later = (0..first).filter(|turn| others >> turn & 1 == 1);
                for turn in later.chain([first]) {
                    FAULTS[turn].1(&mut call);
                }
                assert_eq!(call.refusal(), FAULTS[first].0, "with {others:b}");
            }
        }
        let mut call = Call::new(&mut draw, width, 9);
        FAULTS.iter().for_each(|(_, spoil)| spoil(&mut call));
        call.answer.push(77);
        assert_eq!(call.refusal(), MALFORMED);
    }
}

/// What a call of 9 bits in ring 61 is refused for, once it is spoilt.
fn refused(spoil: impl FnOnce(&mut Call)) -> u64 {
    let mut call = Call::new(&mut Draw::new(54), 61, 9);
    spoil(&mut call);
    call.refusal()
}

#[test]
fn answers_of_other_lengths() {
    for length in [0, 1, 2, 4] {
        assert_eq!(refused(|call| call.answer = vec![77; length]), MALFORMED);
    }
}

#[test]
fn six_runs_of_64() {
    for run in 0..3 {
        for length in [0, 1, 63, 65, 128] {
            assert_eq!(refused(|call| call.shares[run].resize(length, 0)), NOT_64);
            assert_eq!(refused(|call| call.results[run].resize(length, 0)), NOT_64);
        }
    }
}

#[test]
fn widths_and_bits() {
    for width in [0, 1, 12, 13, 14, 30, 32, 60, 62, 64, (1 << 32) + 31, BIG] {
        assert_eq!(refused(|call| call.width = width), 5);
    }
    for (width, last) in [(31, 29), (61, 59)] {
        for bits in [0, last + 1, last + 2, 64, 1 << 32, BIG] {
            let mut call = Call::new(&mut Draw::new(55), width, last);
            call.bits = bits;
            assert_eq!(call.refusal(), 7);
        }
        for bits in [1, last] {
            assert_eq!(Call::new(&mut Draw::new(56), width, bits).refusal(), 0);
        }
    }
}

#[test]
fn sub_shares_out_of_range() {
    for width in WIDTHS {
        let p = modulus(width);
        for place in 0..3 * FIGURES {
            for (share, refusal) in [(p - 1, 0), (p, 10), (p + 1, 10), (BIG, 10)] {
                let mut call = Call::new(&mut Draw::new(57), width, 1);
                call.shares[place / FIGURES][place % FIGURES] = share;
                assert_eq!(call.refusal(), refusal);
            }
        }
    }
}

#[test]
fn lengths_of_tapes_and_channels() {
    let all = |runs: &mut [Vec<u64>; 3], length: usize| {
        runs.iter_mut().for_each(|run| run.resize(length, 0));
    };
    for run in 0..3 {
        for length in [0, 27, 28, 29, 32, LIMIT] {
            assert_eq!(refused(|call| call.masks[run].resize(length, 0)), 8);
            assert_eq!(refused(|call| call.channels[run].resize(length, 0)), 8);
        }
    }
    for (length, [masks, channels]) in [
        (0, [9, 11]),
        (27, [9, 11]),
        (28, [0, 0]),
        (LIMIT, [0, 0]),
        (LIMIT + 1, [8, 8]),
    ] {
        assert_eq!(refused(|call| all(&mut call.masks, length)), masks);
        assert_eq!(refused(|call| all(&mut call.channels, length)), channels);
    }
}

#[test]
fn values_of_random_figures() {
    let mut draw = Draw::new(58);
    for width in WIDTHS {
        let ring = Ring::of_width(width).unwrap();
        for bits in 1..=width - 2 {
            let mut call = Call::new(&mut draw, width, bits);
            (0..FIGURES).for_each(|k| call.put(k, sharing(&mut draw, ring)));
            assert_eq!(call.refusal(), 0);
            for k in 0..FIGURES {
                let p = u128::from(ring.modulus());
                let x: u128 = call.figure(k).iter().map(|&a| 4 * u128::from(a) % p).sum();
                let value = (x / 4 + u128::from(x % 4 != 0)) % (1 << bits);
                let [z0, z1, z2] = call.result(k);
                assert_eq!(u128::from(z0 ^ z1 ^ z2), value);
            }
        }
    }
}
