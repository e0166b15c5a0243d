//! A machine with lent runs; each step is held to what all orders promise.

use jobs::draw::Draw;
use reference::machine::{step, Answer, Lent};
use reference::order::Order;
use reference::record::{Record, Register, Shares};
use reference::ring::Ring;

#[derive(Clone)]
pub struct Bench {
    pub record: Record,
    pub masks: [Vec<u64>; 3],
    pub dealer: Vec<u64>,
    pub channels: [Vec<u64>; 3],
}

impl Bench {
    /// All registers empty; tapes and channels of `length` zeros.
    pub fn new(length: usize) -> Bench {
        let zeros = [0; 3].map(|_| vec![0; length]);
        Bench {
            record: Record::empty(),
            masks: zeros.clone(),
            dealer: vec![0; length],
            channels: zeros,
        }
    }

    pub fn put(&mut self, place: usize, width: u64, shares: Shares) {
        let ring = Ring::of_width(width).unwrap();
        self.record.registers[place] = Register::Number { ring, shares };
    }

    pub fn put_bits(&mut self, place: usize, count: u64, shares: Shares) {
        self.record.registers[place] = Register::Bits { count, shares };
    }

    pub fn shares(&self, place: usize) -> Shares {
        match self.record.registers[place] {
            Register::Number { shares, .. } | Register::Bits { shares, .. } => shares,
            Register::Empty => panic!("register {place} is empty"),
        }
    }

    pub fn value(&self, place: usize) -> u64 {
        self.record.registers[place].value()
    }

    /// Mask items in range for gates of these moduli, from the start.
    pub fn fill(&mut self, draw: &mut Draw, moduli: &[u64]) {
        for (k, &m) in moduli.iter().enumerate() {
            for tape in &mut self.masks {
                tape[k] = draw.below(m);
            }
        }
    }

    /// One order, by kind and fields as on a job line.
    pub fn step(&mut self, kind: u64, fields: &[u64]) -> Answer {
        let before = self.clone();
        let order = Order::new(kind, fields).unwrap();
        let mut lent = Lent {
            masks: self.masks.each_ref().map(Vec::as_slice),
            dealer: &self.dealer,
            channels: self.channels.each_mut().map(Vec::as_mut_slice),
        };
        let answer = step(&mut self.record, order, &mut lent);
        if answer.refusal == 0 {
            self.hold_accepted(&before, order, answer);
        } else {
            assert_eq!((answer.value, answer.gates), (0, 0));
            assert_eq!(self.record, before.record);
            assert_eq!(self.channels, before.channels);
        }
        answer
    }

    pub fn refusal(&mut self, kind: u64, fields: &[u64]) -> u64 {
        self.step(kind, fields).refusal
    }

    /// Positions rise by what was spent; all else stays.
    fn hold_accepted(&self, before: &Bench, order: Order, answer: Answer) {
        let [kind, d, ..] = order.words();
        let words = answer.gates + u64::from(kind == 9);
        let items = 2 * u64::from(kind == 1);
        let rises = [answer.gates, words, items];
        let (now, then) = (self.record.positions(), before.record.positions());
        assert_eq!(now, [0, 1, 2].map(|i| then[i] + rises[i]));
        assert!(self.record.is_sound());
        for (place, register) in self.record.registers.iter().enumerate() {
            if kind == 9 || place as u64 != d {
                assert_eq!(*register, before.record.registers[place]);
            }
        }
        for (channel, old) in self.channels.iter().zip(&before.channels) {
            let [from, to] = [then[1], now[1]].map(|at| old.len().min(at as usize));
            assert_eq!(channel[..from], old[..from]);
            assert_eq!(channel[to..], old[to..]);
        }
        if kind != 9 {
            assert_eq!(answer.value, 0);
        }
    }
}

/// A random sharing, with parts at the ends of the range more often.
pub fn sharing(draw: &mut Draw, ring: Ring) -> Shares {
    [0; 3].map(|_| draw.item(ring.modulus()))
}
