//! Random cases of `survey_step`.

use crate::arena::{Arena, Lengths, ROOM};
use jobs::draw::Draw;
use jobs::orders::{edgy, needs, sensible, Needs};
use jobs::records;
use reference::layout::{record_words, ANSWER_WORDS, ORDER_WORDS, RECORD_WORDS, REGISTER_WORDS};
use reference::order::Order;
use reference::record::{Record, Register, LIMIT, REGISTERS};
use reference::ring::Ring;

pub struct Case {
    pub order: Vec<u64>,
    pub record: Vec<u64>,
    pub answer_length: usize,
    pub lengths: Lengths,
    pub positions: [u64; 3],
    masks: Vec<[u64; 3]>,
    dealer: Vec<u64>,
}

/// Where a run stands: a position, and a length about what is needed.
fn stand(draw: &mut Draw, needed: usize) -> (u64, usize) {
    let limit = LIMIT as usize;
    let extra = draw.place(40);
    let left = match draw.below(20) {
        0 | 1 => needed.saturating_sub(1),
        2 => draw.place(needed + 1),
        3..=9 => needed,
        10..=12 => needed + 1,
        _ => needed + extra,
    };
    match draw.below(40) {
        // Beyond the end of a shorter run.
        0 => (LIMIT, limit - 1 - extra),
        1 => (1 + extra as u64, draw.place(extra + 1)),
        2..=7 => ((limit - left) as u64, limit),
        8..=12 => {
            let at = draw.place(limit - left);
            (at as u64, at + left)
        }
        _ => (extra as u64, extra + left),
    }
}

/// Three lengths, mostly equal and in bounds.
fn three(draw: &mut Draw, length: usize) -> [usize; 3] {
    let limit = LIMIT as usize;
    let mut lengths = [length; 3];
    let one = &mut lengths[draw.place(3)];
    match draw.below(80) {
        0 => *one = length + 1,
        1 => *one = length.saturating_sub(1),
        2 => *one = draw.place(ROOM),
        3 => *one = limit + 1,
        4 => lengths = [limit + 1; 3],
        5 => lengths = [limit + 1 + draw.place(ROOM - limit); 3],
        _ => (),
    }
    lengths
}

/// Items in range; at times one is not, at the first or last taken too.
fn items<const N: usize>(draw: &mut Draw, moduli: &[u64]) -> Vec<[u64; N]> {
    let mut items: Vec<[u64; N]> = moduli
        .iter()
        .map(|&m| [0; N].map(|_| draw.item(m)))
        .collect();
    if !moduli.is_empty() && draw.chance(7) {
        let last = moduli.len() - 1;
        let any = draw.place(moduli.len());
        let at = draw.pick(&[0, last, any]);
        items[at][draw.place(N)] = draw.at_least(moduli[at]);
    }
    items
}

impl Case {
    pub fn new(draw: &mut Draw) -> Case {
        let record = records::sound(draw);
        let order = if draw.chance(75) {
            sensible(draw, &record)
        } else {
            edgy(draw, &record)
        };
        Case::of(draw, record, order)
    }

    /// A shift by s of a number of a ring.
    pub fn shift(draw: &mut Draw, ring: Ring, s: u64) -> Case {
        let mut record = records::sound(draw);
        let [d, x] = [0; 2].map(|_| draw.below(16));
        let shares = [0; 3].map(|_| draw.item(ring.modulus()));
        record.registers[x as usize] = Register::Number { ring, shares };
        Case::of(draw, record, Order::Shift { d, x, s })
    }

    fn of(draw: &mut Draw, mut record: Record, order: Order) -> Case {
        let (gates, deals) = match needs(&record, order) {
            Needs::Masks(moduli) => (moduli, Vec::new()),
            Needs::Dealer(moduli) => (Vec::new(), moduli),
            Needs::Nothing => Default::default(),
        };
        let (masks, mask_length) = stand(draw, gates.len());
        let (channels, channel_length) = stand(draw, gates.len().max(1));
        let (dealer, dealer_length) = stand(draw, 2);
        (record.masks, record.channels, record.dealer) = (masks, channels, dealer);
        let lengths = Lengths {
            masks: three(draw, mask_length),
            dealer: three(draw, dealer_length)[0],
            channels: three(draw, channel_length),
        };
        let positions = record.positions();
        if draw.chance(5) {
            records::spoil(draw, &mut record);
        }
        Case {
            order: order.words().to_vec(),
            record: record_words(&record),
            answer_length: ANSWER_WORDS,
            lengths,
            positions,
            masks: items::<3>(draw, &gates),
            dealer: items::<1>(draw, &deals).concat(),
        }
    }

    /// Puts the items where the order will take them.
    pub fn load(&self, arena: &mut Arena) {
        let [masks, _, dealer] = self.positions;
        for (k, items) in (masks as usize..ROOM).zip(&self.masks) {
            for (tape, &item) in arena.masks.iter_mut().zip(items) {
                tape[k] = item;
            }
        }
        for (k, &item) in (dealer as usize..ROOM).zip(&self.dealer) {
            arena.dealer[k] = item;
        }
    }

    /// Takes order, record or answer out of the layout.
    pub fn damage(&mut self, draw: &mut Draw) {
        let any = draw.word();
        let place = REGISTER_WORDS * draw.place(REGISTERS);
        let register = &mut self.record[place..place + REGISTER_WORDS];
        match draw.below(8) {
            0 => self.order[0] = draw.pick(&[0, 10, 11, 13, (1 << 32) + 1, u64::MAX, any]),
            1 => self.order = vec![9, draw.below(16), draw.below(2), 1 + draw.below(3)],
            2 => self.order = vec![9, draw.below(16), 1 + draw.below(3), draw.below(2)],
            3 => {
                let length = draw.pick(&[0, ORDER_WORDS - 1, ORDER_WORDS + 1, 8]);
                self.order.resize(length, 0);
            }
            4 => {
                let length = draw.pick(&[0, 3, RECORD_WORDS - 1, RECORD_WORDS + 1, 90]);
                self.record.resize(length, 0);
            }
            5 => self.answer_length = draw.pick(&[0, 1, ANSWER_WORDS - 1, ANSWER_WORDS + 1, 9]),
            6 => register[0] = draw.pick(&[3, 4, 1 << 32, (1 << 32) + 1, u64::MAX]),
            _ if draw.chance(50) => {
                register.fill(0);
                register[1 + draw.place(4)] = 1 + draw.below(13);
            }
            _ => {
                register.fill(0);
                let width = draw.pick(&[0, 1, 12, 14, 30, 32, 60, 62, 64, (1 << 32) + 13]);
                register[..2].copy_from_slice(&[1, width]);
            }
        }
    }

    /// The most words that this order can write.
    pub fn width(&self) -> usize {
        self.masks.len().max(1)
    }

    pub fn text(&self) -> String {
        format!(
            "order {:?}, positions {:?}, lengths {:?}, answer of {} words, record {:?}",
            self.order, self.positions, self.lengths, self.answer_length, self.record
        )
    }
}
