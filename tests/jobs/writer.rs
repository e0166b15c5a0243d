//! Writes a job's lines beside a machine that follows them.

use crate::draw::Draw;
use crate::orders::{needs, Needs};
use reference::job::{Session, CHANNEL_WORDS, TAPE_LINES};
use reference::order::Order;
use reference::record::Record;

/// How tape lines are to be spoilt.
#[derive(Clone, Copy, PartialEq, Eq)]
pub enum Spoil {
    Not,
    /// One item out of range here, but in range in the widest ring.
    Softly,
    /// One item out of range here, perhaps in every ring.
    Hard,
}

/// The widest ring's modulus.
const WIDEST: u64 = (1 << 61) - 1;

/// Kind and fields as a job line.
pub fn order_line(order: Order) -> Vec<u8> {
    let words = order.words();
    let shown = if words[0] == 9 { &words[..2] } else { &words };
    let fields: Vec<String> = shown.iter().map(u64::to_string).collect();
    fields.join(",").into_bytes()
}

pub struct Writer {
    text: Vec<u8>,
    held: Vec<u8>,
    session: Session,
    ahead: bool,
    pub orders: u64,
}

impl Writer {
    /// With `ahead`, orders are held back so that tape lines stand far above.
    pub fn new(ahead: bool) -> Writer {
        Writer {
            text: Vec::new(),
            held: Vec::new(),
            session: Session::new(),
            ahead,
            orders: 0,
        }
    }

    pub fn record(&self) -> &Record {
        &self.session.record
    }

    pub fn line(&mut self, line: &[u8]) {
        self.session.line(line);
        self.text.extend(line);
        self.text.push(b'\n');
    }

    pub fn order(&mut self, order: Order) {
        self.orders += 1;
        self.line(&order_line(order));
        if self.ahead {
            let length = order_line(order).len() + 1;
            let cut = self.text.len() - length;
            self.held.extend(self.text.drain(cut..));
        }
    }

    /// Puts the orders held back under the tape lines written so far.
    pub fn release(&mut self) {
        self.text.append(&mut self.held);
    }

    /// The job's bytes, at times without the last byte 10.
    pub fn finish(mut self, draw: &mut Draw) -> Vec<u8> {
        self.release();
        if draw.chance(40) {
            self.text.pop();
        }
        self.text
    }

    pub fn mask_line(&mut self, items: [u64; 3]) {
        self.line(format!("0,{},{},{}", items[0], items[1], items[2]).as_bytes());
    }

    pub fn dealer_line(&mut self, item: u64) {
        self.line(format!("10,{item}").as_bytes());
    }

    pub fn masks_left(&self) -> usize {
        self.session.masks[0].len() - self.session.record.masks as usize
    }

    pub fn dealer_left(&self) -> usize {
        self.session.dealer.len() - self.session.record.dealer as usize
    }

    pub fn words_left(&self) -> usize {
        CHANNEL_WORDS - self.session.record.channels as usize
    }

    /// Tape lines of each kind that may still be taken.
    pub fn lines_left(&self) -> (usize, usize) {
        let taken = [self.session.masks[0].len(), self.session.dealer.len()];
        (TAPE_LINES - taken[0], TAPE_LINES - taken[1])
    }

    pub fn needs(&self, order: Order) -> Needs {
        needs(self.record(), order)
    }

    /// Whether tape lines and channel words for the order can still be had.
    pub fn fits(&self, order: Order) -> bool {
        let lines = self.lines_left();
        match self.needs(order) {
            Needs::Masks(moduli) => {
                moduli.len() <= self.masks_left() + lines.0 && moduli.len() <= self.words_left()
            }
            Needs::Dealer(moduli) => moduli.len() <= self.dealer_left() + lines.1,
            Needs::Nothing => !matches!(order, Order::Open { .. }) || self.words_left() > 0,
        }
    }

    /// Adds tape lines until only `short` items are lacking for the order.
    pub fn supply(&mut self, draw: &mut Draw, order: Order, short: usize, spoil: Spoil) {
        let needs = self.needs(order);
        let (moduli, have) = match &needs {
            Needs::Masks(moduli) => (moduli, self.masks_left()),
            Needs::Dealer(moduli) => (moduli, self.dealer_left()),
            Needs::Nothing => return,
        };
        let wanted = moduli.len().saturating_sub(short);
        let lacking = &moduli[have.min(wanted)..wanted];
        let spoilt = draw.place(lacking.len() + 1);
        for (k, &m) in lacking.iter().enumerate() {
            let mut items = [0; 3].map(|_| draw.item(m));
            if k == spoilt {
                items[draw.place(3)] = match spoil {
                    Spoil::Not => draw.item(m),
                    Spoil::Softly => (m + draw.below(3)).min(WIDEST - 1),
                    Spoil::Hard => draw.at_least(m),
                };
            }
            match needs {
                Needs::Dealer(_) => self.dealer_line(items[draw.place(3)]),
                _ => self.mask_line(items),
            }
        }
    }

    /// An order with all that it needs.
    pub fn supplied(&mut self, draw: &mut Draw, order: Order) {
        self.supply(draw, order, 0, Spoil::Not);
        self.order(order);
    }
}
