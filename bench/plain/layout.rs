//! Record, order and answer as words: the work of `survey_step`.

use crate::record::{soundness, Record};
use crate::step::{step, with_three, Answer, Order, Runs};

pub const MALFORMED: u64 = 100;

fn read_order(words: &[u64]) -> Option<Order> {
    match *words {
        [9, x, 0, 0] => Some(Order::Open { x }),
        [kind, a, b, c] => with_three(kind, a, b, c),
        _ => None,
    }
}

/// One order on the words of a record, by the call that the library exports: a slice is passed as its address and its length.
/// MALFORMED changes nothing.
#[allow(improper_ctypes_definitions)]
pub extern "C" fn survey_step(
    order: &[u64],
    record: &mut [u64],
    m0: &[u64],
    m1: &[u64],
    m2: &[u64],
    dealer: &[u64],
    c0: &mut [u64],
    c1: &mut [u64],
    c2: &mut [u64],
    answer: &mut [u64],
) -> u64 {
    let (Ok(record), Ok(answer)) = (
        <&mut Record>::try_from(record),
        <&mut [u64; 3]>::try_from(answer),
    ) else {
        return MALFORMED;
    };
    let (Some(sound), Some(order)) = (soundness(record), read_order(order)) else {
        return MALFORMED;
    };
    let runs = Runs {
        masks: [m0, m1, m2],
        dealer,
        channels: [c0, c1, c2],
    };
    let given = if sound {
        step(record, order, runs)
    } else {
        Answer::refused(1)
    };
    *answer = [given.refusal, given.value, given.gates];
    given.refusal
}
