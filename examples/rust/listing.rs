//! 01's worked listing by the library: a dealer's tape of 1 and 2, then deal 5 in ring 13 to register 0, open register 0,
//! open register 3, which is empty. Prints the listing's three lines.

mod survey;

use survey::{Order, Set};

fn main() {
    let mut set = Set::new([&[], &[], &[]], &[1, 2], 8);
    let orders = [
        Order::Deal { d: 0, e: 13, v: 5 },
        Order::Open { x: 0 },
        Order::Open { x: 3 },
    ];
    // The listing's lines 1 and 2 are the two items of the dealer's tape.
    for (line, order) in (3..).zip(orders) {
        let (refusal, value) = match set.step(order) {
            Ok(answer) => (0, answer.value),
            Err(refusal) => (refusal, 0),
        };
        let [masks, channels] = set.positions();
        println!("{line},{refusal},{value},{masks},{channels}");
    }
}
