//! The gate and the words on the channels.

use crate::bench::{sharing, Bench};
use jobs::draw::Draw;
use reference::gate::words;
use reference::ring::Ring;

fn items(draw: &mut Draw, modulus: u64) -> [u64; 3] {
    [0; 3].map(|_| draw.item(modulus))
}

fn total(modulus: u64, shares: [u64; 3]) -> u128 {
    shares.map(u128::from).iter().sum::<u128>() % u128::from(modulus)
}

#[test]
fn words_total_the_product() {
    let mut draw = Draw::new(1);
    for m in [2, 8191, (1 << 31) - 1, (1 << 61) - 1] {
        for _ in 0..20_000 {
            let [x, y, t] = [0; 3].map(|_| items(&mut draw, m));
            let z = words(m, x, y, t);
            assert!(z.iter().all(|&word| word < m));
            let product = total(m, x) * total(m, y) % u128::from(m);
            assert_eq!(total(m, z), product);
        }
    }
}

#[test]
fn a_word_needs_only_what_its_party_holds() {
    let mut draw = Draw::new(2);
    let m = (1 << 61) - 1;
    for i in (0..3).cycle().take(30_000) {
        let [mut x, mut y, mut t] = [0; 3].map(|_| items(&mut draw, m));
        let before = words(m, x, y, t);
        let lacked = (i + 2) % 3;
        for shares in [&mut x, &mut y, &mut t] {
            shares[lacked] = draw.below(m);
        }
        assert_eq!(words(m, x, y, t)[i], before[i]);
    }
}

#[test]
fn no_masks_show_the_products() {
    assert_eq!(words(2, [1, 1, 1], [1, 1, 1], [0, 0, 0]), [1, 1, 1]);
    assert_eq!(words(2, [1, 0, 0], [0, 1, 0], [0, 0, 0]), [1, 0, 0]);
    assert_eq!(words(2, [1, 0, 0], [0, 0, 1], [0, 0, 0]), [0, 0, 1]);
    assert_eq!(words(8191, [0; 3], [0; 3], [1, 2, 4]), [1, 2, 8188]);
}

/// The channels of a decomposition, worked out on single bits.
#[test]
fn decomposition_by_hand() {
    // 4 x (1, 1, 1) = 4, 4, 4; l = 1, n = 3; masks all 0.
    let mut bench = Bench::new(6);
    bench.put(0, 13, [1, 1, 1]);
    assert_eq!(bench.step(5, &[1, 0, 1]).gates, 4);
    // Bits 0 and 1 are 0: all four words are 0, bit 2 is 1, 1, 1.
    assert_eq!(bench.channels, [0; 3].map(|_| vec![0; 6]));
    assert_eq!(bench.shares(1), [1, 1, 1]);
    // 4 x 2048 modulo 8191 = 1 in each part: X = 3.
    bench.put(0, 13, [2048, 2048, 2048]);
    assert_eq!(bench.refusal(5, &[1, 0, 1]), 9);
    bench.record.masks = 0;
    bench.record.channels = 0;
    assert_eq!(bench.step(5, &[1, 0, 1]).gates, 4);
    // (i) bit 0: (1,0,1) by (0,1,1) sends 1,1,0 and carries 1,1,1; bit 1: 0.
    // (ii) sum 0, carry 1,1,1, running carry 0: product of 0 and the carry.
    // (iii) T0 and T1 are 1,1,1 each, three products at every party: 1,1,1.
    let sent = bench
        .channels
        .each_ref()
        .map(|channel| channel[..4].to_vec());
    assert_eq!(sent, [[1, 0, 0, 1], [1, 0, 0, 1], [0, 0, 0, 1]]);
    // T2 is 0, so the bit is z, that is T0 XOR T1 XOR 1,1,1.
    assert_eq!(bench.shares(1), [1, 1, 1]);
    assert_eq!(bench.value(1), 1);
}

#[test]
fn an_opening_sends_the_next_part() {
    let mut draw = Draw::new(3);
    for ring in Ring::all() {
        let mut bench = Bench::new(9);
        bench.record.channels = 4;
        let shares = sharing(&mut draw, ring);
        bench.put(15, ring.width(), shares);
        let answer = bench.step(9, &[15]);
        assert_eq!(u128::from(answer.value), total(ring.modulus(), shares));
        assert_eq!((answer.refusal, answer.gates), (0, 0));
        let sent = bench.channels.map(|channel| channel[4]);
        assert_eq!(sent, [shares[1], shares[2], shares[0]]);
    }
    let mut bench = Bench::new(1);
    bench.put_bits(0, 59, [1 << 58, 3, 5]);
    assert_eq!(bench.step(9, &[0]).value, 1 << 58 | 6);
    assert_eq!(bench.channels, [vec![3], vec![5], vec![1 << 58]]);
}
