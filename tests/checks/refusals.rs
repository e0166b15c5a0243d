//! The edges of every check, and which of two faults is named.

use crate::bench::Bench;
use reference::ring::Ring;

const BIG: u64 = u64::MAX;
const LIMIT: usize = 1_000_000;

/// Registers: 0 ring 13, 1 ring 31, 2 ring 61, 3 bits of 5, others empty.
fn bench(length: usize) -> Bench {
    let mut bench = Bench::new(length);
    for (place, ring) in Ring::all().iter().enumerate() {
        bench.put(place, ring.width(), [1, 2, 3]);
    }
    bench.put_bits(3, 5, [1, 2, 31]);
    bench
}

/// An accepted form of each order with gates, and its gates.
const GATED: [(u64, [u64; 3], u64); 5] = [
    (4, [9, 0, 0], 1),
    (5, [9, 0, 3], 10),
    (6, [9, 1, 61], 5),
    (7, [9, 0, 10], 36),
    (8, [9, 3, 31], 10),
];

#[test]
fn one_unsound_record() {
    let spoil: [fn(&mut Bench); 12] = [
        |b| b.put(7, 13, [8191, 0, 0]),
        |b| b.put(7, 31, [0, (1 << 31) - 1, 0]),
        |b| b.put(7, 61, [0, 0, (1 << 61) - 1]),
        |b| b.put(15, 13, [0, 0, BIG]),
        |b| b.put_bits(7, 0, [0; 3]),
        |b| b.put_bits(7, 60, [0; 3]),
        |b| b.put_bits(7, BIG, [0; 3]),
        |b| b.put_bits(7, 5, [0, 0, 32]),
        |b| b.put_bits(0, 59, [1 << 59, 0, 0]),
        |b| b.record.masks = 1_000_001,
        |b| b.record.channels = 1_000_001,
        |b| b.record.dealer = BIG,
    ];
    for spoil in spoil {
        for kind in 1..=9 {
            let mut bench = bench(8);
            spoil(&mut bench);
            let fields = [16, BIG, BIG];
            let fields = if kind == 9 { &fields[..1] } else { &fields };
            assert_eq!(bench.refusal(kind, fields), 1, "kind {kind}");
        }
    }
}

#[test]
fn the_last_sound_record() {
    let mut bench = bench(8);
    bench.put(4, 13, [8190; 3]);
    bench.put(5, 61, [(1 << 61) - 2; 3]);
    bench.put_bits(6, 1, [1; 3]);
    bench.put_bits(7, 59, [(1 << 59) - 1; 3]);
    bench.record.masks = 1_000_000;
    bench.record.channels = 1_000_000;
    bench.record.dealer = 1_000_000;
    assert_eq!(bench.refusal(2, &[15, 4, 4]), 0);
    assert_eq!(bench.refusal(9, &[15]), 11);
    assert_eq!(bench.refusal(4, &[15, 4, 4]), 9);
    assert_eq!(bench.refusal(1, &[15, 13, 0]), 9);
}

#[test]
fn two_register_numbers() {
    for bad in [16, 17, 256, 1 << 32, BIG] {
        for kind in 1..=9 {
            let mut bench = bench(8);
            // Every other field is at fault too.
            let fields: &[u64] = if kind == 9 { &[bad] } else { &[bad, 14, BIG] };
            assert_eq!(bench.refusal(kind, fields), 2);
            if (2..=8).contains(&kind) {
                assert_eq!(bench.refusal(kind, &[0, bad, BIG]), 2);
            }
            if kind == 2 || kind == 4 {
                assert_eq!(bench.refusal(kind, &[0, 14, bad]), 2);
            }
        }
    }
    assert_eq!(bench(8).refusal(2, &[15, 0, 0]), 0);
    assert_eq!(bench(8).refusal(2, &[15, 15, 15]), 3);
}

#[test]
fn sources_of_pairs() {
    for kind in [2, 4] {
        for (x, y, refusal) in [
            (4, 0, 3),
            (0, 4, 3),
            (3, 4, 3),
            (4, 3, 3),
            (3, 0, 4),
            (0, 3, 4),
            (3, 3, 4),
            (0, 1, 6),
            (2, 1, 6),
            (0, 0, 0),
            (2, 2, 0),
        ] {
            assert_eq!(bench(8).refusal(kind, &[5, x, y]), refusal);
        }
        // Faults of the sources come before those of the runs.
        let mut bench = bench(8);
        bench.masks[1].pop();
        assert_eq!(bench.refusal(kind, &[5, 0, 1]), 6);
    }
}

#[test]
fn single_sources_and_ranges() {
    let p = [8191, (1 << 31) - 1, (1 << 61) - 1];
    for (x, e) in [(0, 13), (1, 31), (2, 61)] {
        let modulus = p[x as usize];
        for (kind, field, refusal) in [
            (3, 0, 0),
            (3, modulus - 1, 0),
            (3, modulus, 7),
            (3, BIG, 7),
            (5, 0, 7),
            (5, 1, 0),
            (5, e - 2, 0),
            (5, e - 1, 7),
            (5, e, 7),
            (5, BIG, 7),
            (7, 0, 0),
            (7, e - 3, 0),
            (7, e - 2, 7),
            (7, BIG, 7),
            (6, e, 0),
        ] {
            assert_eq!(bench(300).refusal(kind, &[4, x, field]), refusal);
            assert_eq!(bench(300).refusal(kind, &[4, 4, field]), 3);
            assert_eq!(bench(300).refusal(kind, &[4, 3, field]), 4);
        }
    }
}

#[test]
fn rings_named_in_a_field() {
    for width in [0, 1, 2, 12, 14, 30, 32, 60, 62, 64, (1 << 32) + 13, BIG] {
        let mut bench = bench(8);
        assert_eq!(bench.refusal(1, &[0, width, BIG]), 5);
        assert_eq!(bench.refusal(6, &[0, 4, width]), 3);
        assert_eq!(bench.refusal(6, &[0, 3, width]), 4);
        assert_eq!(bench.refusal(6, &[0, 0, width]), 5);
        assert_eq!(bench.refusal(8, &[0, 4, width]), 3);
        assert_eq!(bench.refusal(8, &[0, 0, width]), 4);
        assert_eq!(bench.refusal(8, &[0, 3, width]), 5);
    }
    assert_eq!(bench(10).refusal(8, &[0, 3, 13]), 0);
}

#[test]
fn dealing() {
    for ring in Ring::all() {
        let (e, p) = (ring.width(), ring.modulus());
        let with = |dealer: &[u64], at: u64, v: u64| {
            let mut bench = bench(0);
            bench.dealer = dealer.to_vec();
            bench.record.dealer = at;
            bench.refusal(1, &[15, e, v])
        };
        assert_eq!(with(&[p - 1, p - 1], 0, p - 1), 0);
        assert_eq!(with(&[p, p], 1, p), 7);
        assert_eq!(with(&[0, 0], 0, p), 7);
        assert_eq!(with(&[p, p], 1, 0), 9);
        assert_eq!(with(&[p, p], 3, 0), 9);
        assert_eq!(with(&[], 0, 0), 9);
        assert_eq!(with(&[p, 0], 0, 0), 10);
        assert_eq!(with(&[0, p], 0, 0), 10);
        assert_eq!(with(&[BIG, 0, 0, BIG], 1, 0), 0);
        assert_eq!(with(&[0; LIMIT], 999_998, 0), 0);
        assert_eq!(with(&[0; LIMIT], 999_999, 0), 9);
        assert_eq!(with(&[0; LIMIT + 1], 1_000_000, 0), 8);
        assert_eq!(with(&[0; LIMIT + 1], 0, p), 7);
    }
}

#[test]
fn items_and_words_left() {
    for (kind, fields, gates) in GATED {
        let n = gates as usize;
        assert_eq!(bench(n).step(kind, &fields).gates, gates);
        let mut short = bench(n);
        short.masks = short.masks.map(|tape| tape[1..].to_vec());
        assert_eq!(short.refusal(kind, &fields), 9);
        short.channels = short.channels.map(|words| words[1..].to_vec());
        assert_eq!(short.refusal(kind, &fields), 9);
        let mut crowded = bench(n);
        crowded.channels = crowded.channels.map(|words| words[1..].to_vec());
        assert_eq!(crowded.refusal(kind, &fields), 11);
        crowded.masks[2][n - 1] = BIG;
        assert_eq!(crowded.refusal(kind, &fields), 11);
        let mut moved = bench(n + 3);
        moved.record.masks = 3;
        assert_eq!(moved.step(kind, &fields).gates, gates);
        moved.record.masks = 4;
        assert_eq!(moved.refusal(kind, &fields), 9);
        moved.record.masks = 0;
        assert_eq!(moved.record.channels, gates);
        moved.record.channels = 4;
        assert_eq!(moved.refusal(kind, &fields), 11);
    }
}

/// The modulus of an order's gate, by the kinds of `GATED`.
fn modulus_at(kind: u64, gate: usize) -> u64 {
    let in_ring = match kind {
        4 | 7 => 8191,
        6 => (1 << 61) - 1,
        _ => (1 << 31) - 1,
    };
    let first_in_ring = match kind {
        4 | 8 => 0,
        6 => 1,
        _ => 34,
    };
    if gate < first_in_ring {
        2
    } else {
        in_ring
    }
}

/// What an order answers to one item of a tape, with items out of range before and after those that it takes.
fn refusal_of_item(
    kind: u64,
    fields: &[u64],
    gates: usize,
    (tape, gate): (usize, usize),
    item: u64,
) -> u64 {
    let mut bench = bench(gates + 2);
    bench.record.masks = 1;
    bench.masks[tape][0] = BIG;
    bench.masks[tape][gates + 1] = BIG;
    bench.masks[tape][gate + 1] = item;
    bench.refusal(kind, fields)
}

#[test]
fn items_out_of_range() {
    for (kind, fields, gates) in GATED {
        let gates = gates as usize;
        for place in (0..gates).flat_map(|gate| [0, 1, 2].map(|tape| (tape, gate))) {
            let modulus = modulus_at(kind, place.1);
            for (item, refusal) in [(modulus - 1, 0), (modulus, 10), (BIG, 10)] {
                let found = refusal_of_item(kind, &fields, gates, place, item);
                assert_eq!(found, refusal);
            }
        }
    }
}

#[test]
fn lengths() {
    for (kind, fields, _) in GATED {
        for run in 0..3 {
            let mut uneven = bench(40);
            uneven.masks[run].push(0);
            assert_eq!(uneven.refusal(kind, &fields), 8);
            uneven.masks[run].truncate(0);
            assert_eq!(uneven.refusal(kind, &fields), 8);
            let mut uneven = bench(40);
            uneven.channels[run].pop();
            assert_eq!(uneven.refusal(kind, &fields), 8);
            assert_eq!(uneven.refusal(9, &[0]), 8);
            assert_eq!(uneven.refusal(9, &[4]), 3);
        }
    }
    let mut long = bench(40);
    long.masks = [0; 3].map(|_| vec![0; LIMIT + 1]);
    assert_eq!(long.refusal(4, &[5, 0, 0]), 8);
    assert_eq!(long.refusal(9, &[0]), 0);
    let mut long = bench(40);
    long.dealer = vec![0; LIMIT + 1];
    assert_eq!(long.refusal(4, &[5, 0, 0]), 0);
    assert_eq!(long.refusal(2, &[5, 0, 0]), 0);
    long.channels = [0; 3].map(|_| vec![0; LIMIT + 1]);
    assert_eq!(long.refusal(4, &[5, 0, 0]), 8);
    assert_eq!(long.refusal(9, &[0]), 8);
    assert_eq!(long.refusal(3, &[5, 0, 0]), 0);
}

#[test]
fn runs_of_a_million() {
    let mut bench = bench(LIMIT);
    bench.record.masks = 999_999;
    bench.record.channels = 999_998;
    assert_eq!(bench.refusal(6, &[5, 0, 13]), 9);
    assert_eq!(bench.refusal(4, &[5, 0, 0]), 0);
    assert_eq!(bench.record.positions(), [1_000_000, 999_999, 0]);
    assert_eq!(bench.refusal(4, &[5, 0, 0]), 9);
    assert_eq!(bench.refusal(9, &[5]), 0);
    assert_eq!(bench.refusal(9, &[5]), 11);
}

#[test]
fn opening() {
    assert_eq!(bench(0).refusal(9, &[4]), 3);
    assert_eq!(bench(0).refusal(9, &[0]), 11);
    let mut bench = bench(2);
    bench.masks[0].pop();
    bench.record.channels = 1;
    assert_eq!(bench.step(9, &[0]).value, 6);
    assert_eq!(bench.step(9, &[0]).refusal, 11);
    bench.record.channels = 5;
    assert_eq!(bench.step(9, &[3]).refusal, 11);
}
