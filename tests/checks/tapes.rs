//! Preparing a tape.

use jobs::draw::Draw;
use reference::ring::Ring;
use reference::tape::prepare;

#[test]
fn codes() {
    for code in [0, 2, 12, 14, 30, 32, 60, 62, 64, u64::MAX] {
        let mut run = [3; 4];
        assert_eq!(prepare(code, &[], &mut run), Err(5));
        assert_eq!(prepare(code, &[1; 9], &mut run), Err(5));
        assert_eq!(prepare(code, &[1; 9], &mut []), Err(5));
        assert_eq!(run, [3; 4]);
    }
}

#[test]
fn bits_take_the_lowest() {
    let mut run = [9; 4];
    let raw = [u64::MAX, 2, 1, u64::MAX - 1, 7];
    assert_eq!(prepare(1, &raw, &mut run), Ok(4));
    assert_eq!(run, [1, 0, 1, 0]);
    assert_eq!(prepare(1, &raw[..3], &mut run), Err(12));
    assert_eq!(run, [1, 0, 1, 0]);
}

#[test]
fn all_ones_are_dropped() {
    for ring in Ring::all() {
        let p = ring.modulus();
        let mut run = [9; 2];
        let raw = [p, u64::MAX, p + 1, p, p - 1, 5];
        assert_eq!(prepare(ring.width(), &raw, &mut run), Ok(5));
        assert_eq!(run, [0, p - 1]);
        assert_eq!(prepare(ring.width(), &raw[..4], &mut run), Err(12));
        assert_eq!(run, [0, p - 1]);
        assert_eq!(prepare(ring.width(), &[], &mut []), Ok(0));
        assert_eq!(prepare(ring.width(), &raw, &mut []), Ok(0));
    }
}

#[test]
fn exactly_enough_or_one_short() {
    let mut draw = Draw::new(20);
    for ring in Ring::all() {
        for length in 1..200 {
            let raw: Vec<u64> = (0..4 * length).map(|_| draw.raw(ring)).collect();
            let fits = |word: &&u64| *word & ring.modulus() != ring.modulus();
            let items: Vec<u64> = raw
                .iter()
                .filter(fits)
                .map(|w| w & ring.modulus())
                .collect();
            let mut run = vec![1 << 63; length];
            let Ok(used) = prepare(ring.width(), &raw, &mut run) else {
                assert!(items.len() < length);
                continue;
            };
            assert_eq!(run, items[..length]);
            let mut again = vec![1 << 63; length];
            let enough = &raw[..used as usize];
            assert_eq!(prepare(ring.width(), enough, &mut again), Ok(used));
            assert_eq!(again, run);
            let short = &enough[..enough.len() - 1];
            assert_eq!(prepare(ring.width(), short, &mut again), Err(12));
        }
    }
}
