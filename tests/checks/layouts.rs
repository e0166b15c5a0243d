//! Record, order and answer as words.

use jobs::draw::Draw;
use jobs::records;
use reference::batch::{FIGURES, NOT_64};
use reference::layout::*;
use reference::machine::Lent;
use reference::record::Record;

fn step(order: &[u64], record: &mut [u64], answer: &mut [u64]) -> u64 {
    let mut words = [0; 3].map(|_| vec![0; 8]);
    let mut lent = Lent {
        masks: [&[0; 8]; 3],
        dealer: &[1, 2],
        channels: words.each_mut().map(Vec::as_mut_slice),
    };
    step_words(order, record, &mut lent, answer)
}

#[test]
fn records_read_back() {
    let mut draw = Draw::new(30);
    for _ in 0..2_000 {
        let record = records::sound(&mut draw);
        assert!(record.is_sound());
        assert_eq!(read_record(&record_words(&record)), Some(record));
    }
    assert_eq!(record_words(&Record::empty()), vec![0; RECORD_WORDS]);
}

#[test]
fn a_deal_on_words() {
    let mut record = vec![0; RECORD_WORDS];
    let mut answer = [7; 3];
    assert_eq!(step(&[1, 1, 13, 5], &mut record, &mut answer), 0);
    assert_eq!(record[5..10], [1, 13, 1, 2, 2]);
    assert_eq!(record[80..], [0, 0, 2]);
    assert_eq!(answer, [0; 3]);
    assert_eq!(step(&[9, 1, 0, 0], &mut record, &mut answer), 0);
    assert_eq!(answer, [0, 5, 0]);
    assert_eq!(record[80..], [0, 1, 2]);
    assert_eq!(step(&[4, 2, 1, 1], &mut record, &mut answer), 0);
    assert_eq!(answer, [0, 0, 1]);
    assert_eq!(record[80..], [1, 2, 2]);
    assert_eq!(step(&[1, 16, 13, 5], &mut record, &mut answer), 2);
    assert_eq!(answer, [2, 0, 0]);
}

fn malformed(order: &[u64], record: &[u64], length: usize) {
    let mut answer = vec![7; length];
    let mut after = record.to_vec();
    assert_eq!(step(order, &mut after, &mut answer), MALFORMED);
    assert_eq!(after, record);
    assert_eq!(answer, vec![7; length]);
}

#[test]
fn words_outside_the_layout() {
    let open = [9, 0, 0, 0];
    let record = vec![0; RECORD_WORDS];
    for order in [[0; 4], [10, 0, 0, 0], [9, 0, 1, 0], [9, 0, 0, 1]] {
        malformed(&order, &record, ANSWER_WORDS);
    }
    malformed(&open[..3], &record, ANSWER_WORDS);
    malformed(&[9, 0, 0, 0, 0], &record, ANSWER_WORDS);
    malformed(&open, &record[1..], ANSWER_WORDS);
    malformed(&open, &[0; RECORD_WORDS + 1], ANSWER_WORDS);
    malformed(&open, &record, 2);
    malformed(&open, &record, 4);
    for words in [
        [3, 0, 0, 0, 0],
        [0, 0, 0, 0, 1],
        [0, 13, 0, 0, 0],
        [1, 12, 0, 0, 0],
    ] {
        let mut record = record.clone();
        record[75..80].copy_from_slice(&words);
        malformed(&open, &record, ANSWER_WORDS);
    }
}

#[test]
fn tape_answers() {
    let mut run = [9; 2];
    let mut answer = [7; 2];
    assert_eq!(
        prepare_words(13, &[8191, 8192, 5], &mut run, &mut answer),
        0
    );
    assert_eq!((run, answer), ([0, 5], [0, 3]));
    assert_eq!(prepare_words(13, &[8191], &mut run, &mut answer), 12);
    assert_eq!((run, answer), ([0, 5], [12, 0]));
    assert_eq!(prepare_words(14, &[8191], &mut run, &mut answer), 5);
    assert_eq!((run, answer), ([0, 5], [5, 0]));
    assert_eq!(prepare_words(13, &[1, 2], &mut run, &mut [0; 3]), MALFORMED);
    assert_eq!(run, [0, 5]);
}

/// Whether include/survey.h gives a name this number.
fn is_named(name: &str, number: u64) -> bool {
    let header = include_str!("../../include/survey.h");
    let words: Vec<&str> = header.split([' ', ',', '\n']).collect();
    let number = number.to_string();
    words.windows(3).any(|found| found == [name, "=", &number])
}

#[test]
fn the_header_has_the_same_numbers() {
    for (name, number) in [
        ("SURVEY_REGISTER_WORDS", REGISTER_WORDS),
        ("SURVEY_RECORD_WORDS", RECORD_WORDS),
        ("SURVEY_ORDER_WORDS", ORDER_WORDS),
        ("SURVEY_ANSWER_WORDS", ANSWER_WORDS),
        ("SURVEY_PREPARED_WORDS", COUNT_WORDS),
        ("SURVEY_BATCH_FIGURES", FIGURES),
    ] {
        assert!(is_named(name, number as u64), "{name}");
    }
    assert!(is_named("SURVEY_NOT_64", NOT_64));
    assert!(is_named("SURVEY_MALFORMED", MALFORMED));
}
