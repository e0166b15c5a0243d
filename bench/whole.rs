//! The row of whole jobs: programs run on one file of a million lines.

use crate::measure::{measure, Row};
use jobs::draw::Draw;
use jobs::orders::sensible;
use jobs::valid::choose;
use jobs::writer::Writer;
use reference::job::LAST_LINE;
use std::fs::{read, write, File};
use std::path::Path;
use std::process::{Command, Stdio};

const NAME: &str = "job of 1,000,000, a line";
const ROUNDS: usize = 25;
const JOB: &str = "target/bench/job";
const PRINTED: &str = "target/bench/printed";
/// Rattle, plain Rust, reference.
const PROGRAMS: [&str; 3] = [
    "crates/survey/out/survey",
    "target/bench/survey_plain",
    "target/bench/reference",
];

/// Accepted orders until the channels are full, then orders of all kinds on what the registers hold.
fn job(draw: &mut Draw) -> Vec<u8> {
    let mut writer = Writer::new(false);
    while writer.orders < LAST_LINE as u64 {
        if writer.words_left() > 0 {
            let order = choose(draw, &writer, 40);
            writer.supplied(draw, order);
        } else {
            let order = sensible(draw, writer.record());
            writer.order(order);
        }
    }
    writer.finish(draw)
}

fn run_program(program: &str, output: Stdio) {
    let status = Command::new(program)
        .stdin(File::open(JOB).unwrap())
        .stdout(output)
        .status();
    assert!(status.unwrap().success(), "{program} failed");
}

fn printed(program: &str) -> Vec<u8> {
    run_program(program, File::create(PRINTED).unwrap().into());
    read(PRINTED).unwrap()
}

/// Nanoseconds a line.
fn times() -> Vec<f64> {
    let [mut ours, mut plain, mut reference] =
        PROGRAMS.map(|program| move || run_program(program, Stdio::null()));
    let times = measure(ROUNDS, 1, &mut [&mut ours, &mut plain, &mut reference]);
    times.iter().map(|time| time / LAST_LINE as f64).collect()
}

/// The row, where all programs are there.
pub fn row(draw: &mut Draw) -> Option<Row> {
    if let Some(missing) = PROGRAMS.iter().find(|program| !Path::new(program).exists()) {
        println!("{NAME} left out: there is no {missing}");
        return None;
    }
    write(JOB, job(draw)).unwrap();
    let [ours, plain, reference] = PROGRAMS.map(printed);
    assert!(ours == reference, "Rattle prints something else");
    assert!(plain == reference, "plain Rust prints something else");
    let (name, times) = (NAME.to_string(), times());
    Some(Row { name, times })
}
