//! Times Rattle against plain Rust and against the reference, on the same inputs and in one run.
//!
//! bench           times every row but that of whole jobs, and prints them as lines
//! bench FILE...   reads such lines, adds that row, and prints the tables

mod batch;
mod chains;
mod measure;
mod orders;
mod whole;

#[allow(dead_code)]
#[path = "../tests/library/arena.rs"]
mod arena;
#[path = "../tests/library/batch_runs.rs"]
mod batch_runs;
#[path = "../tests/library/batches.rs"]
mod batches;
#[allow(dead_code)]
#[path = "../tests/library/interface.rs"]
mod interface;
#[allow(dead_code)]
#[path = "../tests/library/steps.rs"]
mod steps;

use jobs::draw::Draw;
use measure::{least, table, Row};

const SEED: u64 = 20_240_601;

/// Rows that document 000 has in its table 1, with its figure: millions a second, semi-honest, ten million values.
const TABLE_1: [(&str, f64); 3] = [
    ("decompose 2, ring 31", 65.789),
    ("decompose 29, ring 31", 5.821),
    ("convert 31 to 61", 4.833),
];

fn table_1(rows: &[Row]) {
    println!(
        "{:<28} {:>10} {:>10} {:>10}",
        "millions a second", "one by one", "batch", "000"
    );
    for (name, figure) in TABLE_1 {
        let row = rows.iter().find(|row| row.name == name).unwrap();
        let of_batch = batch::per_figure(rows, name);
        let of_batch = of_batch.map_or(String::new(), |time| format!("{:.3}", 1e3 / time));
        let single = 1e3 / row.times[0];
        println!("{name:<28} {single:>10.3} {of_batch:>10} {figure:>10.3}");
    }
}

/// One pass over the rows of this program, as lines.
fn pass() {
    let mut draw = Draw::new(SEED);
    chains::compare(&mut draw);
    orders::compare(&mut draw);
    batch::compare(&mut draw);
    let rows = [
        chains::rows(&mut draw),
        orders::rows(&mut draw),
        batch::rows(&mut draw),
    ];
    for row in rows.iter().flatten() {
        println!("{}", row.line());
    }
}

/// The passes in these files and the row of whole jobs, as tables.
fn tables(files: &[String]) {
    let read = |file: &String| {
        let text = std::fs::read_to_string(file).expect("a pass");
        text.lines().map(Row::read).collect()
    };
    let mut rows = least(files.iter().map(read).collect());
    rows.extend(whole::row(&mut Draw::new(SEED)));
    table(&rows);
    println!();
    batch::beside_single(&rows);
    println!();
    table_1(&rows);
}

fn main() {
    let files: Vec<String> = std::env::args().skip(1).collect();
    if files.is_empty() {
        pass();
    } else {
        tables(&files);
    }
}
