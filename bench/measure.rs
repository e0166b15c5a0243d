//! Least times of sides that take turns, and the rows of a table.

use std::time::Instant;

/// Nanoseconds for one call of each side: the least over rounds of so many turns.
pub fn measure(rounds: usize, turns: usize, sides: &mut [&mut dyn FnMut()]) -> Vec<f64> {
    let mut least = vec![f64::INFINITY; sides.len()];
    for _ in 0..rounds {
        for (least, run) in least.iter_mut().zip(sides.iter_mut()) {
            let start = Instant::now();
            for _ in 0..turns {
                run();
            }
            *least = least.min(start.elapsed().as_nanos() as f64 / turns as f64);
        }
    }
    least
}

/// A row of the table: nanoseconds of Rattle, of plain Rust, and of the reference where it has the row.
pub struct Row {
    pub name: String,
    pub times: Vec<f64>,
}

impl Row {
    /// A line of a pass: the name and the times, with tabs between.
    pub fn line(&self) -> String {
        let times: String = self.times.iter().map(|time| format!("\t{time}")).collect();
        format!("{}{times}", self.name)
    }

    pub fn read(line: &str) -> Row {
        let mut fields = line.split('\t');
        Row {
            name: fields.next().expect("a name").to_string(),
            times: fields.map(|time| time.parse().expect("a time")).collect(),
        }
    }

    fn print(&self) {
        let Row { name, times } = self;
        print!("{name:<28} {:>10.1}", times[0]);
        for time in &times[1..] {
            print!(" {time:>10.1} {:>6.2}", times[0] / time);
        }
        println!();
    }
}

/// The rows of several passes, each time the least of them: what else the machine does lasts longer than a row, and each
/// pass is a program with its code in other places.
pub fn least(passes: Vec<Vec<Row>>) -> Vec<Row> {
    let less = |mut rows: Vec<Row>, again: Vec<Row>| {
        for (row, again) in rows.iter_mut().zip(again) {
            assert_eq!(row.name, again.name);
            for (least, time) in row.times.iter_mut().zip(again.times) {
                *least = least.min(time);
            }
        }
        rows
    };
    passes.into_iter().reduce(less).expect("a pass")
}

pub fn table(rows: &[Row]) {
    println!(
        "{:<28} {:>10} {:>10} {:>6} {:>10} {:>6}",
        "ns", "Rattle", "plain Rust", "ratio", "reference", "ratio"
    );
    rows.iter().for_each(Row::print);
}
