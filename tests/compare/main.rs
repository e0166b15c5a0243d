//! Runs a job program on generated jobs and compares every byte it prints
//! with what the reference prints.
//!
//! compare PROGRAM [JOBS [FIRST_SEED]]   compares
//! compare show SEED                     writes the job of a seed

mod child;

use jobs::draw::Draw;
use jobs::tally::{argument, Tally};
use reference::job::{Row, UNREADABLE};
use std::io::{stdout, Write};
use std::sync::atomic::{AtomicU64, Ordering};
use std::sync::Mutex;
use std::time::Instant;

const THREADS: usize = 2;
/// Jobs of a full run, and the orders that these must have at least.
const JOBS: u64 = 1_200;
const ORDERS: u64 = 1_000_000;

/// The refusals that lines can reach.
const REACHED: [u64; 11] = [0, 2, 3, 4, 5, 6, 7, 9, 10, 11, UNREADABLE];

/// Sizes of the pieces in which a job is handed over; 0 for all at once.
const PIECES: [usize; 12] = [0, 0, 0, 0, 0, 7, 61, 511, 4095, 4096, 4097, 65_537];

/// A job with the name it is reported under.
struct Job {
    name: String,
    text: Vec<u8>,
    piece: usize,
    /// Whether its lines count for the claims.
    counted: bool,
}

fn seeded(seed: u64) -> Job {
    Job {
        name: format!("seed {seed}"),
        text: jobs::job(seed),
        piece: Draw::new(!seed).pick(&PIECES),
        counted: true,
    }
}

/// The jobs that shift by every amount.
fn shifts() -> Vec<Job> {
    let jobs = jobs::shifts::jobs().into_iter().enumerate();
    jobs.map(|(k, text)| Job {
        name: format!("shifts, job {k}"),
        text,
        piece: 0,
        counted: false,
    })
    .collect()
}

/// The fixed jobs: shifts, then those about the ends of input, short ones of these byte by byte too.
fn fixed() -> Vec<Job> {
    let mut list = shifts();
    for (k, text) in jobs::special::jobs().into_iter().enumerate() {
        for piece in [0, 1, 4093] {
            if piece != 1 || text.len() < 1_000 {
                list.push(Job {
                    name: format!("fixed job {k}, pieces of {piece}"),
                    text: text.clone(),
                    piece,
                    counted: false,
                });
            }
        }
    }
    list
}

/// Where two outputs part, in words.
fn difference(expected: &[u8], found: &[u8]) -> String {
    let lines = |text: &[u8]| -> Vec<String> {
        let pieces = text.split_inclusive(|&b| b == b'\n');
        pieces
            .map(|l| format!("{:?}", String::from_utf8_lossy(l)))
            .collect()
    };
    let (expected, found) = (lines(expected), lines(found));
    let same = expected.iter().zip(&found).take_while(|(a, b)| a == b);
    let at = same.count();
    let none = "nothing".to_string();
    format!(
        "output line {}: expected {}, found {}",
        at + 1,
        expected.get(at).unwrap_or(&none),
        found.get(at).unwrap_or(&none)
    )
}

/// The kind of an order line.
fn kind(line: &[u8]) -> u64 {
    let digits = line.iter().take_while(|b| b.is_ascii_digit());
    digits.fold(0, |sum, digit| 10 * sum + u64::from(digit - b'0'))
}

/// Counts printed lines by refusal, and accepted orders by kind.
fn count(tally: &mut Tally, text: &[u8], rows: &[Row]) {
    let lines: Vec<&[u8]> = text.split(|&b| b == b'\n').collect();
    for row in rows {
        tally.meet("refusal", row.refusal);
        if row.refusal == 0 {
            tally.meet("accepted kind", kind(lines[row.line as usize - 1]));
        }
    }
}

fn check(program: &str, job: &Job, tally: &Mutex<Tally>) {
    let rows = reference::job::run(&job.text);
    let expected = reference::job::print(&rows);
    let outcome = match child::run(program, &job.text, job.piece) {
        Ok(found) if found == expected.as_bytes() => Ok(()),
        Ok(found) => Err(difference(expected.as_bytes(), &found)),
        Err(error) => Err(error),
    };
    let mut tally = tally.lock().unwrap();
    if job.counted {
        count(&mut tally, &job.text, &rows);
    }
    tally.case(outcome.is_ok(), || {
        format!("{}: {}", job.name, outcome.unwrap_err())
    });
}

/// Takes job numbers in turn: the fixed jobs first, then the seeds.
fn work(program: &str, list: &[Job], seeds: (u64, u64), next: &AtomicU64, tally: &Mutex<Tally>) {
    let total = list.len() as u64 + seeds.1;
    loop {
        let k = next.fetch_add(1, Ordering::Relaxed);
        if k >= total {
            return;
        }
        match list.get(k as usize) {
            Some(job) => check(program, job, tally),
            None => check(program, &seeded(seeds.0 + k - list.len() as u64), tally),
        }
    }
}

fn compare(program: &str, seeds: (u64, u64)) -> Tally {
    let (list, next) = (fixed(), AtomicU64::new(0));
    let tally = Mutex::new(Tally::default());
    std::thread::scope(|scope| {
        for _ in 0..THREADS {
            scope.spawn(|| work(program, &list, seeds, &next, &tally));
        }
    });
    tally.into_inner().unwrap()
}

/// What must have been met, whatever the program did.
fn claims(tally: &mut Tally, jobs: u64, seconds: u64) {
    tally.claim("refusal", &REACHED);
    tally.claim("accepted kind", &[1, 2, 3, 4, 5, 6, 7, 8, 9]);
    let numbers = REACHED.iter().filter(|&&refusal| refusal != UNREADABLE);
    let orders: u64 = numbers.map(|&refusal| tally.met("refusal", refusal)).sum();
    println!("{jobs} seeded jobs with {orders} orders, {seconds} s");
    if jobs >= JOBS {
        tally.case(orders >= ORDERS, || "too few orders".to_string());
    }
}

fn main() {
    match std::env::args().nth(1).as_deref() {
        Some("show") => stdout().write_all(&jobs::job(argument(2, 1))).unwrap(),
        Some(program) => {
            let (start, jobs) = (Instant::now(), argument(2, JOBS));
            let mut tally = compare(program, (argument(3, 1), jobs));
            claims(&mut tally, jobs, start.elapsed().as_secs());
            tally.finish()
        }
        None => panic!("which program?"),
    }
}
