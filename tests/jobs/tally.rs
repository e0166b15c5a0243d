//! Counts of what passed, failed and was met, for the comparing programs.

use std::collections::BTreeMap;

/// How often each claimed thing must be met.
const AT_LEAST: u64 = 100;

/// Failures shown in full.
const SHOWN: u64 = 5;

#[derive(Default)]
pub struct Tally {
    passed: u64,
    failed: u64,
    met: BTreeMap<(&'static str, u64), u64>,
}

impl Tally {
    pub fn case(&mut self, passed: bool, text: impl FnOnce() -> String) {
        if passed {
            self.passed += 1;
            return;
        }
        self.failed += 1;
        if self.failed <= SHOWN {
            println!("{}", text());
        }
    }

    pub fn failed(&self) -> u64 {
        self.failed
    }

    pub fn meet(&mut self, what: &'static str, number: u64) {
        *self.met.entry((what, number)).or_default() += 1;
    }

    pub fn met(&self, what: &'static str, number: u64) -> u64 {
        self.met.get(&(what, number)).copied().unwrap_or(0)
    }

    /// One passed or failed for each number: was it met often enough?
    pub fn claim(&mut self, what: &'static str, numbers: &[u64]) {
        for &number in numbers {
            let times = self.met(what, number);
            println!("{what} {number}: {times} times");
            self.case(times >= AT_LEAST, || format!("too rare: {what} {number}"));
        }
    }

    /// Prints the last line and ends the program.
    pub fn finish(self) -> ! {
        println!("{} passed, {} failed", self.passed, self.failed);
        std::process::exit(i32::from(self.failed > 0));
    }
}

/// The k-th argument as a number, or the default without one.
pub fn argument(k: usize, default: u64) -> u64 {
    let given = std::env::args().nth(k);
    given.map_or(default, |text| text.parse().expect("a number"))
}
