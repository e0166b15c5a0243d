//! The job program in plain Rust: standard input to standard output.

use std::io::{stdin, stdout, Result};

fn main() -> Result<()> {
    plain::job::run(stdin().lock(), stdout().lock())
}
