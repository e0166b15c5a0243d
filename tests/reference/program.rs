//! The reference as a job program: standard input to standard output.

use std::io::{stdin, stdout, Read, Result, Write};

fn main() -> Result<()> {
    let mut input = Vec::new();
    stdin().read_to_end(&mut input)?;
    let rows = reference::job::run(&input);
    stdout().write_all(reference::job::print(&rows).as_bytes())
}
