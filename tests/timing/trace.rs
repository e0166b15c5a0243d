//! Traces of the caller, cut at its marks.

use crate::symbols::Symbols;
use std::io::{BufRead, BufReader, Read, Result, Write};
use std::path::Path;
use std::process::{Child, Command, Stdio};
use std::thread::{scope, sleep};
use std::time::Duration;

/// Without optimisation, which leaves out a read of which nothing comes, and without following branches when code is
/// translated, which may take two tests as one.
const OPTIONS: [&str; 7] = [
    "--quiet",
    "--tool=lackey",
    "--trace-mem=yes",
    "--basic-counts=no",
    "--vex-iropt-level=0",
    "--vex-guest-chase=no",
    "--log-fd=2",
];

/// Valgrind writes line by line; waiting before a read saves most of the switches between the two processes.
const PAUSE: Duration = Duration::from_millis(1);
const PIECE: usize = 1 << 16;

struct Paced<R>(R);

impl<R: Read> Read for Paced<R> {
    fn read(&mut self, buffer: &mut [u8]) -> Result<usize> {
        sleep(PAUSE);
        self.0.read(buffer)
    }
}

fn start(caller: &Path) -> Result<Child> {
    Command::new("valgrind")
        .args(OPTIONS)
        .arg(caller)
        .stdin(Stdio::piped())
        .stdout(Stdio::piped())
        .stderr(Stdio::piped())
        .spawn()
}

/// Hands on what stands between each pair of marks; counts all lines.
fn cut(mut trace: impl BufRead, mark: &[u8], mut take: impl FnMut(&[u8])) -> Result<u64> {
    let (mut lines, mut inside) = (0, false);
    let (mut part, mut line) = (Vec::new(), Vec::new());
    while trace.read_until(b'\n', &mut line)? > 0 {
        lines += 1;
        if line == mark {
            if inside {
                take(&part);
            }
            inside = !inside;
            part.clear();
        } else if inside {
            part.extend(&line);
        }
        line.clear();
    }
    Ok(lines)
}

/// Runs the caller on rounds; what it writes, and how many lines were traced.
pub fn run(
    caller: &Path,
    symbols: &Symbols,
    rounds: &[u8],
    take: impl FnMut(&[u8]),
) -> Result<(Vec<u8>, u64)> {
    let mark = format!(" S {:08x},8\n", symbols.address("TRACE_MARK"));
    let mut child = start(caller)?;
    let (input, output) = (child.stdin.take(), child.stdout.take());
    let trace = BufReader::with_capacity(PIECE, Paced(child.stderr.take().unwrap()));
    let mut written = Vec::new();
    let lines = scope(|scope| {
        // The caller may end early; the rounds that are missing then tell.
        scope.spawn(|| input.unwrap().write_all(rounds));
        scope.spawn(|| output.unwrap().read_to_end(&mut written));
        cut(trace, mark.as_bytes(), take)
    })?;
    let status = child.wait()?;
    assert!(status.success(), "the traced caller: {status}");
    Ok((written, lines))
}
