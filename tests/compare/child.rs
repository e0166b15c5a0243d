//! One run of a job program.

use std::io::{Read, Write};
use std::process::{Child, ChildStdin, Command, Stdio};
use std::sync::mpsc::channel;
use std::thread;
use std::time::Duration;

/// A run longer than this is ended and counted as failed.
const PATIENCE: Duration = Duration::from_secs(120);

/// Hands the job over in pieces. The program may stop reading early, so an
/// error of the pipe is left for the output to show.
fn feed(mut input: ChildStdin, text: &[u8], piece: usize) {
    let piece = if piece == 0 { text.len().max(1) } else { piece };
    for part in text.chunks(piece) {
        if input.write_all(part).is_err() {
            return;
        }
    }
}

fn start(program: &str) -> std::io::Result<Child> {
    Command::new(program)
        .stdin(Stdio::piped())
        .stdout(Stdio::piped())
        .spawn()
}

/// All that the program prints for a job.
pub fn run(program: &str, text: &[u8], piece: usize) -> Result<Vec<u8>, String> {
    let mut child = start(program).map_err(|e| format!("{program}: {e}"))?;
    let (input, output) = (child.stdin.take(), child.stdout.take());
    let (done, finished) = channel();
    let found = thread::scope(|scope| {
        scope.spawn(move || feed(input.unwrap(), text, piece));
        scope.spawn(move || {
            let mut found = Vec::new();
            let read = output.unwrap().read_to_end(&mut found);
            let _ = done.send(read.map(|_| found));
        });
        let found = finished.recv_timeout(PATIENCE);
        if found.is_err() {
            let _ = child.kill();
        }
        found
    });
    let status = child.wait().map_err(|e| e.to_string())?;
    match found {
        Ok(Ok(found)) if status.success() => Ok(found),
        Ok(Ok(_)) => Err(format!("ended with {status}")),
        Ok(Err(error)) => Err(error.to_string()),
        Err(_) => Err(format!("no end within {} s", PATIENCE.as_secs())),
    }
}
