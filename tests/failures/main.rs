//! Input that cannot be read and output that cannot be written: a program tells it in one line on standard error.
//!
//! failures SURVEY DRAW

use jobs::tally::Tally;
use std::fs::{read, File, OpenOptions};
use std::io::Write;
use std::os::fd::OwnedFd;
use std::os::unix::net::UnixStream;
use std::process::{Command, Output, Stdio};

const JOB: &str = "tests/examples/listing.job";
const PRINTED: &str = "tests/examples/listing.out";

const UNREAD: &str = "survey: standard input: Is a directory\n";
const UNWRITTEN: &str = "survey: standard output: No space left on device\n";

fn run(words: &[&str], input: Stdio, output: Stdio) -> Output {
    Command::new(words[0])
        .args(&words[1..])
        .stdin(input)
        .stdout(output)
        .stderr(Stdio::piped())
        .output()
        .expect("the program starts")
}

fn file(path: &str) -> Stdio {
    File::open(path).expect("a file").into()
}

/// Every read of a folder fails.
fn folder() -> Stdio {
    file("/")
}

/// Every write to it fails.
fn full() -> Stdio {
    let device = OpenOptions::new().write(true).open("/dev/full");
    device.expect("the device").into()
}

/// An output that nobody reads any more.
fn broken() -> Stdio {
    let (near, _) = UnixStream::pair().expect("a pair");
    OwnedFd::from(near).into()
}

/// Input that neither ends nor goes on: the read after the text fails. It stays so while the first of the two is kept.
fn stuck(text: &[u8]) -> (UnixStream, Stdio) {
    let (mut near, far) = UnixStream::pair().expect("a pair");
    near.write_all(text).expect("room");
    far.set_nonblocking(true).expect("a mode");
    (near, OwnedFd::from(far).into())
}

fn says(found: &Output, output: &[u8], errors: &str) -> bool {
    found.stdout == output && String::from_utf8_lossy(&found.stderr) == errors
}

fn programs(tally: &mut Tally, survey: &str, draw: &str) {
    let mut case = |found: Output, output: &[u8], errors: &str| {
        tally.case(says(&found, output, errors), || format!("{found:?}"));
    };
    let ignoring = "trap '' PIPE; exec \"$0\"";
    let asked = [draw, "31", "2", "dealer"];
    case(run(&[survey], folder(), Stdio::piped()), b"", UNREAD);
    case(run(&[survey], file(JOB), full()), b"", UNWRITTEN);
    case(run(&[survey], file(JOB), broken()), b"", "");
    case(
        run(&["bash", "-c", ignoring, survey], file(JOB), broken()),
        b"",
        "",
    );
    case(
        run(&asked, folder(), Stdio::piped()),
        b"",
        "draw: standard input: Is a directory\n",
    );
    case(
        run(&asked, file("/dev/urandom"), full()),
        b"",
        "draw: standard output: No space left on device\n",
    );
}

/// A line of which only a part could be read is not taken.
fn cut_line(tally: &mut Tally, survey: &str) {
    let job = read(JOB).expect("a job");
    let whole = job.len() - "9,3\n".len();
    let (_near, input) = stuck(&job[..whole + "9,3".len()]);
    let found = run(&[survey], input, Stdio::piped());
    let printed = read(PRINTED).expect("lines");
    let errors = "survey: standard input: Resource temporarily unavailable\n";
    let same = says(
        &found,
        &printed[..printed.len() - "5,3,0,0,1\n".len()],
        errors,
    );
    tally.case(same, || format!("{found:?}"));
}

/// Raw bytes that would do, and then a read that fails: nothing is printed.
fn cut_bytes(tally: &mut Tally, draw: &str) {
    let (_near, input) = stuck(&[7; 800]);
    let found = run(&[draw, "31", "2", "dealer"], input, Stdio::piped());
    let errors = "draw: standard input: Resource temporarily unavailable\n";
    tally.case(says(&found, b"", errors), || format!("{found:?}"));
}

/// `bash run` exits with 1 where the program tells a failure.
fn exit_status(tally: &mut Tally) {
    let mut case = |path: &str, output: Stdio, status: i32, printed: &[u8], errors: &str| {
        let found = run(&["bash", "run", path], Stdio::null(), output);
        let same = found.status.code() == Some(status) && says(&found, printed, errors);
        tally.case(same, || format!("{found:?}"));
    };
    let printed = read(PRINTED).expect("lines");
    // The first run may have to prove the program, and tells so.
    run(&["bash", "run", JOB], Stdio::null(), Stdio::null());
    case("/", Stdio::piped(), 1, b"", UNREAD);
    case(JOB, full(), 1, b"", UNWRITTEN);
    case(JOB, Stdio::piped(), 0, &printed, "");
}

fn main() {
    let mut words = std::env::args().skip(1);
    let survey = words.next().expect("the job program");
    let draw = words.next().expect("the drawing program");
    let mut tally = Tally::default();
    programs(&mut tally, &survey, &draw);
    cut_line(&mut tally, &survey);
    cut_bytes(&mut tally, &draw);
    exit_status(&mut tally);
    tally.finish();
}
