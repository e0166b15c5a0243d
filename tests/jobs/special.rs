//! Fixed jobs about the ends of input and the longest lines.

use reference::job::LAST_LINE;

const START: &str = "10,1\n10,2\n1,0,13,5\n9,0\n";

/// START, then `line` up to line `last`, then `end`.
fn many_lines(line: &str, last: usize, end: &str) -> Vec<u8> {
    let rest = last - START.lines().count();
    (START.to_string() + &line.repeat(rest) + end).into_bytes()
}

fn long_line(byte: u8, end: &[u8]) -> Vec<u8> {
    [START.as_bytes(), &vec![byte; 3_000_000], end].concat()
}

pub fn jobs() -> Vec<Vec<u8>> {
    let mut jobs: Vec<Vec<u8>> = [
        "", "\n", "\n\n", "9,0", "9,0\n", ",", "\0", "\r\n", "0", "10",
    ]
    .map(|text| text.as_bytes().to_vec())
    .into();
    jobs.extend([
        many_lines("\n", LAST_LINE, ""),
        many_lines("2,0,0,0\n", LAST_LINE - 1, "9,0\n9,0\n9,0\n"),
        many_lines("3,0,0,3\n", LAST_LINE - 1, "9,0"),
        many_lines("x\n", LAST_LINE - 2, "9,0"),
        many_lines("9,0\n", LAST_LINE + 7, ""),
        many_lines("10,1\n0,1,1,1\n", 300_000, "9,0\n"),
        long_line(b'0', b"\n9,0\n"),
        long_line(b',', b"\n9,0"),
        long_line(0, b""),
        long_line(255, b"\n"),
        vec![b'\n'; 70_000],
        START.replace('\n', "\r\n").into_bytes(),
    ]);
    jobs
}
