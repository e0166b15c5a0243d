//! Runs the drawing program on random raw bytes, and compares what it prints with the reference's preparation.
//!
//! drawn PROGRAM [CASES]

use jobs::draw::Draw;
use jobs::tally::{argument, Tally};
use reference::job::TAPE_LINES;
use reference::ring::Ring;
use reference::tape::prepare;
use std::io::Write;
use std::process::{Command, Output, Stdio};

const CASES: u64 = 2_000;

/// The program reads so many raw words and no more.
const MOST_WORDS: usize = 8_192;

/// Arguments that will not do.
const REFUSED: [&[&str]; 19] = [
    &[],
    &["13"],
    &["13", "1"],
    &["13", "1", "masks", "masks"],
    &["", "1", "masks"],
    &["0", "1", "masks"],
    &["14", "1", "masks"],
    &["+13", "1", "masks"],
    &["13,", "1", "masks"],
    &["1,3", "1", "masks"],
    &["000000000000000000013", "1", "masks"],
    &["18446744073709551629", "1", "masks"],
    &["13", "", "masks"],
    &["13", "513", "dealer"],
    &["13", "18446744073709551616", "dealer"],
    &["13", "-1", "dealer"],
    &["13", "1", ""],
    &["13", "1", "mask"],
    &["13", "1", "Dealer"],
];

fn run(program: &str, words: &[&str], raw: &[u8]) -> Output {
    let mut child = Command::new(program)
        .args(words)
        .stdin(Stdio::piped())
        .stdout(Stdio::piped())
        .stderr(Stdio::piped())
        .spawn()
        .expect("the program starts");
    // The program may stop reading early.
    let _ = child.stdin.take().unwrap().write_all(raw);
    child.wait_with_output().expect("the program ends")
}

struct Case {
    code: u64,
    count: usize,
    kind: &'static str,
    raw: Vec<u64>,
    /// Bytes after the last whole word.
    rest: usize,
}

impl Case {
    fn new(draw: &mut Draw) -> Case {
        let code = draw.pick(&[1, 13, 31, 61]);
        let kind = draw.pick(&["masks", "dealer"]);
        let count = match draw.below(4) {
            0 => draw.pick(&[0, 1, TAPE_LINES - 1, TAPE_LINES]),
            _ => draw.place(TAPE_LINES + 1),
        };
        let ring = Ring::of_width(code).unwrap_or(Ring::all()[0]);
        let words = match draw.below(4) {
            0 => MOST_WORDS + draw.place(20),
            _ => draw.place(5 * count + 2),
        };
        let raw = (0..words).map(|_| draw.raw(ring)).collect();
        Case {
            code,
            count,
            kind,
            raw,
            rest: draw.place(8),
        }
    }

    fn bytes(&self) -> Vec<u8> {
        let words = self.raw.iter().flat_map(|word| word.to_le_bytes());
        words.chain(vec![255; self.rest]).collect()
    }

    /// What is printed, unless the raw words run out.
    fn lines(&self) -> Option<String> {
        let (kind, items) = match self.kind {
            "masks" => (0, 3),
            _ => (10, 1),
        };
        let mut run = vec![0; items * self.count];
        let raw = &self.raw[..self.raw.len().min(MOST_WORDS)];
        prepare(self.code, raw, &mut run).ok()?;
        let line = |items: &[u64]| {
            let fields: Vec<String> = items.iter().map(u64::to_string).collect();
            format!("{kind},{}\n", fields.join(","))
        };
        Some(run.chunks(items).map(line).collect())
    }
}

/// One line on standard error, and nothing else.
fn complains(found: &Output) -> bool {
    let text = String::from_utf8_lossy(&found.stderr);
    found.stdout.is_empty() && text.starts_with("draw: ") && text.lines().count() == 1
}

fn main() {
    let program = std::env::args().nth(1).expect("a program");
    let mut tally = Tally::default();
    let mut draw = Draw::new(1);
    for words in REFUSED {
        let found = run(&program, words, &[7; 100]);
        tally.case(complains(&found), || format!("{words:?}: {found:?}"));
    }
    for number in 0..argument(2, CASES) {
        let case = Case::new(&mut draw);
        let (code, count) = (case.code.to_string(), case.count.to_string());
        let found = run(&program, &[&code, &count, case.kind], &case.bytes());
        let expected = case.lines();
        tally.meet("raw words ran out", u64::from(expected.is_none()));
        let same = match expected {
            Some(text) => found.stdout == text.as_bytes() && found.stderr.is_empty(),
            None => complains(&found),
        };
        tally.case(same, || {
            format!("case {number}: {code} {count} {}", case.kind)
        });
    }
    tally.claim("raw words ran out", &[0, 1]);
    tally.finish();
}
