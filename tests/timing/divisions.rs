//! Division instructions in code, which take their time by what they divide.

use crate::symbols::output;
use std::collections::BTreeSet;
use std::path::Path;

/// A disassembled line's instruction, if it divides: div, idiv, and those of vectors and of the x87.
fn division(line: &str) -> Option<&str> {
    let (_, text) = line.split_once(":\t")?;
    let text = text.split(['<', '#']).next()?;
    let divides = |word: &str| word.contains("div") || word.starts_with("fprem");
    text.split_whitespace().any(divides).then_some(text)
}

/// Object, function and instruction of each division in a program or archive.
pub fn divisions(file: &Path) -> Vec<String> {
    let text = output("objdump", &["-d", "--no-show-raw-insn"], file);
    let (mut object, mut function) = ("", "");
    let mut found = Vec::new();
    for line in text.lines() {
        if let Some((name, _)) = line.split_once(":     file format") {
            object = name;
        } else if let Some((_, name)) = line.split_once(" <").filter(|_| line.ends_with(">:")) {
            function = name.trim_end_matches(">:");
        } else if let Some(instruction) = division(line) {
            found.push(format!("{object}: {function}: {instruction}"));
        }
    }
    found
}

/// C's functions that the compiler uses to fill and copy runs of fixed length. The traces have the variants picked under valgrind.
const OF_C: [&str; 2] = ["memcpy", "memset"];

/// What is not in an archive but left to others, of whose code nothing is known; the library's three functions must be there.
pub fn undefined(archive: &Path) -> Vec<String> {
    let names = |which: &str| -> BTreeSet<String> {
        let text = output("nm", &["-j", which], archive);
        text.lines().map(str::to_string).collect()
    };
    let (defined, used) = (names("--defined-only"), names("--undefined-only"));
    let called = ["survey_step", "survey_prepare", "survey_batch"].map(str::to_string);
    let missing = used
        .iter()
        .chain(&called)
        .filter(|name| !defined.contains(*name) && !name.ends_with(':'))
        .filter(|name| !OF_C.contains(&name.as_str()));
    missing
        .map(|name| format!("not in the archive: {name}"))
        .collect()
}
