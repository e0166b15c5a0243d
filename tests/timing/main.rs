//! Time tells nothing: whatever the secrets of a call are, the library executes the same instructions and reads and writes
//! at the same addresses, and it divides nothing.
//!
//! timing check ARCHIVE   checks
//! timing table           prints how many instructions each order takes, and a batch
//!
//! The callers stand beside this program: caller, and with a planted fault caller_branch, caller_index, caller_division.

mod batches;
mod cases;
mod compare;
mod divisions;
mod findings;
mod format;
mod orders;
mod refusals;
mod rounds;
mod symbols;
mod tapes;
mod trace;
mod words;

use cases::{At, Case};
use findings::{trace_cases, Finding};
use jobs::tally::Tally;
use orders::usual;
use reference::ring::Ring;
use std::path::{Path, PathBuf};

/// The table's rows.
const ROWS: [&str; 9] = [
    "1",
    "2",
    "3",
    "4",
    "5 to 11 bits",
    "6 to ring 31",
    "7 by 3",
    "8, 11 bits",
    "9",
];

fn caller(suffix: &str) -> PathBuf {
    let own = std::env::current_exe().expect("this program's path");
    own.with_file_name(format!("caller{suffix}"))
}

fn check_traces(tally: &mut Tally) {
    let cases = [
        orders::accepted(),
        refusals::refused(),
        tapes::prepared(),
        batches::batches(),
    ]
    .concat();
    let findings = trace_cases(&caller(""), &cases);
    let mut failed = Vec::new();
    for finding in &findings.list {
        let text = finding.text();
        failed.extend(text.is_some().then_some(&finding.name[..]));
        tally.case(text.is_none(), || {
            format!("{}: {}", finding.name, text.unwrap())
        });
    }
    println!("{} cases, {} lines traced", cases.len(), findings.lines);
    if !failed.is_empty() {
        println!("failed: {}", failed.join("; "));
    }
}

/// A fault on a sub-share must show in the trace, and be found where it was planted.
fn check_planted(fault: &str, tally: &mut Tally) {
    let [add, multiply] = [2, 4].map(|kind| usual(kind, Ring::all()[1], At::Start));
    let cases = [add, multiply, batches::usual(Ring::all()[1])];
    let findings = trace_cases(&caller(&format!("_{fault}")), &cases);
    let planted = |finding: &Finding| {
        finding
            .difference
            .as_ref()
            .is_some_and(|d| d.function == "planted")
    };
    let found = findings.list.iter().all(planted);
    tally.case(found, || format!("the planted {fault} is not found"));
}

fn check_divisions(archive: &Path, tally: &mut Tally) {
    let planted = divisions::divisions(&caller("_division"));
    let found = planted.iter().any(|text| text.contains(": planted: "));
    tally.case(found, || "the planted division is not found".to_string());
    let found = [divisions::divisions(archive), divisions::undefined(archive)].concat();
    tally.case(found.is_empty(), || found.join("\n"));
}

fn cell(finding: &Finding) -> String {
    if let Some(text) = finding.text().filter(|_| finding.difference.is_none()) {
        return text;
    }
    let counts = &finding.instructions;
    match (counts.iter().min(), counts.iter().max()) {
        (Some(least), Some(most)) if least < most => format!("{least} to {most}"),
        (Some(count), _) => count.to_string(),
        _ => "none".to_string(),
    }
}

fn table() {
    let row = |kind: u64| Ring::all().map(|ring| usual(kind, ring, At::Start));
    let orders = (1..=9).flat_map(row);
    let cases: Vec<Case> = orders.chain(batches::rings().map(batches::usual)).collect();
    let findings = trace_cases(&caller(""), &cases);
    println!("| order | ring 13 | ring 31 | ring 61 |\n|---|---|---|---|");
    for (row, findings) in ROWS.iter().zip(findings.list.chunks(3)) {
        let cells: Vec<String> = findings.iter().map(cell).collect();
        println!("| {row} | {} |", cells.join(" | "));
    }
    let batch = findings.list[3 * ROWS.len()..].iter().map(cell);
    let batch: Vec<String> = batch.collect();
    println!("| 64 at once, to 11 bits | | {} |", batch.join(" | "));
}

fn main() {
    let words: Vec<String> = std::env::args().skip(1).collect();
    match words.iter().map(String::as_str).collect::<Vec<_>>()[..] {
        ["table"] => table(),
        ["check", archive] => {
            let mut tally = Tally::default();
            check_divisions(Path::new(archive), &mut tally);
            check_planted("branch", &mut tally);
            check_planted("index", &mut tally);
            check_traces(&mut tally);
            tally.finish()
        }
        _ => panic!("timing check ARCHIVE, or timing table"),
    }
}
