//! The figures of the example of demand 3 (crates/example), worked out by the reference.
//!
//! example                 prints them as definitions
//! example write FILE...   puts them into these files, in the place of the definitions of their names
//! example check FILE...   looks for them in these files

mod change;
mod given;
mod runs;
mod text;

use change::{image, other};
use given::{job_j, job_k, tapes_j, tapes_k};
use jobs::tally::Tally;
use reference::order::Order;
use runs::{channel, end, is_fair, run, shares, views, Outcome, FAR, LACKED};
use text::{definitions, names, replaced, words, Figures, Line};

fn table(course: &[Outcome]) -> Vec<Line> {
    let line = |outcome: &Outcome| {
        let answer = outcome.answer;
        let kind = outcome.order.words()[0];
        [kind, answer.refusal, answer.value, answer.gates]
    };
    course.iter().map(line).collect()
}

fn values(course: &[Outcome]) -> Vec<u64> {
    let registers = end(course).record.registers.iter();
    registers.map(|register| register.value()).collect()
}

/// The order after which party 1 has first received another word, and that word.
fn first_other(course: &[Outcome], other: &[Outcome]) -> Option<[usize; 2]> {
    let [a, b] = [course, other].map(|course| channel(course, FAR));
    let order = a.iter().zip(&b).position(|(a, b)| a != b)?;
    let word = a[order].iter().zip(b[order]).position(|(a, b)| a != b)?;
    Some([order, word])
}

fn figures() -> Figures {
    let (j, k) = (job_j(), job_k());
    let (course_j, course_k) = (run(&j, &tapes_j()), run(&k, &tapes_k()));
    let other = other(&j, &tapes_j()).expect("a word that shows in nothing else");
    let told = first_other(&course_j, &run(&j, &other)).expect("another word");
    let multiplies = |outcome: &Outcome| matches!(outcome.order, Order::Multiply { .. });
    Figures {
        job_j: job_j(),
        job_k: job_k(),
        tapes_j: tapes_j(),
        tapes_k: tapes_k(),
        table: table(&course_j),
        values_j: values(&course_j),
        values_k: values(&course_k),
        image: image(&j, &k, &tapes_j()),
        other: other.masks[LACKED].clone(),
        told,
        multiplied: course_j
            .into_iter()
            .find(multiplies)
            .expect("a multiplication"),
    }
}

/// Takes a claim, and whether it holds.
type Claim<'a> = dyn FnMut(&str, bool) + 'a;

/// What must hold of the two runs.
fn claims(figures: &Figures, tally: &mut Tally) {
    let j = run(&job_j(), &figures.tapes_j);
    let k = run(&job_k(), &figures.tapes_k);
    let mut claim = |text: &str, holds: bool| tally.case(holds, || text.to_string());
    claim("J is fair", is_fair(&j));
    claim("K is fair", is_fair(&k));
    claim("both runs answer the same", table(&j) == table(&k));
    let refused = figures.table.iter().filter(|line| line[1] != 0);
    claim(
        "an opening meets 3, a shift 9",
        refused.map(|line| &line[..2]).eq([[9, 3], [7, 9]]),
    );
    image_claims(figures, &j, &mut claim);
    other_claims(figures, &j, &mut claim);
}

fn image_claims(figures: &Figures, j: &[Outcome], claim: &mut Claim) {
    let image = run(&job_k(), &figures.image);
    let [received, lacked] = [FAR, LACKED].map(|i| (channel(j, i), channel(&image, i)));
    let [theirs, ours] = [&figures.image, &figures.tapes_j].map(|tapes| &tapes.masks[1..]);
    claim("image is fair", is_fair(&image));
    claim("image: sees the same", views(j) == views(&image));
    claim("image: receives the same", received.0 == received.1);
    claim(
        "image: another sub-share",
        shares(end(j), LACKED) != shares(end(&image), LACKED),
    );
    claim("image: another channel", lacked.0 != lacked.1);
    claim("image: party 1's own tapes", theirs == ours);
}

fn other_claims(figures: &Figures, j: &[Outcome], claim: &mut Claim) {
    let mut tapes = figures.tapes_j.clone();
    tapes.masks[LACKED] = figures.other.clone();
    let other = run(&job_j(), &tapes);
    let [words, others] = [j, &other].map(|course| end(course).channels[FAR].iter());
    claim("other is fair", is_fair(&other));
    claim("other: sees the same", views(j) == views(&other));
    claim(
        "other: receives one other word",
        words.zip(others).filter(|(a, b)| a != b).count() == 1,
    );
}

/// Each definition must have its words in the files, in their order.
fn check(printed: &str, files: &[String], tally: &mut Tally) {
    let read = |file: &String| std::fs::read_to_string(file).expect("a file");
    let found: Vec<String> = files.iter().map(read).collect();
    let found = found.join("\n\n");
    for name in names(printed) {
        let expected = words(printed, name);
        let same = expected.is_some() && expected == words(&found, name);
        tally.case(same, || format!("{name} differs"));
    }
}

fn write(printed: &str, files: &[String]) -> std::io::Result<()> {
    let read = |file: &String| std::fs::read_to_string(file);
    let texts = files.iter().map(read).collect::<Result<Vec<_>, _>>()?;
    for (file, text) in files.iter().zip(&texts) {
        std::fs::write(file, replaced(text, printed))?;
    }
    Ok(())
}

fn main() {
    let figures = figures();
    let printed = definitions(&figures);
    let mut tally = Tally::default();
    claims(&figures, &mut tally);
    let words: Vec<String> = std::env::args().skip(1).collect();
    match (words.first().map(String::as_str), tally.failed()) {
        (Some("check"), _) => check(&printed, &words[1..], &mut tally),
        (Some("write"), 0) => {
            write(&printed, &words[1..]).expect("text files");
            check(&printed, &words[1..], &mut tally);
        }
        (None, 0) => return print!("{printed}"),
        (Some("write") | None, _) => {}
        (Some(_), _) => panic!("write FILE..., check FILE..., or nothing"),
    }
    tally.finish()
}
