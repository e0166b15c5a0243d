//! The figures as definitions, and definitions in a text: their words, and others in their place.

use crate::runs::{shares, Entry, Job, Outcome, Tapes, FAR, OWN};
use reference::order::Order;
use std::iter::once;
use std::ops::Range;

/// Items on a line, at most.
const LINE: usize = 20;

/// The orders by their kind.
const KINDS: [&str; 9] = [
    "Deal",
    "Add",
    "Scale",
    "Multiply",
    "Decompose",
    "Convert",
    "Shift",
    "Compose",
    "Open",
];

/// The mask tapes of the run of J.
const TAPES: [&str; 3] = ["tape₀", "tape₁", "tape₂"];

/// Kind, refusal, value and gates of an order.
pub type Line = [u64; 4];

pub struct Figures {
    pub job_j: Job,
    pub job_k: Job,
    pub tapes_j: Tapes,
    pub tapes_k: Tapes,
    pub table: Vec<Line>,
    pub values_j: Vec<u64>,
    pub values_k: Vec<u64>,
    pub image: Tapes,
    /// Mask tape 0 of `other`.
    pub other: Vec<u64>,
    /// The order after which `other` shows, and the word received.
    pub told: [usize; 2],
    /// The multiplication in the run of J.
    pub multiplied: Outcome,
}

fn list(items: &[u64]) -> String {
    items
        .iter()
        .map(|item| format!("{item} ∷ "))
        .collect::<String>()
        + "[]"
}

/// A channel's words; the last ones that are equal stand as a number of them and the word.
fn channel(words: &[u64]) -> String {
    let last = words.last().expect("a channel with words");
    let other = words.iter().rposition(|word| word != last);
    let (first, equal) = words.split_at(other.map_or(0, |k| k + 1));
    let first: String = first.iter().map(|word| format!("{word} ∷ ")).collect();
    format!("{first}replicate {} {last}", equal.len())
}

/// A mask tape, indented by so many spaces: a line, or some of one length, for each order that takes items, and one for
/// those that nothing takes.
fn tape(items: &[u64], table: &[Line], indent: usize) -> String {
    let mut rest = items;
    let mut lines = Vec::new();
    let taken = table.iter().map(|line| line[3] as usize);
    let spent: usize = taken.clone().sum();
    for count in taken.chain(once(items.len() - spent)).filter(|&n| n > 0) {
        let (group, after) = rest.split_at(count);
        let length = count.div_ceil(count.div_ceil(LINE));
        let words = |line: &[u64]| line.iter().map(u64::to_string).collect::<Vec<_>>();
        lines.extend(group.chunks(length).map(|line| words(line).join(" ∷ ")));
        rest = after;
    }
    let between = format!("\n{}∷ ", " ".repeat(indent));
    format!("\n{}{} ∷ []", " ".repeat(indent), lines.join(&between))
}

/// A list with each item on its own line.
fn lines(items: impl Iterator<Item = String>) -> String {
    let line = |item| format!("{item}\n    ∷ ");
    format!("\n    {}[]", items.map(line).collect::<String>())
}

fn table(table: &[Line]) -> String {
    let line =
        |[kind, refusal, value, gates]: &Line| format!("line {kind} {refusal} {value} {gates}");
    lines(table.iter().map(line))
}

fn image(tapes: &Tapes, table: &[Line]) -> String {
    let (dealer, lacked) = (list(&tapes.dealer), tape(&tapes.masks[0], table, 10));
    format!("\n    record {{\n      dealer = {dealer};\n      lacked ={lacked};\n    }}")
}

/// The tapes of a run; its mask tapes are those of the run of J by name.
fn tapes(tapes: &Tapes, named: &Tapes) -> String {
    let name = |mask: &Vec<u64>| {
        let at = named.masks.iter().position(|tape| tape == mask);
        TAPES[at.expect("a mask tape of the run of J")]
    };
    let masks = tapes.masks.each_ref().map(name).join(" ");
    let dealer = list(&tapes.dealer);
    format!("record {{ masks = three {masks}; dealer = {dealer} }}")
}

fn entry(entry: &Entry, tape: &[u64]) -> String {
    let [kind, fields @ ..] = entry.order.words();
    let count = if kind == 9 { 1 } else { 3 };
    let fields = fields[..count].iter().map(|field| format!(" {field}"));
    let order = KINDS[kind as usize - 1].to_string() + &fields.collect::<String>();
    format!("lending {} ({order})", entry.lent_of(tape).len())
}

/// A deal of the number of that name.
fn deal(entry: &Entry, tape: &[u64], v: &str) -> String {
    let Order::Deal { d, e, .. } = entry.order else {
        unreachable!("the job begins with two deals");
    };
    let lent = entry.lent_of(tape).len();
    format!("lending {lent} (Deal {d} {e} {v})")
}

fn dealing(job: &Job, tapes: &Tapes) -> String {
    let deal = |k: usize, v: &str| deal(&job.entries[k], &tapes.masks[0], v);
    let (a, b) = (deal(0, "a"), deal(1, "b"));
    let channels = job.channels.each_ref().map(|words| channel(words));
    let channels = channels.map(|words| format!("({words})")).join(" ");
    let masks = tapes.masks.each_ref().map(|tape| tape.len().to_string());
    let (masks, dealer) = (masks.join(" "), tapes.dealer.len());
    [
        "\n    record {".to_string(),
        format!("      entries = {a} ∷ {b} ∷ after_deals;"),
        format!("      channels = three {channels};"),
        format!("      masks_length = three {masks};"),
        format!("      dealer_length = {dealer};"),
        "    }".to_string(),
    ]
    .join("\n")
}

/// The job by the numbers that it deals.
fn dealt(job: &Job) -> String {
    let dealt = |entry: &Entry| match entry.order {
        Order::Deal { v, .. } => format!(" {v}"),
        _ => String::new(),
    };
    "dealing".to_string() + &job.entries.iter().map(dealt).collect::<String>()
}

/// The jobs, and the tapes of a run of each.
fn given(figures: &Figures) -> Vec<String> {
    let (job, run) = (&figures.job_j, &figures.tapes_j);
    let lent = run.dealer.len();
    let lending = format!("record {{ act = o; masks_lent = three n n n; dealer_lent = {lent} }}");
    let entry = |order: &Entry| entry(order, &run.masks[0]);
    let after_deals = lines(job.entries[2..].iter().map(entry));
    let dealing = dealing(job, run);
    let (j, k) = (dealt(job), dealt(&figures.job_k));
    let [t0, t1, t2] = run
        .masks
        .each_ref()
        .map(|items| tape(items, &figures.table, 4));
    let (t, turned) = (tapes(run, run), tapes(&figures.tapes_k, run));
    vec![
        format!("abbrev lending : ℕ → Order → Entry orders\nlending n o = {lending}\n"),
        format!("unfoldable pub after_deals : List (Entry orders)\nafter_deals ={after_deals}\n"),
        format!("unfoldable pub dealing : ℕ → ℕ → Job orders\ndealing a b ={dealing}\n"),
        format!("abbrev pub first_job : Job orders\nfirst_job = {j}\n"),
        format!("abbrev pub second_job : Job orders\nsecond_job = {k}\n"),
        format!("abbrev tape₀ : List ℕ\ntape₀ ={t0}\n"),
        format!("abbrev tape₁ : List ℕ\ntape₁ ={t1}\n"),
        format!("abbrev tape₂ : List ℕ\ntape₂ ={t2}\n"),
        format!("unfoldable pub first_tapes : Tapes\nfirst_tapes = {t}\n"),
        format!("unfoldable pub second_tapes : Tapes\nsecond_tapes = {turned}\n"),
    ]
}

/// What comes of them.
fn found(figures: &Figures) -> Vec<String> {
    let answers = &figures.table;
    let table = table(answers);
    let (values_j, values_k) = (list(&figures.values_j), list(&figures.values_k));
    let image = image(&figures.image, answers);
    let other = tape(&figures.other, answers, 4);
    let [after, word] = figures.told;
    let seen = &figures.multiplied;
    let (own, far) = (list(&shares(seen, OWN)), list(&shares(seen, FAR)));
    let [sends, receives] = [OWN, FAR].map(|i| channel(&seen.channels[i]));
    vec![
        format!("abbrev pub table : List Line\ntable ={table}\n"),
        format!("abbrev pub values_j : List ℕ\nvalues_j = {values_j}\n"),
        format!("abbrev pub values_k : List ℕ\nvalues_k = {values_k}\n"),
        format!("unfoldable pub image : Hidden\nimage ={image}\n"),
        format!("unfoldable pub other : List ℕ\nother ={other}\n"),
        format!("abbrev pub told_after : ℕ\ntold_after = {after}\n"),
        format!("abbrev pub told_word : ℕ\ntold_word = {word}\n"),
        format!("abbrev pub own_then : List ℕ\nown_then = {own}\n"),
        format!("abbrev pub far_then : List ℕ\nfar_then = {far}\n"),
        format!("abbrev pub sends_then : List ℕ\nsends_then = {sends}\n"),
        format!("abbrev pub receives_then : List ℕ\nreceives_then = {receives}\n"),
    ]
}

pub fn definitions(figures: &Figures) -> String {
    [given(figures), found(figures)].concat().join("\n")
}

/// The names of a text's definitions, with what they take.
pub fn names(text: &str) -> Vec<&str> {
    let lines = text.lines().filter(|line| !line.starts_with(' '));
    let heads = lines.filter_map(|line| line.split_once(" ="));
    heads.map(|(name, _)| name).collect()
}

fn is_comment(line: &str) -> bool {
    line.trim_start().starts_with("--")
}

/// The lines of a definition: from the one that begins with its name to the last that is indented, before the next that is
/// neither indented, empty nor a comment; none unless just one line begins so.
fn lines_of(lines: &[&str], name: &str) -> Option<Range<usize>> {
    let begin = format!("{name} =");
    let starts = |line: &&str| line.starts_with(&begin);
    let indented = |line: &&str| line.starts_with(' ');
    let first = lines.iter().position(starts)?;
    let rest = &lines[first + 1..];
    let inside = |line: &&str| indented(line) || line.is_empty() || is_comment(line);
    let next = rest.iter().position(|line| !inside(line));
    let body = &rest[..next.unwrap_or(rest.len())];
    let length = body.iter().rposition(indented).map_or(0, |last| last + 1);
    let once = !rest.iter().any(starts);
    once.then_some(first..first + 1 + length)
}

/// The numbers and names of a definition, its own first, comments apart.
pub fn words<'a>(text: &'a str, name: &str) -> Option<Vec<&'a str>> {
    let lines: Vec<&str> = text.lines().collect();
    let found = lines_of(&lines, name)?;
    let between = |c: char| c.is_whitespace() || "(){};=".contains(c);
    let said = lines[found].iter().filter(|line| !is_comment(line));
    let words = said.flat_map(|line| line.split(between));
    let is_word = |word: &&str| !["", "∷", "[]"].contains(word);
    Some(words.filter(is_word).collect())
}

/// The text with the definitions that are printed in the place of its own of their names.
pub fn replaced(text: &str, printed: &str) -> String {
    let mut lines: Vec<&str> = text.lines().collect();
    let others: Vec<&str> = printed.lines().collect();
    for name in names(printed) {
        let (old, new) = (lines_of(&lines, name), lines_of(&others, name));
        if let (Some(old), Some(new)) = (old, new) {
            lines.splice(old, others[new].iter().copied());
        }
    }
    lines.join("\n") + "\n"
}
