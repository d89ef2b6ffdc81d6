//! A table, for a person, of the cases in a directory: how many there are of
//! each kind and with each answer.

use crate::cases::{Answering, Case};
use std::collections::BTreeMap;
use std::fmt::Write;

/// The kinds of cases, in the order of the columns.
const KINDS: [&str; 4] = ["F", "W", "C", "P"];

/// How often each answer was given, by kind. The key is 0 for accepted and
/// written, and otherwise the number of the refusal, be it the conversion's or the
/// writer's.
pub type Counts = BTreeMap<u32, [usize; KINDS.len()]>;

fn column(case: &Case) -> usize {
    match case {
        Case::File(_) => 0,
        Case::Write { .. } => 1,
        Case::Convert { .. } => 2,
        Case::Patch(_) => 3,
    }
}

/// The number in an answer line, 0 if it is no refusal.
fn number_in(line: &str) -> u32 {
    let mut parts = line.split(' ');
    match (parts.next(), parts.next()) {
        (Some("refused" | "words"), Some(number)) => number.parse().unwrap_or(0),
        _ => 0,
    }
}

/// The number of the refusal in an answer, 0 if there is none.
pub fn number_of(answer: &[String]) -> u32 {
    answer.iter().map(|line| number_in(line)).find(|&number| number > 0).unwrap_or(0)
}

/// Counts the answers that this program gives to the cases.
pub fn count(cases: &[Case]) -> (Counts, Vec<String>) {
    let mut counts = Counts::new();
    let mut lines = Vec::new();
    let mut answering = Answering::default();
    for case in cases {
        let answer = answering.answer(case);
        counts.entry(number_of(&answer)).or_default()[column(case)] += 1;
        lines.extend(answer);
    }
    (counts, lines)
}

/// The table. `answers` is the text that stands beside the cases.
pub fn table(cases: &[Case], answers: &str) -> String {
    let (counts, lines) = count(cases);
    let mut text = String::new();
    let mut line = |name: &str, row: &[String]| {
        let cells: String = row.iter().map(|cell| format!(" {cell:>6}")).collect();
        let _ = writeln!(text, "{name:>10}{cells}");
    };
    let with_sum =
        |row: &[usize]| row.iter().chain([&row.iter().sum()]).map(usize::to_string).collect::<Vec<String>>();
    line("answer", &KINDS.iter().chain(&["all"]).map(|kind| kind.to_string()).collect::<Vec<String>>());
    let mut sums = [0; KINDS.len()];
    for (number, row) in &counts {
        let name = if *number == 0 { "good".to_string() } else { number.to_string() };
        line(&name, &with_sum(row));
        sums.iter_mut().zip(row).for_each(|(sum, times)| *sum += times);
    }
    line("all", &with_sum(&sums));
    let same = lines.iter().map(String::as_str).eq(answers.lines());
    let verdict = if same { "are" } else { "are NOT" };
    let _ = writeln!(text, "the answers beside the cases {verdict} those of this program");
    text
}
