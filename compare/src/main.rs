//! Fresh cases of the second implementation's maker, sheets for all sizes of written numbers, quarters with every hour listed, gas hours
//! at every edge, slices to convert, and reports with each byte of some lines changed, answered by the proved library and by the second
//! implementation. Prints each case whose answers differ, and at the end how many cases there were and how many differ.

mod changed_bytes;
mod conversions;
mod float_hours;
mod gas_hours;
mod idle_hours;
mod written_numbers;
mod years;

use std::fmt::Display;
use std::process::ExitCode;

use conversions::Lent;
use second::cases::{Case, FILL};
use second::conversion::convert;
use second::generate;
use second::write::Order;

/// What the two sides say of one case.
struct Answers {
    proved: String,
    second: String,
}

/// Goes through cases, with the report that the last sheet gave and that changes are made to.
#[derive(Default)]
struct Comparing {
    report: Vec<u8>,
}

impl Comparing {
    fn answers(&mut self, case: &Case) -> Answers {
        match case {
            Case::File(bytes) => checked(bytes),
            Case::Write { order, room } => self.written(order, *room),
            Case::Convert { order, room } => self.converted(order, *room),
            Case::Patch(edits) => {
                edits.iter().for_each(|&(offset, byte)| self.report[offset] = byte);
                checked(&self.report)
            }
        }
    }

    /// Both conversions, with every word; and if the sheet converts, both writers as for any sheet.
    fn converted(&mut self, order: &Order, room: usize) -> Answers {
        let mut answers = conversions::converted(&Lent::sheet(&order.words));
        let mut order = order.clone();
        if convert(&mut order.words).is_ok() {
            answers.add(self.written(&order, room));
        }
        answers
    }

    /// Both writers, with every byte of their buffers; and if there is a report, both checks of it. After a refusal the buffer has to
    /// be as it was.
    fn written(&mut self, order: &Order, room: usize) -> Answers {
        let mut buffer = vec![FILL; room];
        let proved =
            edr::write(order.year.into(), order.quarter.into(), &order.name, &order.words, &mut buffer);
        let mut expected = vec![FILL; room];
        let second = second::write::write(order, &mut expected);
        if second.is_err() {
            expected.fill(FILL);
        }
        let place = (0..room).find(|&place| buffer[place] != expected[place]);
        let told = match second {
            Ok(length) => format!("written {length}"),
            Err(number) => format!("refused {number}"),
        };
        let mut answers =
            Answers { proved: with_byte(proved, &buffer, place), second: with_byte(told, &expected, place) };
        if let Ok(length) = second {
            self.report = expected;
            self.report.truncate(length);
            answers.add(checked(&self.report));
        }
        answers
    }
}

impl Answers {
    fn add(&mut self, more: Answers) {
        self.proved = format!("{}, {}", self.proved, more.proved);
        self.second = format!("{}, {}", self.second, more.second);
    }
}

/// Both checks of a file.
fn checked(file: &[u8]) -> Answers {
    Answers { proved: edr::check(file).to_string(), second: second::check::check(file).to_string() }
}

/// A writer's answer, with the first byte of its buffer that is unlike the other's.
fn with_byte(told: impl Display, buffer: &[u8], place: Option<usize>) -> String {
    match place {
        Some(place) => format!("{told} with byte {place} {}", buffer[place]),
        None => told.to_string(),
    }
}

fn kind(case: &Case) -> &'static str {
    match case {
        Case::File(_) => "file",
        Case::Write { .. } => "sheet",
        Case::Convert { .. } => "sheet of the first form",
        Case::Patch(_) => "changed report",
    }
}

/// Compares all cases of a seed, and those that all seeds have, and returns how many differ.
fn compare(seed: u64, count: usize) -> usize {
    let mut cases = generate::cases(seed, count);
    cases.extend(written_numbers::cases());
    cases.extend(idle_hours::cases());
    cases.extend(gas_hours::cases());
    let joinings = generate::years(seed, count);
    let hours = generate::float_hours(seed, count);
    let mut comparing = Comparing::default();
    let reports = cases.iter().map(|case| (kind(case), comparing.answers(case)));
    let years = joinings.iter().map(|joining| ("year to date", years::joined(joining)));
    let changed = changed_bytes::files().map(|file| ("changed byte", checked(&file)));
    let recorders = hours.iter().map(|hour| ("recorder's hour", float_hours::recorded(hour)));
    let slices = conversions::slices().map(|lent| ("slice to convert", conversions::converted(&lent)));
    let (mut count, mut differ) = (0, 0);
    for (kind, Answers { proved, second }) in
        reports.chain(years).chain(recorders).chain(slices).chain(changed)
    {
        if proved != second {
            differ += 1;
            println!("case {count}, {kind}: proved {proved}; second {second}");
        }
        count += 1;
    }
    println!("{count} cases, {differ} differ");
    differ
}

fn main() -> ExitCode {
    let numbers: Option<Vec<u64>> = std::env::args().skip(1).map(|word| word.parse().ok()).collect();
    match numbers.as_deref() {
        Some(&[seed, count]) => match compare(seed, count as usize) {
            0 => ExitCode::SUCCESS,
            _ => ExitCode::FAILURE,
        },
        _ => {
            eprintln!("compare SEED COUNT, two numbers");
            ExitCode::from(2)
        }
    }
}
