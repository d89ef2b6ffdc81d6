//! Reports of one of the longest quarters with every hour listed: none operating, the first, the last, every second one, all but the
//! first, all but the last, or all. Each is tried as it should be, and with a fault in its last hours, on its totals or behind them. All
//! seeds have them.

use second::cases::Case;
use second::check::{check, Answer};
use second::figures::{Monitor, Readings, FIGURES};
use second::generate::page::Page;
use second::layout::{DATE_300, HEAT, R300, TIME};
use second::report::{Hour, PlainPen, Report};

/// The hours of the quarter.
const HOURS: u32 = 2_208;

/// Whether an hour is operating.
type Operates = fn(u32) -> bool;

const OPERATING: [Operates; 7] = [
    |_| false,
    |hour| hour == 0,
    |hour| hour == HOURS - 1,
    |hour| hour % 2 == 1,
    |hour| hour > 0,
    |hour| hour < HOURS - 1,
    |_| true,
];

pub fn cases() -> Vec<Case> {
    let mut files = Vec::new();
    for operates in OPERATING {
        let report = report(operates);
        files.push(accepted(&report));
        files.extend(wrong_numbers(&report));
        files.extend(wrong_lines(&report));
    }
    files.into_iter().map(Case::File).collect()
}

fn report(operates: Operates) -> Report {
    let (operating, idle_hours): (Vec<u32>, Vec<u32>) = (0..HOURS).partition(|&hour| operates(hour));
    let hours = operating.into_iter().map(hour).collect();
    let (year, quarter, name) = (2005, 3, *b"STACK1");
    let mut report = Report { year, quarter, name, hours, idle_hours, ..Report::default() };
    report.add_up();
    report
}

/// An operating hour, unlike those beside it.
fn hour(hour_of_quarter: u32) -> Hour {
    let number = u128::from(hour_of_quarter);
    let readings = Readings {
        so2: Monitor(2_000 + number),
        nox: 1_000 + number,
        co2: 100 + number % 50,
        flow: 20_000 + number,
        fc: 18_000,
    };
    let figures = FIGURES.map(|figure| figure.of_recorded(&readings));
    Hour { hour_of_quarter, time: 1 + number % 100, readings, figures }
}

/// The report's bytes, which the second implementation accepts.
fn accepted(report: &Report) -> Vec<u8> {
    let bytes = report.bytes(&mut PlainPen);
    assert!(matches!(check(&bytes), Answer::Accepted { hours, .. } if hours == report.hours.len()));
    bytes
}

/// The report with each total in turn one too large, and with each figure of its last operating hour 0.
fn wrong_numbers(report: &Report) -> Vec<Vec<u8>> {
    let mut files = Vec::new();
    for place in 0..report.totals.len() {
        let mut wrong = report.clone();
        wrong.totals[place] += 1;
        files.push(wrong.bytes(&mut PlainPen));
    }
    for place in 0..FIGURES.len() {
        let mut wrong = report.clone();
        if let Some(hour) = wrong.hours.last_mut() {
            hour.figures[place] = 0;
            wrong.add_up();
            files.push(wrong.bytes(&mut PlainPen));
        }
    }
    files
}

/// The report with a fault on its last 300 line or behind it.
fn wrong_lines(report: &Report) -> Vec<Vec<u8>> {
    let page = Page::of(&report.bytes(&mut PlainPen));
    let (last, totals) = (page.indices(&R300).end - 1, page.totals());
    let changed = |change: &dyn Fn(&mut Page)| {
        let mut page = page.clone();
        change(&mut page);
        page.bytes()
    };
    vec![
        changed(&|page| page.set(last, HEAT.columns, b"    0.0")),
        changed(&|page| page.set(last, HEAT.columns, b"       ")),
        changed(&|page| page.set(last, HEAT.columns, b"      x")),
        changed(&|page| page.set(last, TIME.columns, b"0.00")),
        changed(&|page| page.set(last, TIME.columns, b"0.01")),
        changed(&|page| page.set(last, TIME.columns, b"1.01")),
        changed(&|page| page.set(last, TIME.columns, b"    ")),
        changed(&|page| {
            page.set(last, TIME.columns, b"0.00");
            page.set(last, HEAT.columns, b"       ");
        }),
        changed(&|page| page.set(last, DATE_300, b"05100100")),
        changed(&|page| page.lines.insert(last, page.lines[last].clone())),
        changed(&|page| page.lines.swap(last - 1, last)),
        changed(&|page| drop(page.lines.remove(last))),
        changed(&|page| page.lines.truncate(totals)),
        changed(&|page| drop(page.lines.remove(totals))),
        changed(&|page| page.lines.swap(last, totals)),
        changed(&|page| page.lines.insert(totals, page.lines[1].clone())),
    ]
}
