//! A year from Rust: writes and checks the report of each quarter and joins the answer to the year to date; then does the fourth again,
//! which is refused.

mod quarter;

use std::process::ExitCode;

use edr::{Answer, Joined, YearToDate};

const YEAR: u64 = 2004;

/// The hours of each quarter, which all operate, and their flows.
const MADE_UP: [(usize, u32); 4] = [(2184, 22_000), (2184, 16_000), (2208, 20_000), (2208, 18_000)];

/// The record of a quarter, given that of the one before; it is printed. None if something is refused.
fn joined(previous: YearToDate, quarter: u64, (hours, flow): (usize, u32)) -> Option<YearToDate> {
    let report = quarter::written(YEAR, quarter, hours, flow)?;
    let answer = edr::check(&report);
    println!("{answer}");
    let Answer::Accepted(totals) = answer else { return None };
    let joined = edr::join(previous, YEAR, quarter, totals);
    println!("{joined}");
    match joined {
        Joined::Record(record) => Some(record),
        Joined::Refused(_) => None,
    }
}

fn main() -> ExitCode {
    let mut record = YearToDate::none(YEAR);
    for (quarter, made_up) in (1..).zip(MADE_UP) {
        let Some(next) = joined(record, quarter, made_up) else { return ExitCode::FAILURE };
        record = next;
    }
    joined(record, 4, MADE_UP[3]);
    ExitCode::SUCCESS
}
