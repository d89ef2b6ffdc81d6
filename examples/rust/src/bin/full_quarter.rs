//! A full quarter from Rust: writes the report of 2,208 operating hours, checks it, damages one figure and checks it again.

mod quarter;

use std::process::ExitCode;

const HOURS: usize = edr::MOST_HOURS;

/// Changes the tens of the last hour's SO2 figure: column 28 of the last 310 line, which 55 and 25 bytes an hour follow.
fn damage(report: &mut [u8]) {
    report[edr::report_length(HOURS) - HOURS * (55 + 25) - 35 + 27] ^= 1;
}

fn main() -> ExitCode {
    let Some(mut report) = quarter::written(2004, 3, HOURS, 20_000) else {
        return ExitCode::FAILURE;
    };
    println!("{}", edr::check(&report));
    damage(&mut report);
    println!("{}", edr::check(&report));
    ExitCode::SUCCESS
}
