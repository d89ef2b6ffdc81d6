//! An hour from a recorder, from Rust: makes its words, writes its report and checks it; then three hours that are refused.

mod report;

use std::process::ExitCode;

use edr::Reading::{Absent, Measured, Substituted};
use edr::{hour_word, word, Kind, Recorded, RecorderHour};

/// The float 250.35 lies below 250.35 and is recorded as 250.3. 12.25 and 20,000,500 lie halfway and are recorded as 12.3 and
/// 20,001,000.
const GOOD: RecorderHour = RecorderHour {
    so2: Measured(250.35),
    nox: Substituted(200.0),
    co2: Measured(12.25),
    flow: Measured(20_000_500.0),
};

const REFUSED: [RecorderHour; 3] = [
    RecorderHour { nox: Absent, ..GOOD },                       // 44
    RecorderHour { so2: Measured(-0.01), nox: Absent, ..GOOD }, // 45: SO2 comes before NOx
    RecorderHour { co2: Measured(0.04), ..GOOD },               // 46: CO2 is recorded as 0.0
];

/// Makes the words of an hour and prints their values and how many are substituted. None if it is refused.
fn recorded(hour: RecorderHour) -> Option<[u32; edr::RECORDER_READINGS]> {
    let recorded = edr::recorder_words(hour);
    println!("{recorded}");
    match recorded {
        Recorded::Words { words, .. } => Some(words),
        Recorded::Refused(_) => None,
    }
}

/// The report of one hour, these words between those of hour and Fc. Returns whether it is accepted.
fn reported([so2, nox, co2, flow]: [u32; edr::RECORDER_READINGS]) -> bool {
    report::reported(&[hour_word(0, 50), so2, nox, co2, flow, word(Kind::Fc, 18_000)])
    // operating time 0.50
}

fn main() -> ExitCode {
    if !recorded(GOOD).is_some_and(reported) {
        return ExitCode::FAILURE;
    }
    for hour in REFUSED {
        recorded(hour);
    }
    ExitCode::SUCCESS
}
