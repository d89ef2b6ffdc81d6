//! A quarter for the examples: its report, written from made-up readings.

use edr::{hour_word, word, Kind, Written};

/// Made-up readings of an hour of the quarter, with a flow from this one on, in thousands of scfh.
fn words_of(hour: u32, flow: u32) -> [u32; edr::HOUR_WORDS] {
    [
        hour_word(hour, 100), // operating time 1.00
        word(Kind::So2, 2_000 + hour % 1_000),
        word(Kind::Nox, 1_500 + hour % 700),
        word(Kind::Co2, 100 + hour % 40),
        word(Kind::Flow, flow + hour),
        word(Kind::Fc, 18_000),
    ]
}

/// Writes the report of so many hours, and prints what the writer says. None if it refuses.
pub fn written(year: u64, quarter: u64, hours: usize, flow: u32) -> Option<Vec<u8>> {
    let sheet: Vec<u32> = (0..hours as u32).flat_map(|hour| words_of(hour, flow)).collect();
    let mut report = vec![0; edr::report_length(hours)];
    let written = edr::write(year, quarter, b"STACK1", &sheet, &mut report);
    println!("{written}");
    match written {
        Written::Length(_) => Some(report),
        Written::Refused(_) => None,
    }
}
