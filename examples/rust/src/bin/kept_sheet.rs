//! A sheet kept from before, whose flow word has scfh, from Rust: converts it, writes its report and checks it; then two that are refused.

mod report;

use std::process::ExitCode;

use edr::{hour_word, word, Converted, Kind};

/// An hour as it was kept, with this flow in scfh.
fn kept(scfh: u32) -> [u32; edr::HOUR_WORDS] {
    [
        hour_word(0, 50), // operating time 0.50
        word(Kind::So2, 2_500),
        word(Kind::Nox, 2_000),
        word(Kind::Co2, 120),
        word(Kind::Flow, scfh),
        word(Kind::Fc, 18_000),
    ]
}

/// Converts words, and prints what became of them. Returns whether they are converted.
fn converted(words: &mut [u32]) -> bool {
    let converted = edr::convert(words);
    println!("{converted}");
    converted == Converted::Done
}

fn main() -> ExitCode {
    let mut sheet = kept(20_000_000);
    if !converted(&mut sheet) || !report::reported(&sheet) {
        return ExitCode::FAILURE;
    }
    let mut uneven = kept(20_000_500);
    converted(&mut uneven); // 50: no whole thousand
    converted(&mut uneven[..5]); // 31: Fc is lost, which is tried first
    ExitCode::SUCCESS
}
