//! Gas hours at every edge between two SO2 figures, up to the largest heat: quarters of all hours that pass, alone and with others between
//! them, with a fault in the first hour or the last, and each hour that fails by itself. All seeds have them.

use second::cases::Case;
use second::check::{check, Answer};
use second::figures::{Figure, Gas, Monitor, Readings, FIGURES};
use second::generate::gas_hours::{heat_at, LAST_EDGE};
use second::generate::page::Page;
use second::layout::{GAS_COLUMNS, GAS_WORD, R200, R310, SO2};
use second::report::{Hour, PlainPen, Report};

/// The hours of the quarter.
const HOURS: usize = 2_208;

/// A heat and an SO2 figure beside it.
type Pair = (u128, u128);

pub fn cases() -> Vec<Case> {
    let passing: Vec<Pair> = (0..=LAST_EDGE).flat_map(passing_at).collect();
    let (most, rest) = passing.split_at(HOURS);
    let mixed = rest.iter().flat_map(|&pair| [gas_hour(pair), monitored_hour()]).collect();
    let mut files = Vec::new();
    for hours in [most.iter().map(|&pair| gas_hour(pair)).collect(), mixed] {
        let report = report(hours);
        files.push(accepted(&report));
        files.extend(wrong_hours(&report));
    }
    files.extend((0..=LAST_EDGE).flat_map(failing_at).map(|pair| refused(&report(vec![gas_hour(pair)]))));
    files.into_iter().map(Case::File).collect()
}

/// What passes at an edge: its heat with both figures, and the heats beside it with one each.
fn passing_at(edge: u128) -> [Pair; 4] {
    let heat = heat_at(edge);
    [(heat - 1, edge), (heat, edge), (heat, edge + 1), (heat + 1, edge + 1)]
}

/// What fails there by as little as can be.
fn failing_at(edge: u128) -> [Pair; 2] {
    let heat = heat_at(edge);
    [(heat - 1, edge + 1), (heat + 1, edge)]
}

fn gas_hour((heat, so2): Pair) -> Hour {
    let readings = Readings { so2: Gas(heat), nox: 100, co2: 100, flow: heat.div_ceil(2), fc: 5_000 };
    let [nox, co2] = [Figure::Nox, Figure::Co2].map(|figure| figure.of_recorded(&readings));
    Hour { hour_of_quarter: 0, time: 100, readings, figures: [heat, so2, nox, co2] }
}

fn monitored_hour() -> Hour {
    let readings = Readings { so2: Monitor(2_500), nox: 2_000, co2: 120, flow: 20_000, fc: 18_000 };
    let figures = FIGURES.map(|figure| figure.of_recorded(&readings));
    Hour { hour_of_quarter: 0, time: 50, readings, figures }
}

/// A report of these hours, from the first of the quarter on.
fn report(mut hours: Vec<Hour>) -> Report {
    hours.iter_mut().zip(0..).for_each(|(hour, rank)| hour.hour_of_quarter = rank);
    let (year, quarter, name) = (2005, 3, *b"STACK1");
    let mut report = Report { year, quarter, name, hours, ..Report::default() };
    report.add_up();
    report
}

/// The report's bytes, which the second implementation accepts.
fn accepted(report: &Report) -> Vec<u8> {
    let bytes = report.bytes(&mut PlainPen);
    assert!(matches!(check(&bytes), Answer::Accepted { hours, .. } if hours == report.hours.len()));
    bytes
}

/// The report's bytes, which it refuses for SO2.
fn refused(report: &Report) -> Vec<u8> {
    let bytes = report.bytes(&mut PlainPen);
    assert!(matches!(check(&bytes), Answer::Refused(fault) if fault.number == 12));
    bytes
}

/// The report with the word or the blank of a gas hour taken from its first hour and its last, or given to it.
fn wrong_hours(report: &Report) -> Vec<Vec<u8>> {
    let page = Page::of(&report.bytes(&mut PlainPen));
    let (readings, rates) = (page.indices(&R200), page.indices(&R310));
    let mut files = Vec::new();
    for rank in [0, page.hours - 1] {
        let (reading, word) =
            if report.hours[rank].is_gas() { (b"   0.0", b"   ") } else { (b"      ", GAS_WORD) };
        for (line, columns, text) in
            [(readings.start + rank, SO2.columns, &reading[..]), (rates.start + rank, GAS_COLUMNS, word)]
        {
            let mut page = page.clone();
            page.set(line, columns, text);
            files.push(page.bytes());
        }
    }
    files
}
