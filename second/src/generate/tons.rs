//! Reports for the last total, NOx tons: right ones, some of them on half a tenth
//! or just below it; wrong ones, by themselves, beside other wrong totals and
//! behind idle hours; and 301 lines whose last columns are missing, blank or in no
//! format.

use super::changes::bad_text;
use super::edges::set_at_edge;
use super::idle_hours::{put, with_idle_hours};
use super::page::Page;
use super::recorder::{bytes, name, report, rising_hours, year_and_quarter, FORMER_LIMIT};
use super::sheets::words_of;
use super::tight::euclid;
use super::{family_of, Family};
use crate::cases::Case;
use crate::figures::{Figure, Monitor, Readings, FIGURES};
use crate::layout::{report_length, Value, HEAT, R301};
use crate::random::Random;
use crate::report::{nox_mass, Hour, Report, NOX_TENTH};
use crate::rounding::half_up;
use crate::write::{Form, Order};
use std::cmp::Reverse;

/// The mean and NOx tons among the totals and on line 301.
const MEAN: usize = 3;
const TONS: usize = 4;

/// The columns of NOx tons.
const COLUMNS: &Value = &R301.values[TONS];

/// The length that line 301 had without them.
const OLD_LENGTH: usize = COLUMNS.columns.0 - 1;

/// The readings of a written hour with the most NOx: its heat, its SO2 and its NOx
/// rate are the largest that their columns hold.
pub const MOST_WRITTEN: Readings =
    Readings { so2: Monitor(617), nox: 85_780, co2: 17, flow: 9_763_515, fc: 16_598 };

/// The readings of the written hour with the most NOx among those with flows up to
/// the former limit.
pub const FORMER_MOST_WRITTEN: Readings =
    Readings { so2: Monitor(12_048), nox: 99_999, co2: 153, flow: FORMER_LIMIT, fc: 7_652 };

/// The readings and figures of the one among these with the most NOx that passes.
pub const FORMER_MOST_PASSING: (Readings, [u128; 4]) = (
    Readings { so2: Monitor(10), nox: 99_999, co2: 7, flow: FORMER_LIMIT, fc: 5_116 },
    [73_300, 830, 93_977, 1_995],
);

/// The families and their shares.
const FAMILIES: [(Family<Vec<u8>>, usize); 9] = [
    (off_by_one, 24),
    (several_wrong, 34),
    (wrong_rule, 20),
    (half, 24),
    (at_column_limit, 8),
    (no_number, 20),
    (other_length, 12),
    (heaviest, 6),
    (behind_figures, 4),
];

/// The file with this number among those for NOx tons.
pub fn file(random: &mut Random, number: usize) -> Vec<u8> {
    let (family, turn) = family_of(&FAMILIES, number);
    family(random, turn)
}

/// An honest report with so many hours, and with NOx tons if there are any.
fn with_tons(random: &mut Random, count: usize) -> Report {
    loop {
        let report = report(random, count);
        if count == 0 || report.totals[TONS] > 0 {
            return report;
        }
    }
}

/// NOx tons one up or down, or the right ones again were they cut to 32 bits; and
/// right ones, or one up, with idle hours.
fn off_by_one(random: &mut Random, turn: usize) -> Vec<u8> {
    let count = turn % 4;
    let mut report = with_tons(random, count);
    let tons = &mut report.totals[TONS];
    match turn / 4 % 6 {
        0 | 1 => *tons += 1,
        2 | 3 if *tons > 0 => *tons -= 1,
        4 => *tons += 1 << 32,
        _ => {
            *tons += u128::from(turn % 2 == 0);
            let idle = 1 + random.below(3);
            let report = with_idle_hours(random, report, turn, idle);
            return bytes(random, &report);
        }
    }
    put(random, report)
}

/// Two or more totals one up or down, in every combination; first those, of which
/// there are few, that leave the first totals right.
fn several_wrong(random: &mut Random, turn: usize) -> Vec<u8> {
    let mut combinations: Vec<u32> = (0..32u32).filter(|wrong| wrong.count_ones() > 1).collect();
    combinations.sort_by_key(|wrong| Reverse(wrong.trailing_zeros()));
    let wrong = combinations[turn % combinations.len()];
    loop {
        let count = random.below(4);
        let mut report = report(random, count);
        for (index, total) in report.totals.iter_mut().enumerate() {
            if wrong >> index & 1 == 1 {
                *total = if *total == 0 || random.once_in(2) { *total + 1 } else { *total - 1 };
            }
        }
        if report.fits() {
            return put(random, report);
        }
    }
}

/// NOx tons formed by a wrong rule, drawn again until they differ from the right
/// ones.
fn wrong_rule(random: &mut Random, turn: usize) -> Vec<u8> {
    for _ in 0..200 {
        let count = 2 + random.below(3);
        let mut report = with_tons(random, count);
        let right = report.totals[TONS];
        report.totals[TONS] = wrongly_formed(&report, turn).min(COLUMNS.largest());
        if report.totals[TONS] != right {
            return put(random, report);
        }
    }
    off_by_one(random, turn)
}

fn wrongly_formed(report: &Report, turn: usize) -> u128 {
    let mass = |hour: &Hour| nox_mass(hour.time, &hour.figures);
    let sum = |of: &dyn Fn(&Hour) -> u128| report.hours.iter().map(of).sum::<u128>();
    let tenths = |mass: u128| half_up(mass, NOX_TENTH);
    let heat_and_time = |hour: &Hour| hour.figures[0] * hour.time;
    match turn % 12 {
        // Other totals in its place.
        0 => report.totals[MEAN],
        1 => report.totals[0],
        // Hourly tons or pounds rounded before the sum.
        2 => sum(&|hour| tenths(mass(hour))),
        3 => half_up(sum(&|hour| half_up(mass(hour), 1_000_000)), 200),
        // Cut or rounded up.
        4 => sum(&mass) / NOX_TENTH,
        5 => sum(&mass).div_ceil(NOX_TENTH),
        // Times left out; the mean rate times all heat; pounds; whole tons.
        6 => tenths(sum(&|hour| nox_mass(100, &hour.figures))),
        7 => tenths(report.totals[MEAN] * sum(&heat_and_time)),
        8 => half_up(sum(&mass), 100_000),
        9 => half_up(sum(&mass), 10 * NOX_TENTH),
        // Products cut to 32 bits, and an hour left out.
        10 => tenths(sum(&|hour| mass(hour) % (1 << 32))),
        _ => tenths(sum(&mass) - mass(&report.hours[report.hours.len() - 1])),
    }
}

/// Time, rate and heat of an hour that adds so much NOx, but for whole tenths of
/// a ton.
fn time_rate_and_heat(random: &mut Random, wanted: u128) -> (u128, u128, u128) {
    loop {
        let time = random.pick(&[1, 9, 33, 50, 99, 100]);
        let rate = random.between(1, 3_000);
        let (common, inverse) = euclid((rate * time) as i128, NOX_TENTH as i128);
        let common = common as u128;
        let heat = wanted / common * inverse as u128 % (NOX_TENTH / common);
        if wanted % common == 0 && heat <= HEAT.largest() {
            return (time, rate, heat);
        }
    }
}

/// An hour with this time, rate and heat, or nothing if the drawn readings have
/// no such figures.
fn hour_of(random: &mut Random, time: u128, rate: u128, heat: u128) -> Option<Hour> {
    let (co2, fc) = (random.between(1, 200), random.between(5_000, 30_000));
    let readings = Readings {
        so2: Monitor(random.between(0, 5_000)),
        nox: half_up(rate * 1_000_000 * co2, 1_194 * fc),
        co2,
        flow: half_up(heat * fc, 100 * co2),
        fc,
    };
    let [_, so2_rate, _, co2_rate] = written_figures(&readings);
    let sound = readings.nox <= 99_999
        && readings.flow <= FORMER_LIMIT
        && Figure::Heat.possible(&readings, heat)
        && Figure::Nox.possible(&readings, rate);
    let figures = [heat, so2_rate, rate, co2_rate];
    sound.then_some(Hour { hour_of_quarter: 0, time, readings, figures })
}

pub fn written_figures(readings: &Readings) -> [u128; 4] {
    FIGURES.map(|figure| figure.of_recorded(readings))
}

/// A report whose NOx is half a tenth of a ton beyond whole tenths, less so many
/// millionths of a pound; with the writer's figures, if they are to be `written`.
fn report_below_half(random: &mut Random, less: u128, written: bool) -> Report {
    loop {
        let count = 1 + random.below(3);
        let mut report = report(random, count);
        if written {
            report.hours.iter_mut().for_each(|hour| hour.figures = written_figures(&hour.readings));
        }
        let Hour { hour_of_quarter, .. } = report.hours.remove(0);
        let others: u128 = report.hours.iter().map(|hour| nox_mass(hour.time, &hour.figures)).sum();
        let wanted = (3 * NOX_TENTH / 2 - less - others % NOX_TENTH) % NOX_TENTH;
        let (time, rate, heat) = time_rate_and_heat(random, wanted);
        let fits = |hour: &Hour| !written || hour.figures == written_figures(&hour.readings);
        let hour = (0..50).find_map(|_| hour_of(random, time, rate, heat).filter(fits));
        if let Some(hour) = hour {
            report.hours.insert(0, Hour { hour_of_quarter, ..hour });
            report.add_up();
            if report.fits() {
                return report;
            }
        }
    }
}

/// NOx tons on half a tenth, rounded up as is right, or down; or just below it,
/// rounded down as is right, or up.
fn half(random: &mut Random, turn: usize) -> Vec<u8> {
    let mut report = report_below_half(random, (turn / 2 % 2) as u128, false);
    match turn % 4 {
        1 => report.totals[TONS] -= 1,
        3 => report.totals[TONS] += 1,
        _ => {}
    }
    put(random, report)
}

/// A sheet of the first form whose report has NOx tons on half a tenth, or just below it.
pub fn sheet(random: &mut Random, number: usize) -> Case {
    let report = report_below_half(random, (number % 2) as u128, true);
    let Report { year, quarter, name, .. } = report;
    let words = report.hours.iter().flat_map(|hour| words_of(Form::First, hour)).collect();
    Case::Convert { order: Order { year, quarter, name, words }, room: report_length(report.hours.len()) }
}

/// NOx tons at the end of their columns, so many as no quarter has, or right but
/// for their first column.
fn at_column_limit(random: &mut Random, turn: usize) -> Vec<u8> {
    let count = random.below(3);
    let mut report = report(random, count);
    let (right, largest) = (report.totals[TONS], COLUMNS.largest());
    let first_column = (largest + 1) / 10;
    report.totals[TONS] = match turn % 8 {
        0 => largest,
        1 => largest - 1,
        2 => 110_398_787,
        3 => 1 << 32,
        4 => 1 << 33,
        5 => largest / 10,
        6 => right + first_column,
        _ => right + 9 * first_column,
    };
    put(random, report)
}

/// NOx tons that are blank or no number; the mean too, or totals that differ.
fn no_number(random: &mut Random, turn: usize) -> Vec<u8> {
    let count = random.below(3);
    let mut report = report(random, count);
    let (kind, turn) = (turn % 4, turn / 4);
    if turn % 4 >= 2 {
        report.totals[random.pick(&[0, 1, 2])] += 1;
    }
    let mut page = Page::of(&put(random, report));
    let line = page.totals();
    let text = match kind {
        0 => vec![b' '; COLUMNS.columns.1],
        1 => random
            .pick(&[b"         .1", b"       0.1 ", b"        0,1", b"          1", b"       -0.1"])
            .to_vec(),
        2 => {
            // All but the first column as it was.
            let mut text = page.lines[line][OLD_LENGTH..].to_vec();
            text[0] = random.pick(b"x-.");
            text
        }
        _ => bad_text(random, turn, COLUMNS.columns.1, COLUMNS.decimals),
    };
    page.set(line, COLUMNS.columns, &text);
    if turn % 2 == 1 {
        let mean = &R301.values[MEAN];
        let text = bad_text(random, turn, mean.columns.1, mean.decimals);
        page.set(line, mean.columns, &text);
    }
    page.bytes()
}

/// Line 301 as it was without NOx tons, or of another length; totals right, or
/// not.
fn other_length(random: &mut Random, turn: usize) -> Vec<u8> {
    let count = turn % 3;
    let mut report = report(random, count);
    if turn / 3 % 2 == 1 {
        report.totals[random.pick(&[0, 1, 2, TONS])] += 1;
    }
    let mut page = Page::of(&put(random, report));
    let line = page.totals();
    let length = if turn % 4 == 3 { random.pick(&[49, 53, 58, 60, 70]) } else { OLD_LENGTH };
    page.lines[line].resize(length, b' ');
    page.bytes()
}

/// One to three hours with as much NOx as can be written, or can pass, with flows
/// up to the former limit; right, or one up.
fn heaviest(random: &mut Random, turn: usize) -> Vec<u8> {
    let readings = FORMER_MOST_WRITTEN;
    let written = (readings, written_figures(&readings));
    let hour = if turn % 2 == 0 { FORMER_MOST_PASSING } else { written };
    heavy(random, turn, hour)
}

/// One to three hours with these readings and figures; right, or one up.
pub fn heavy(random: &mut Random, turn: usize, (readings, figures): (Readings, [u128; 4])) -> Vec<u8> {
    let (year, quarter) = year_and_quarter(random);
    let hour = |hour_of_quarter| Hour { hour_of_quarter, time: 100, readings, figures };
    let hours = rising_hours(random, year, quarter, 1 + turn / 2).into_iter().map(hour).collect();
    let mut report = Report { year, quarter, name: name(random), hours, ..Report::default() };
    report.add_up();
    report.totals[TONS] += u128::from(turn % 3 == 2);
    bytes(random, &report)
}

/// A figure that fails, and wrong NOx tons.
fn behind_figures(random: &mut Random, turn: usize) -> Vec<u8> {
    loop {
        let count = 1 + random.below(3);
        let mut report = report(random, count);
        let rank = random.below(count);
        if set_at_edge(random, &mut report, rank, FIGURES[turn % 4], 5, true) {
            report.totals[TONS] += 1;
            return put(random, report);
        }
    }
}
