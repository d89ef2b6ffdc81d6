//! Honest quarters: a recorder that multiplies unrounded readings and only
//! then rounds, and the drawing of readings, hours, names and dates.

use crate::calendar::{hours_in_quarter, is_leap};
use crate::figures::{Figure, Formula, Monitor, Readings, FIGURES};
use crate::layout::{plain_number, Value, R300, R310, R320, R330};
use crate::random::Random;
use crate::report::{Hour, Pen, PlainPen, Report};
use crate::rounding::half_up;

/// Unrounded readings are counted in so many parts of a recorded unit.
const PARTS: u128 = 1_000_000;

/// The largest flow, in thousands, before the limit was raised. What was made for
/// that limit keeps to it.
pub const FORMER_LIMIT: u128 = 500_000;

/// The largest figures that the columns hold: heat, SO2, NOx, CO2.
pub fn column_limits() -> [u128; 4] {
    [&R300.values[1], &R310.values[0], &R320.values[1], &R330.values[0]].map(Value::largest)
}

/// An unrounded reading, in parts, that rounds to the recorded one; often at
/// or next to the end of its span.
fn unrounded(random: &mut Random, recorded: u128) -> u128 {
    let low = (recorded * PARTS).saturating_sub(PARTS / 2);
    let high = recorded * PARTS + PARTS / 2 - 1;
    match random.below(6) {
        0 => low,
        1 => high,
        _ => random.between(low, high),
    }
}

/// The four figures that the recorder gives for unrounded readings behind the
/// recorded ones.
pub fn honest_figures(random: &mut Random, recorded: &Readings) -> [u128; 4] {
    let fine = Readings {
        so2: recorded.so2.map(|recorded| unrounded(random, recorded)),
        nox: unrounded(random, recorded.nox),
        co2: unrounded(random, recorded.co2),
        flow: unrounded(random, recorded.flow),
        fc: recorded.fc,
    };
    FIGURES.map(|figure| match figure.formula(&fine) {
        Formula::Product { top, bottom, x, y } => half_up(top * x * y, bottom * PARTS * PARTS),
        Formula::Quotient { top, bottom, x, y } => half_up(top * x, bottom * y),
        Formula::Multiple { top, bottom, x } => half_up(top * x, bottom * PARTS),
    })
}

/// Whether the figures of the recorded readings fit into their columns.
pub fn writable(readings: &Readings) -> bool {
    FIGURES.iter().zip(column_limits()).all(|(f, limit)| f.of_recorded(readings) <= limit)
}

/// Readings of a usual stack.
fn usual(random: &mut Random) -> Readings {
    Readings {
        so2: Monitor(random.between(0, 8_000)),
        nox: random.between(0, 6_000),
        co2: random.between(30, 180),
        flow: random.between(500, 60_000),
        fc: random.pick(&[18_000, 18_400, 10_400, 14_200, 19_100]),
    }
}

/// Readings anywhere in their ranges, small and large ones alike.
fn any(random: &mut Random) -> Readings {
    Readings {
        so2: Monitor(random.spread(99_999)),
        nox: random.spread(99_999),
        co2: random.spread(1_000).max(1),
        flow: random.spread(FORMER_LIMIT),
        fc: random.between(5_000, 30_000),
    }
}

/// Readings at the ends of their ranges.
fn extreme(random: &mut Random) -> Readings {
    let other = any(random);
    Readings {
        so2: random.pick(&[Monitor(0), Monitor(0), Monitor(1), Monitor(99_999), Monitor(99_998), other.so2]),
        nox: random.pick(&[0, 0, 1, 99_999, 99_998, other.nox]),
        co2: random.pick(&[1, 1, 2, 999, 1_000, 1_000, other.co2]),
        flow: random.pick(&[0, 0, 1, 2, FORMER_LIMIT - 1, FORMER_LIMIT, other.flow]),
        fc: random.pick(&[5_000, 5_000, 5_001, 29_999, 30_000, 30_000, other.fc]),
    }
}

/// Readings whose figures can be written.
pub fn readings(random: &mut Random) -> Readings {
    loop {
        let readings = match random.below(3) {
            0 => usual(random),
            1 => any(random),
            _ => extreme(random),
        };
        if writable(&readings) {
            return readings;
        }
    }
}

/// The same with a given flow.
pub fn readings_with_flow(random: &mut Random, flow: u128) -> Readings {
    loop {
        let readings = Readings { flow, ..any(random) };
        if writable(&readings) {
            return readings;
        }
    }
}

/// Readings with the ones that a figure uses left as they are, and the others
/// drawn so that all figures can be written; nothing after too many trials.
pub fn readings_around(random: &mut Random, fixed: &Readings, figure: Figure) -> Option<Readings> {
    for _ in 0..60 {
        let drawn = any(random);
        let readings = match figure {
            Figure::Heat => Readings { so2: drawn.so2, nox: drawn.nox, ..*fixed },
            Figure::So2 => Readings { nox: drawn.nox, co2: drawn.co2, fc: drawn.fc, ..*fixed },
            Figure::Nox => Readings { so2: drawn.so2, flow: drawn.flow, ..*fixed },
            Figure::Co2 => Readings { so2: drawn.so2, nox: drawn.nox, fc: drawn.fc, ..*fixed },
        };
        if writable(&readings) {
            return Some(readings);
        }
    }
    None
}

/// An operating hour with these readings, figures from the recorder; or, where
/// they do not fit, from the recorded readings.
pub fn hour_with(random: &mut Random, hour_of_quarter: u32, readings: Readings) -> Hour {
    let honest = honest_figures(random, &readings);
    let fits = honest.iter().zip(column_limits()).all(|(&f, limit)| f <= limit);
    Hour {
        hour_of_quarter,
        time: random.pick(&[1, 25, 50, 50, 99, 100, 100, 100]),
        readings,
        figures: if fits { honest } else { FIGURES.map(|f| f.of_recorded(&readings)) },
    }
}

/// So many rising hours of the quarter: sometimes in a row, sometimes at the
/// quarter's ends or about the end of February.
pub fn rising_hours(random: &mut Random, year: u32, quarter: u32, count: usize) -> Vec<u32> {
    let all = hours_in_quarter(year, quarter);
    let free = all - count as u32;
    if count == 0 {
        return Vec::new();
    }
    match random.below(5) {
        0 => (free..all).collect(),
        1 => (0..count as u32).collect(),
        2 => {
            let start = (24 * 59u32).saturating_sub(random.below(count + 1) as u32).min(free);
            (start..start + count as u32).collect()
        }
        3 => {
            let start = random.below(free as usize + 1) as u32;
            (start..start + count as u32).collect()
        }
        _ => {
            let mut offsets: Vec<u32> = (0..count).map(|_| random.below(free as usize + 1) as u32).collect();
            offsets.sort_unstable();
            offsets.iter().zip(0..).map(|(offset, rank)| offset + rank).collect()
        }
    }
}

/// A stack name, from plain to odd, never blank.
pub fn name(random: &mut Random) -> [u8; 6] {
    match random.below(4) {
        0 => random.pick(&[
            *b"1     ",
            *b" CS001",
            *b"     ~",
            *b"!\"#$%&",
            *b"100200",
            *b"A B C ",
            *b"\\/'`^_",
        ]),
        1 => {
            let mut name = [0; 6].map(|_| random.printable());
            name[random.below(6)] = b'A' + random.below(26) as u8;
            name
        }
        _ => {
            let mut name = *b"STK   ";
            name[3] = b'0' + random.below(10) as u8;
            name
        }
    }
}

/// A year and quarter, often a leap year or at the ends of the range.
pub fn year_and_quarter(random: &mut Random) -> (u32, u32) {
    let year = match random.below(4) {
        0 => random.pick(&[1995, 1996, 1999, 2000, 2001, 2093, 2094, 2092]),
        1 => 1996 + 4 * random.below(25) as u32,
        _ => 1995 + random.below(100) as u32,
    };
    let quarter = if is_leap(year) && random.once_in(3) { 1 } else { 1 + random.below(4) as u32 };
    (year, quarter)
}

/// An honest report with so many hours in the given quarter.
pub fn report_in(random: &mut Random, year: u32, quarter: u32, count: usize) -> Report {
    let hours = rising_hours(random, year, quarter, count)
        .into_iter()
        .map(|hour| {
            let readings = readings(random);
            hour_with(random, hour, readings)
        })
        .collect();
    let mut report = Report { year, quarter, name: name(random), hours, ..Report::default() };
    report.add_up();
    report
}

/// An honest report with so many hours.
pub fn report(random: &mut Random, count: usize) -> Report {
    let (year, quarter) = year_and_quarter(random);
    report_in(random, year, quarter, count)
}

/// A pen that uses the freedom of the formats: zeros before numbers, and
/// anything printable in unread columns.
pub struct OddPen<'a>(pub &'a mut Random);

impl Pen for OddPen<'_> {
    fn number(&mut self, width: usize, number: u128, decimals: usize) -> Vec<u8> {
        let text = plain_number(number, decimals);
        let zeros = self.0.below(width - text.len() + 1);
        let text = format!("{}{}", "0".repeat(zeros), text);
        format!("{text:>width$}").into_bytes()
    }

    fn unread(&mut self) -> u8 {
        self.0.printable()
    }
}

/// The bytes of a report, by one pen or the other.
pub fn bytes(random: &mut Random, report: &Report) -> Vec<u8> {
    if random.once_in(2) {
        report.bytes(&mut OddPen(random))
    } else {
        report.bytes(&mut PlainPen)
    }
}

#[cfg(test)]
mod tests {
    use super::*;

    #[test]
    fn unrounded_readings_round_to_the_recorded_one() {
        let mut random = Random::new(8);
        for recorded in (0..1_000).chain(FORMER_LIMIT - 10..=FORMER_LIMIT).chain(9_999_990..=9_999_999) {
            assert_eq!(half_up(unrounded(&mut random, recorded), PARTS), recorded);
        }
    }

    #[test]
    fn figures_of_the_recorder_pass() {
        let mut random = Random::new(9);
        for _ in 0..10_000 {
            let recorded = readings(&mut random);
            let figures = honest_figures(&mut random, &recorded);
            assert!(FIGURES.iter().zip(figures).all(|(f, figure)| f.possible(&recorded, figure)));
        }
    }
}
