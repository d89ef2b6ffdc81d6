//! A report as numbers: its hours, its totals, and its bytes.

use crate::calendar::{eight_digits, moment_of};
use crate::figures::{Figure, Readings, FIGURES};
use crate::layout::*;
use crate::rounding::half_up;

/// One operating hour. Figures stand in the order heat, SO2, NOx, CO2.
#[derive(Clone, Debug, Default, PartialEq, Eq)]
pub struct Hour {
    pub hour_of_quarter: u32,
    pub time: u128,
    pub readings: Readings,
    pub figures: [u128; 4],
}

impl Hour {
    /// Whether it is a gas hour.
    pub fn is_gas(&self) -> bool {
        self.readings.so2.reading().is_none()
    }
}

/// The totals of line 301: SO2, CO2 and heat in tenths, the mean NOx rate in
/// thousandths, and NOx tons in tenths.
pub type Totals = [u128; TOTALS];

/// How many totals there are.
pub const TOTALS: usize = 5;

/// A whole report. Idle hours are given by their hours of the quarter.
#[derive(Clone, Debug, Default, PartialEq, Eq)]
pub struct Report {
    pub year: u32,
    pub quarter: u32,
    pub name: [u8; 6],
    pub hours: Vec<Hour>,
    pub idle_hours: Vec<u32>,
    pub totals: Totals,
}

/// A value of a line in its recorded unit, or nothing where its columns are
/// blank.
type Entry = Option<u128>;

/// What a line says, apart from its type and stack.
#[derive(Default)]
struct Line {
    hour_of_quarter: Option<u32>,
    /// The values, left to right.
    entries: Vec<Entry>,
    says_gas: bool,
}

/// How the parts of a report that leave a choice are put on paper.
pub trait Pen {
    /// A number in a field of this width.
    fn number(&mut self, width: usize, number: u128, decimals: usize) -> Vec<u8>;
    /// A byte for an unread column.
    fn unread(&mut self) -> u8;
}

/// The pen of the writer: blanks before numbers, spaces in unread columns.
pub struct PlainPen;

impl Pen for PlainPen {
    fn number(&mut self, width: usize, number: u128, decimals: usize) -> Vec<u8> {
        format!("{:>width$}", plain_number(number, decimals)).into_bytes()
    }

    fn unread(&mut self) -> u8 {
        b' '
    }
}

/// The figure numbers of the four kinds in an hour's list.
pub fn place(figure: Figure) -> usize {
    FIGURES.iter().position(|&f| f == figure).unwrap_or(0)
}

/// The totals formed from recorded figures, given as (time, figures) of each
/// operating hour.
pub fn totals_of<'a>(hours: impl Iterator<Item = (u128, &'a [u128; 4])>) -> Totals {
    let (mut so2, mut co2, mut heat, mut rates, mut nox, mut count) = (0, 0, 0, 0, 0, 0);
    for (time, figures) in hours {
        heat += figures[0] * time;
        so2 += figures[1] * time;
        rates += figures[2];
        nox += nox_mass(time, figures);
        co2 += figures[3] * time;
        count += 1;
    }
    // Tenths of lb/hr times hundredths of hours are thousandths of pounds;
    // 2,000 pounds are a ton, and a tenth of a ton is wanted.
    let mean = if count == 0 { 0 } else { half_up(rates, count) };
    [half_up(so2, 200_000), half_up(co2, 100), half_up(heat, 100), mean, half_up(nox, NOX_TENTH)]
}

/// NOx of an operating hour by F-24, rate times heat times time: thousandths of
/// lb/mmBtu, tenths of mmBtu/hr and hundredths of hours are millionths of pounds.
pub fn nox_mass(time: u128, figures: &[u128; 4]) -> u128 {
    figures[2] * figures[0] * time
}

/// A tenth of a ton in millionths of pounds.
pub const NOX_TENTH: u128 = 200_000_000;

impl Report {
    /// Sets the totals to those of the figures.
    pub fn add_up(&mut self) {
        self.totals = totals_of(self.hours.iter().map(|h| (h.time, &h.figures)));
    }

    /// Whether every number fits into its columns.
    pub fn fits(&self) -> bool {
        let fit = |record: &Record, entries: &[Entry]| {
            let fits = |(entry, value): (&Entry, &Value)| {
                entry.is_none_or(|number| number * value.unit <= value.largest())
            };
            entries.iter().zip(record.values).all(fits)
        };
        let hour_fits = |hour: &Hour| HOURLY.iter().all(|record| fit(record, &entries(record, hour)));
        self.hours.iter().all(hour_fits) && fit(&R301, &self.totals.map(Some))
    }

    /// The lines of one record type.
    fn block(&self, record: &Record) -> Vec<Line> {
        let operating = |hour: &Hour| Line {
            hour_of_quarter: Some(hour.hour_of_quarter),
            entries: entries(record, hour),
            says_gas: record.kind == R310.kind && hour.is_gas(),
        };
        let idle =
            |&hour| Line { hour_of_quarter: Some(hour), entries: vec![Some(0), None], ..Line::default() };
        let mut lines: Vec<Line> = self.hours.iter().map(operating).collect();
        if record.kind == R300.kind {
            lines.extend(self.idle_hours.iter().map(idle));
            lines.sort_by_key(|line| line.hour_of_quarter);
        }
        lines
    }

    /// Puts one line with its end on paper.
    fn line(&self, pen: &mut dyn Pen, record: &Record, says: &Line, paper: &mut Vec<u8>) {
        let mut line: Vec<u8> = (0..record.length).map(|_| pen.unread()).collect();
        line[..3].copy_from_slice(record.kind);
        NAME.of_mut(&mut line).copy_from_slice(&self.name);
        if record.kind == b"100" {
            let year = format!("{:04}", self.year);
            YEAR.of_mut(&mut line).copy_from_slice(year.as_bytes());
            QUARTER.of_mut(&mut line).copy_from_slice(self.quarter.to_string().as_bytes());
        }
        if let (Some(columns), Some(hour)) = (record.date, says.hour_of_quarter) {
            let date = eight_digits(self.year, moment_of(self.year, self.quarter, hour));
            columns.of_mut(&mut line).copy_from_slice(date.as_bytes());
        }
        for (entry, value) in says.entries.iter().zip(record.values) {
            let text = match entry {
                Some(number) => pen.number(value.columns.1, number * value.unit, value.decimals),
                None => vec![b' '; value.columns.1],
            };
            value.columns.of_mut(&mut line).copy_from_slice(&text);
        }
        if says.says_gas {
            GAS_COLUMNS.of_mut(&mut line).copy_from_slice(GAS_WORD);
        }
        paper.append(&mut line);
        paper.push(b'\n');
    }

    /// The bytes of the report. Year below 10,000, quarter 1 to 4, and numbers
    /// that fit are needed.
    pub fn bytes(&self, pen: &mut dyn Pen) -> Vec<u8> {
        let mut paper = Vec::with_capacity(report_length(self.hours.len()));
        self.line(pen, &R100, &Line::default(), &mut paper);
        for record in &HOURLY {
            if record.kind == R310.kind {
                let totals = Line { entries: self.totals.map(Some).to_vec(), ..Line::default() };
                self.line(pen, &R301, &totals, &mut paper);
            }
            for line in self.block(record) {
                self.line(pen, record, &line, &mut paper);
            }
        }
        paper
    }
}

/// The values of an operating hour's line, left to right.
fn entries(record: &Record, hour: &Hour) -> Vec<Entry> {
    let Hour { time, readings: r, figures: f, .. } = hour;
    match record.kind {
        b"200" => vec![r.so2.reading()],
        b"201" => vec![Some(r.nox)],
        b"202" => vec![Some(r.co2)],
        b"220" => vec![Some(r.flow)],
        b"300" => vec![Some(*time), Some(f[0])],
        b"310" => vec![Some(f[1])],
        b"320" => vec![Some(r.fc), Some(f[2])],
        _ => vec![Some(f[3])],
    }
}

#[cfg(test)]
mod tests {
    use super::*;

    /// NOx tons of hours with these times, rates and heats.
    fn tons(hours: &[(u128, u128, u128)]) -> u128 {
        let hours: Vec<(u128, [u128; 4])> =
            hours.iter().map(|&(time, rate, heat)| (time, [heat, 0, rate, 0])).collect();
        totals_of(hours.iter().map(|(time, figures)| (*time, figures)))[4]
    }

    #[test]
    fn tons_are_rounded_once_and_half_up() {
        assert_eq!(tons(&[]), 0);
        assert_eq!(tons(&[(50, 358, 13_333)]), 1);
        // 100 lb, which is half a tenth, and a millionth of a pound less.
        assert_eq!(tons(&[(100, 100, 10_000)]), 1);
        assert_eq!(tons(&[(99, 101, 10_001)]), 0);
        assert_eq!(tons(&[(50, 500, 12_000)]), 2);
        // Twice 120 lb is 0.12 tons, though 120 lb alone is rounded to 0.1.
        assert_eq!(tons(&[(100, 120, 10_000), (100, 120, 10_000)]), 1);
    }

    #[test]
    fn the_greatest_tons() {
        let hours = [(100, 99_999, 999_999); 2_208];
        assert_eq!(tons(&hours), 110_398_786);
        let sum: u128 = hours.iter().map(|&(time, rate, heat)| time * rate * heat).sum();
        assert_eq!(sum, 22_079_757_120_220_800);
    }
}
