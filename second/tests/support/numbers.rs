//! The numbers in columns of written reports: how small and how large each can
//! be, and in which sizes a report has them.

use second::figures::{Figure, Readings, FIGURES};
use second::generate::recorder::column_limits;
use second::generate::tons::MOST_WRITTEN;
use second::layout::{read_number, Columns, Record, Value, DATE_200, FLOW, QUARTER, YEAR};
use second::layout::{R100, R200, R201, R202, R220, R300, R301, R310, R320, R330};
use second::report::totals_of;
use second::rounding::span;
use std::collections::BTreeSet;
use std::iter::repeat_n;

/// The hours of the longest quarter.
pub const MOST_HOURS: usize = 2_208;

#[derive(Clone, Copy, Debug, PartialEq, Eq, PartialOrd, Ord)]
pub enum Name {
    Year,
    Quarter,
    Date,
    YearOfDate,
    Month,
    Day,
    HourOfDay,
    So2Ppm,
    NoxPpm,
    Co2Percent,
    Flow,
    Time,
    Heat,
    So2Total,
    Co2Total,
    HeatTotal,
    NoxMean,
    NoxTons,
    So2Rate,
    Fc,
    NoxRate,
    Co2Rate,
}

/// How a number is written: as the least or the largest that there can be, or
/// with so many digits, which are those of the count of its last decimal.
#[derive(Clone, Copy, Debug, PartialEq, Eq, PartialOrd, Ord)]
pub enum Size {
    Least,
    Largest,
    Digits(u32),
}

/// A number on lines of one type. Its range is what written reports can have.
pub struct Number {
    pub name: Name,
    record: Record,
    value: Value,
}

/// All numbers. A date stands on every line of its hour; that on line 200 is
/// taken, as a whole and in its parts.
pub fn numbers() -> Vec<Number> {
    let figures = largest_figures();
    let [so2, co2, heat, mean, _] = totals_of(repeat_n((100, &figures), MOST_HOURS));
    let part = |start| Columns(DATE_200.0 + start, 2);
    vec![
        Number::of_digits(Name::Year, R100, YEAR, (1995, 2094)),
        Number::of_digits(Name::Quarter, R100, QUARTER, (1, 4)),
        Number::of_digits(Name::Date, R200, DATE_200, (10_100, 99_123_123)),
        Number::of_digits(Name::YearOfDate, R200, part(0), (0, 99)),
        Number::of_digits(Name::Month, R200, part(2), (1, 12)),
        Number::of_digits(Name::Day, R200, part(4), (1, 31)),
        Number::of_digits(Name::HourOfDay, R200, part(6), (0, 23)),
        Number::of_value(Name::So2Ppm, R200, 0),
        Number::of_value(Name::NoxPpm, R201, 0),
        Number::of_value(Name::Co2Percent, R202, 0),
        Number::of_value(Name::Flow, R220, 0),
        Number::of_value(Name::Time, R300, 0),
        Number::of_value(Name::Heat, R300, 1),
        Number::of_value(Name::So2Total, R301, 0).up_to(so2),
        Number::of_value(Name::Co2Total, R301, 1).up_to(co2),
        Number::of_value(Name::HeatTotal, R301, 2).up_to(heat),
        Number::of_value(Name::NoxMean, R301, 3).up_to(mean),
        Number::of_value(Name::NoxTons, R301, 4).up_to(largest_tons()),
        Number::of_value(Name::So2Rate, R310, 0),
        Number::of_value(Name::Fc, R320, 0),
        Number::of_value(Name::NoxRate, R320, 1),
        Number::of_value(Name::Co2Rate, R330, 0).up_to(figures[3]),
    ]
}

/// All sizes that each number can have.
pub fn every_size() -> BTreeSet<(Name, Size)> {
    let mut sizes = BTreeSet::new();
    for number in numbers() {
        number.ends().into_iter().for_each(|end| sizes.extend(number.sizes_of(end)));
    }
    sizes
}

/// The sizes of all numbers of a report, each as often as it is there.
pub fn sizes_in(report: &[u8]) -> Vec<(Name, Size)> {
    let mut sizes = Vec::new();
    for number in numbers() {
        number.read_from(report).for_each(|read| sizes.extend(number.sizes_of(read)));
    }
    sizes
}

/// The largest figures of written hours: heat, SO2, NOx, CO2.
pub fn largest_figures() -> [u128; 4] {
    let [heat, so2, nox, _] = column_limits();
    [heat, so2, nox, largest_co2(heat)]
}

/// The largest CO2 figure. Its columns hold more, but not with a heat that fits
/// as well, not even with the largest Fc.
fn largest_co2(heat: u128) -> u128 {
    let [co2, flow, fc] = [R202.values[0], FLOW, R320.values[0]].map(|value| value.limits().1 / value.unit);
    let figure = |co2| {
        // 100 * flow * CO2 / Fc is to stay below the end of heat's span, which is
        // given in halves.
        let fitting = (span(heat).high * fc - 1) / (200 * co2);
        Figure::Co2.of_recorded(&Readings { co2, flow: fitting.min(flow), ..Readings::default() })
    };
    (1..=co2).map(figure).max().unwrap_or(0)
}

/// The most NOx tons: those of a quarter of hours with the most NOx.
fn largest_tons() -> u128 {
    let figures = FIGURES.map(|figure| figure.of_recorded(&MOST_WRITTEN));
    let [.., tons] = totals_of(repeat_n((100, &figures), MOST_HOURS));
    tons
}

fn digits(number: u128) -> u32 {
    number.checked_ilog10().unwrap_or(0) + 1
}

impl Number {
    fn of_value(name: Name, record: Record, index: usize) -> Self {
        Number { name, record, value: record.values[index] }
    }

    fn of_digits(name: Name, record: Record, columns: Columns, range: (u128, u128)) -> Self {
        Number { name, record, value: Value { columns, decimals: 0, range: Some(range), unit: 1 } }
    }

    fn up_to(mut self, largest: u128) -> Self {
        self.value.range = Some((0, largest));
        self
    }

    /// The least and the largest number with so many digits, for each number of
    /// digits that there can be.
    pub fn ends(&self) -> Vec<u128> {
        let (least, largest) = self.value.limits();
        let unit = self.value.unit;
        let of_digits = |digits: u32| {
            let first = if digits == 1 { 0 } else { 10u128.pow(digits - 1) };
            let last = 10u128.pow(digits) - 1;
            [first.max(least).next_multiple_of(unit), last.min(largest) / unit * unit]
        };
        let pairs = (1..=digits(largest)).map(of_digits).filter(|[first, last]| first <= last);
        let mut ends: Vec<u128> = pairs.flatten().collect();
        ends.dedup();
        ends
    }

    fn sizes_of(&self, number: u128) -> impl Iterator<Item = (Name, Size)> {
        let (least, largest) = self.value.limits();
        let least = (number == least).then_some(Size::Least);
        let largest = (number == largest).then_some(Size::Largest);
        let name = self.name;
        least.into_iter().chain(largest).chain([Size::Digits(digits(number))]).map(move |size| (name, size))
    }

    /// What stands in the columns, line by line.
    pub fn read_from<'a>(&'a self, report: &'a [u8]) -> impl Iterator<Item = u128> + 'a {
        let Value { columns, decimals, .. } = self.value;
        let lines = report.split(|&byte| byte == b'\n').filter(|line| line.starts_with(self.record.kind));
        lines.map(move |line| {
            let number = read_number(columns.of(line), decimals);
            number.filter(|&number| self.value.in_range(number)).expect("a number in its range")
        })
    }
}
