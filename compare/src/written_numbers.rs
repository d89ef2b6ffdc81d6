//! Sheets whose reports have each number in columns at its least, at its largest and with each number of digits. All seeds have them.
//! Each but the full quarters, which have a buffer a byte longer, is tried with one that just holds the report, with two longer ones, and
//! with one that is a byte too short.

#[path = "../../second/tests/support/numbers.rs"]
mod numbers;

use std::iter::repeat_n;

use numbers::{every_size, largest_figures, numbers, sizes_in, Name, Number, MOST_HOURS};
use second::calendar::hours_in_quarter;
use second::cases::{Case, FILL};
use second::figures::{Figure, Formula, Monitor, Readings, FIGURES};
use second::generate::sheets::words_of;
use second::generate::tons::MOST_WRITTEN;
use second::layout::{report_length, FLOW};
use second::report::{nox_mass, place, Hour, NOX_TENTH};
use second::rounding::span;
use second::write::{write, Form, Order, WORDS};

/// Beside these, any other reading but flow may be anything in its range; flow, if CO2 is less.
const MODEST: Readings = Readings { so2: Monitor(10), nox: 10, co2: 100, flow: 1_000, fc: 18_000 };

/// The largest figures of heat, SO2 and CO2 at once.
const HEAVIEST: Readings =
    Readings { so2: Monitor(15_000), nox: 99_999, co2: 747, flow: 401_606, fc: 30_000 };

/// A total that takes more hours is left to full quarters: one of the hours above, and one of those with the most NOx.
const SOME_HOURS: usize = 205;

/// The first and the last year; and quarters whose first or last hour has the least or the largest date of so many digits.
const QUARTERS: [(u32, u32); 9] =
    [(1995, 2), (2094, 3), (2000, 1), (2000, 3), (2000, 4), (2001, 1), (2009, 4), (2010, 1), (1999, 4)];

/// The cases. That they have what they are made for is read in the second implementation's reports.
pub fn cases() -> Vec<Case> {
    let mut orders = QUARTERS.map(|(year, quarter)| first_and_last(year, quarter)).to_vec();
    for number in numbers() {
        orders.extend(with_every_end(&number));
        orders.extend(number.ends().into_iter().filter_map(|end| with_total(&number, end)));
    }
    let full = [HEAVIEST, MOST_WRITTEN].map(|hour| order(1999, 4, in_a_row(repeat_n(hour, MOST_HOURS))));
    assert_every_size(orders.iter().chain(&full));
    let mut cases: Vec<Case> = orders.into_iter().flat_map(in_rooms).collect();
    cases.extend(full.map(|order| Case::Write { room: need(&order) + 1, order }));
    cases
}

fn order(year: u32, quarter: u32, hours: impl IntoIterator<Item = Hour>) -> Order {
    let words = hours.into_iter().flat_map(|hour| words_of(Form::Present, &hour)).collect();
    Order { year, quarter, name: *b"STACK1", words }
}

fn hour(hour_of_quarter: u32, time: u128, readings: Readings) -> Hour {
    Hour { hour_of_quarter, time, readings, figures: [0; 4] }
}

/// Whole hours from the first of a quarter on.
fn in_a_row(readings: impl Iterator<Item = Readings>) -> impl Iterator<Item = Hour> {
    readings.zip(0..).map(|(readings, rank)| hour(rank, 100, readings))
}

fn first_and_last(year: u32, quarter: u32) -> Order {
    order(year, quarter, [0, hours_in_quarter(year, quarter) - 1].map(|rank| hour(rank, 100, MODEST)))
}

/// A sheet with all ends of a number that stands on the lines of an hour.
fn with_every_end(number: &Number) -> Option<Order> {
    let hours: Option<Vec<Hour>> =
        number.ends().into_iter().zip(0..).map(|(end, rank)| hour_with(number.name, end, rank)).collect();
    let order = order(2005, 3, hours?);
    assert!(number.read_from(&report(&order)).eq(number.ends()), "{:?}", number.name);
    Some(order)
}

/// An hour with this number, if such a number stands on its lines.
fn hour_with(name: Name, number: u128, rank: u32) -> Option<Hour> {
    let readings = match name {
        Name::Time => return Some(hour(rank, number, MODEST)),
        Name::So2Ppm => Readings { so2: Monitor(number), ..MODEST },
        Name::NoxPpm => Readings { nox: number, ..MODEST },
        Name::Co2Percent => Readings { co2: number, ..MODEST },
        Name::Flow => Readings { flow: number / FLOW.unit, co2: 10, ..MODEST },
        Name::Fc => Readings { fc: number, ..MODEST },
        Name::Heat => with_figure(Figure::Heat, number),
        Name::So2Rate => with_figure(Figure::So2, number),
        Name::NoxRate => with_figure(Figure::Nox, number),
        Name::Co2Rate => with_figure(Figure::Co2, number),
        _ => return None,
    };
    Some(hour(rank, 100, readings))
}

/// Readings with this figure. One is tried from some number on; another, 1 at first, is the least that makes the figure so large.
fn with_figure(figure: Figure, number: u128) -> Readings {
    let tried = |step: u128| {
        let of_one = match figure {
            Figure::Heat => Readings { co2: 1 + step, flow: 1, fc: 5_000, ..MODEST },
            Figure::So2 => Readings { so2: Monitor(6_000 + step), flow: 1, ..MODEST },
            Figure::Nox => Readings { nox: 1, co2: 5, fc: 5_000 + step, ..MODEST },
            Figure::Co2 => Readings { co2: 600 + step, flow: 1, fc: 30_000, ..MODEST },
        };
        let (top, bottom) = match figure.formula(&of_one) {
            Formula::Product { top, bottom, x, y } => (top * x * y, bottom),
            Formula::Quotient { top, bottom, x, y } => (top * x, bottom * y),
            Formula::Multiple { top, bottom, x } => (top * x, bottom),
        };
        let least = (span(number).low * bottom).div_ceil(2 * top);
        match figure {
            Figure::Nox => Readings { nox: least, ..of_one },
            _ => Readings { flow: least, ..of_one },
        }
    };
    let is_written = |readings: &Readings| {
        let order = order(2005, 3, [hour(0, 100, *readings)]);
        write(&order, &mut vec![FILL; need(&order)]).is_ok()
    };
    let has_figure = |readings: &Readings| figure.of_recorded(readings) == number && is_written(readings);
    (0..10_000).map(tried).find(has_figure).expect("readings with this figure")
}

/// A sheet with this total, if the number is one and some hours suffice.
fn with_total(number: &Number, total: u128) -> Option<Order> {
    // 2,000 pounds are a ton; these are the least sums that are rounded to tons.
    let readings = match number.name {
        Name::So2Total => with_sum(Figure::So2, 1_000 * span(total).low),
        Name::Co2Total => with_sum(Figure::Co2, total),
        Name::HeatTotal => with_sum(Figure::Heat, total),
        Name::NoxMean => with_sum(Figure::Nox, total),
        Name::NoxTons => with_nox(NOX_TENTH / 2 * span(total).low),
        _ => None,
    };
    let order = order(2005, 3, in_a_row(readings?.into_iter()));
    assert!(number.read_from(&report(&order)).eq([total]), "{:?} {total}", number.name);
    Some(order)
}

/// Hours with the largest figure, and one with the rest of a sum.
fn with_sum(figure: Figure, sum: u128) -> Option<Vec<Readings>> {
    let most = largest_figures()[place(figure)];
    in_some_hours(sum, most, with_figure(figure, most), |rest| with_figure(figure, rest))
}

/// Hours with the most NOx, and one with the rest, in millionths of pounds.
fn with_nox(sum: u128) -> Option<Vec<Readings>> {
    let figures = FIGURES.map(|figure| figure.of_recorded(&MOST_WRITTEN));
    in_some_hours(sum, nox_mass(100, &figures), MOST_WRITTEN, |rest| {
        let of_unit = nox_mass(100, &[1, 0, figures[place(Figure::Nox)], 0]);
        Readings { flow: least_flow(&MOST_WRITTEN, rest.div_ceil(of_unit)), ..MOST_WRITTEN }
    })
}

/// The least flow with such a heat beside the other readings.
fn least_flow(readings: &Readings, heat: u128) -> u128 {
    (span(heat).low * readings.fc).div_ceil(200 * readings.co2)
}

/// As many hours with the most as a sum takes, and one with the rest, unless they are too many.
fn in_some_hours(
    sum: u128,
    most: u128,
    with_most: Readings,
    with_rest: impl Fn(u128) -> Readings,
) -> Option<Vec<Readings>> {
    let before = sum.saturating_sub(1) / most;
    let few = (before as usize) < SOME_HOURS;
    few.then(|| repeat_n(with_most, before as usize).chain([with_rest(sum - before * most)]).collect())
}

/// The bytes of the order's report.
fn need(order: &Order) -> usize {
    report_length(order.words.len() / WORDS)
}

/// The report that the second implementation writes.
fn report(order: &Order) -> Vec<u8> {
    let mut report = vec![FILL; need(order)];
    write(order, &mut report).expect("a report");
    report
}

/// The reports of the orders must have every number in every size.
fn assert_every_size<'a>(orders: impl Iterator<Item = &'a Order>) {
    let mut missing = every_size();
    for size in orders.flat_map(|order| sizes_in(&report(order))) {
        missing.remove(&size);
    }
    assert!(missing.is_empty(), "{missing:?}");
}

fn in_rooms(order: Order) -> [Case; 4] {
    let need = need(&order);
    [need, need + 1, need + 10_000, need - 1].map(|room| Case::Write { order: order.clone(), room })
}
