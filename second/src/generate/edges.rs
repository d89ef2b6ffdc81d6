//! Figures at, just inside and just outside their true edge, for each of the
//! four quantities, in any hour.

use super::recorder::{column_limits, hour_with, readings, readings_around, report, FORMER_LIMIT};
use super::tight;
use crate::figures::{Figure, Monitor, Readings, FIGURES};
use crate::random::Random;
use crate::report::{place, Report};

/// A report in which one figure stands at its edge or beside it. The turn
/// names the quantity and the place: outside, on and inside the lower edge,
/// then the upper edge.
pub fn at_edge(random: &mut Random, turn: usize) -> Report {
    let figure = FIGURES[turn % 4];
    loop {
        let count = 1 + random.below(4);
        let mut report = report(random, count);
        let rank = random.below(count);
        if set_at_edge(random, &mut report, rank, figure, turn / 4 % 6, true) {
            return report;
        }
    }
}

/// Readings for an edge: those that the figure uses are often 0, least or
/// largest.
fn edge_readings(random: &mut Random, figure: Figure) -> Readings {
    let drawn = readings(random);
    let special = match figure {
        Figure::Heat => [
            Readings { flow: 0, ..drawn },
            Readings { co2: 1, ..drawn },
            Readings { co2: 1_000, fc: 30_000, ..drawn },
            Readings { fc: 5_000, ..drawn },
            Readings { flow: FORMER_LIMIT, fc: 30_000, co2: random.between(1, 500), so2: Monitor(5), nox: 1 },
        ],
        Figure::So2 => [
            Readings { so2: Monitor(0), ..drawn },
            Readings { so2: Monitor(0), flow: 0, ..drawn },
            Readings { flow: 0, ..drawn },
            Readings { so2: Monitor(99_999), flow: random.between(0, 60_000), ..drawn },
            Readings { flow: FORMER_LIMIT, so2: Monitor(random.between(0, 12_000)), ..drawn },
        ],
        Figure::Nox => [
            Readings { nox: 0, ..drawn },
            Readings { co2: 1, nox: random.between(0, 3_000), ..drawn },
            Readings { fc: 5_000, ..drawn },
            Readings { fc: 30_000, ..drawn },
            Readings { nox: 99_999, co2: random.between(50, 1_000), ..drawn },
        ],
        Figure::Co2 => [
            Readings { flow: 0, ..drawn },
            Readings { co2: 1, ..drawn },
            Readings { co2: 1_000, ..drawn },
            Readings { flow: FORMER_LIMIT, ..drawn },
            Readings { flow: 1, co2: random.between(1, 1_000), ..drawn },
        ],
    };
    let fixed = if random.once_in(4) { drawn } else { random.pick(&special) };
    readings_around(random, &fixed, figure).unwrap_or(drawn)
}

/// Gives an hour of the report a figure at the named place of its edge, with
/// new readings if wanted, and adds up. False if there is no such figure.
pub fn set_at_edge(
    random: &mut Random,
    report: &mut Report,
    rank: usize,
    figure: Figure,
    spot: usize,
    new_readings: bool,
) -> bool {
    if new_readings {
        let fresh = edge_readings(random, figure);
        let old = &report.hours[rank];
        let time = old.time;
        report.hours[rank] = hour_with(random, old.hour_of_quarter, fresh);
        report.hours[rank].time = time;
    }
    let hour = &mut report.hours[rank];
    let (low, high) = figure.edges(&hour.readings);
    let wanted = match spot {
        0 => low.checked_sub(1),
        1 => Some(low),
        2 => Some((low + 1).min(high)),
        3 => Some(high.saturating_sub(1).max(low)),
        4 => Some(high),
        _ => Some(high + 1),
    };
    let number = place(figure);
    match wanted.filter(|&w| w <= column_limits()[number]) {
        Some(wanted) => {
            hour.figures[number] = wanted;
            report.add_up();
            true
        }
        None => false,
    }
}

/// A report with one figure far from its edge: a slip of one digit, ten times
/// too much, nothing at all, or the largest that the column holds.
pub fn far_off(random: &mut Random, turn: usize) -> Report {
    let number = turn % 4;
    let count = 1 + random.below(4);
    let mut report = report(random, count);
    let rank = random.below(count);
    let limit = column_limits()[number];
    let figure = &mut report.hours[rank].figures[number];
    *figure = match turn / 4 % 5 {
        0 => (*figure * 10).min(limit),
        1 => 0,
        2 => limit,
        3 => *figure / 2,
        _ => (*figure + 10u128.pow(random.below(5) as u32)).min(limit),
    };
    report.add_up();
    report
}

/// A report whose readings call for a figure that no column holds; the
/// largest that fits stands there instead.
pub fn too_large(random: &mut Random, turn: usize) -> Report {
    too_large_with_flow(random, turn, FORMER_LIMIT)
}

/// The same with this flow where one is large, in thousands.
pub fn too_large_with_flow(random: &mut Random, turn: usize, flow: u128) -> Report {
    let count = 1 + random.below(3);
    let mut report = report(random, count);
    let rank = random.below(count);
    let hour = &mut report.hours[rank];
    hour.readings = match turn % 3 {
        0 => Readings { flow, co2: 1_000, fc: 5_000, so2: Monitor(3), nox: 20 },
        1 => Readings { flow, so2: Monitor(99_999), co2: 20, fc: 30_000, nox: 20 },
        _ => Readings { nox: 99_999, co2: 1, fc: 30_000, so2: Monitor(20), flow: 100 },
    };
    for (number, figure) in FIGURES.iter().enumerate() {
        hour.figures[number] = figure.of_recorded(&hour.readings).min(column_limits()[number]);
    }
    report.add_up();
    report
}

/// Two figures that fail, in two hours or in one: the first in the order of
/// judging must be found, wherever its line stands.
pub fn two_impossible(random: &mut Random, turn: usize) -> Report {
    loop {
        let count = 2 + random.below(3);
        let mut report = report(random, count);
        let first = random.below(count);
        let second = if turn % 3 == 0 { first } else { random.below(count) };
        let spots = [random.pick(&[0, 5]), random.pick(&[0, 5])];
        let one = random.pick(&FIGURES);
        let other = random.pick(&FIGURES);
        if set_at_edge(random, &mut report, first, one, spots[0], true)
            && set_at_edge(random, &mut report, second, other, spots[1], first != second)
        {
            return report;
        }
    }
}

/// A report of a few hours in which one hour has these readings and this figure.
pub fn report_with(random: &mut Random, readings: Readings, figure: Figure, wanted: u128) -> Report {
    let count = 1 + random.below(3);
    let mut report = report(random, count);
    let rank = random.below(count);
    let hour_of_quarter = report.hours[rank].hour_of_quarter;
    report.hours[rank] = hour_with(random, hour_of_quarter, readings);
    report.hours[rank].figures[place(figure)] = wanted;
    report.add_up();
    report
}

/// A report in which the edge of a figure is missed or met by as little as the
/// numbers allow.
pub fn at_tight_edge(random: &mut Random, turn: usize) -> Report {
    let figure = FIGURES[turn % 4];
    // The side stays the same from one trial to the next, the kind of hit or
    // miss changes: not every kind can be had for every quantity.
    for trial in (turn / 4..).step_by(2) {
        let Some((fixed, wanted)) = tight::find(random, figure, trial) else { continue };
        if wanted > column_limits()[place(figure)] {
            continue;
        }
        let Some(readings) = readings_around(random, &fixed, figure) else { continue };
        return report_with(random, readings, figure, wanted);
    }
    report(random, 1)
}

/// A report in which the values of an hour's flow and CO2 end or start exactly
/// where the span of a heat figure starts or ends: that figure, which fails, or
/// its neighbour, which passes.
pub fn at_exact_heat(random: &mut Random, turn: usize) -> Report {
    let upper = turn % 2 == 0;
    loop {
        let (fixed, missed) = tight::exact_heat(random, upper);
        let wanted = match (turn / 2 % 2, upper) {
            (0, _) => missed,
            (_, true) => missed - 1,
            (_, false) => missed + 1,
        };
        let readings = readings_around(random, &fixed, Figure::Heat);
        if let Some(readings) = readings.filter(|_| wanted <= column_limits()[place(Figure::Heat)]) {
            return report_with(random, readings, Figure::Heat, wanted);
        }
    }
}

/// A report with an hour of recorded flow 0, which stands for nearly 500 scfh
/// too: one past the largest figure, the largest, or one up to it.
pub fn without_flow(random: &mut Random, turn: usize) -> Report {
    let figure = [Figure::Heat, Figure::So2, Figure::Heat, Figure::So2, Figure::Co2][turn % 5];
    let drawn = Readings { flow: 0, ..readings(random) };
    let fixed = match figure {
        Figure::Heat => {
            Readings { co2: random.between(100, 1_000), fc: random.between(5_000, 15_000), ..drawn }
        }
        _ if random.once_in(3) => Readings { so2: Monitor(99_999), ..drawn },
        _ => Readings { so2: Monitor(random.between(5_000, 99_999)), ..drawn },
    };
    let readings = readings_around(random, &fixed, figure).unwrap_or(drawn);
    let (_, high) = figure.edges(&readings);
    let wanted = match turn / 5 % 3 {
        0 => high + 1,
        1 => high,
        _ => random.between(0, high),
    };
    report_with(random, readings, figure, wanted)
}
