//! Flow above its former limit: readings that have it; and files with such hours,
//! in which all is right, or figures, totals or the flow itself are not.

use super::changes::ON_LINE;
use super::edges::{report_with, set_at_edge, too_large_with_flow};
use super::flows;
use super::gas_hours::make_gas;
use super::idle_hours::put;
use super::page::Page;
use super::recorder::{
    self, bytes, column_limits, hour_with, readings_around, readings_with_flow, FORMER_LIMIT,
};
use super::sheets::limit_readings;
use super::tight;
use super::tons::{heavy, written_figures, MOST_WRITTEN};
use super::{family_of, Family};
use crate::figures::{Figure, Readings};
use crate::layout::FLOW;
use crate::random::Random;
use crate::report::{place, Report, TOTALS};
use crate::write::Form;

/// The limit, in thousands.
const MOST: u128 = 9_999_999;

/// Flows, in thousands, about the former limit, about the largest in a word that
/// counts scfh, where scfh take more than 32 bits, and up to the limit; the first
/// ones are tried most.
pub const NAMED: [u128; 9] = [
    FORMER_LIMIT + 1,
    MOST,
    536_870,
    FORMER_LIMIT,
    MOST - 1,
    536_871,
    FORMER_LIMIT - 1,
    4_294_967,
    4_294_968,
];

/// Flows that are no whole thousands, about so many bits.
const ABOUT_BITS: [u128; 5] = [(1 << 29) - 1, 1 << 29, (1 << 32) - 1, 1 << 32, 1 << 33];

/// The figures that flow is used for.
const OF_FLOW: [Figure; 3] = [Figure::Heat, Figure::So2, Figure::Co2];

/// The families and their shares.
const FAMILIES: [(Family<Vec<u8>>, usize); 11] = [
    (good, 24),
    (edge, 36),
    (tight_edge, 15),
    (of_other_flow, 15),
    (wrong_total, 10),
    (too_large, 13),
    (uneven, 23),
    (and_another_fault, 21),
    (at_column_limit, 7),
    (too_large_figure, 2),
    (heaviest, 4),
];

/// The file with this number among those with large flows.
pub fn file(random: &mut Random, number: usize) -> Vec<u8> {
    let (family, turn) = family_of(&FAMILIES, number);
    family(random, turn)
}

/// Readings whose figures can be written, half of them with large flows.
pub fn any_readings(random: &mut Random) -> Readings {
    if random.once_in(2) {
        return recorder::readings(random);
    }
    let flow = match random.below(3) {
        0 => random.pick(&NAMED),
        1 => random.between(FORMER_LIMIT + 1, MOST),
        _ => FORMER_LIMIT + 1 + random.spread(MOST - FORMER_LIMIT - 1),
    };
    readings_with_flow(random, flow)
}

/// The named flows in turn, and then any.
fn flow_of_turn(random: &mut Random, turn: usize) -> u128 {
    let any = random.between(FORMER_LIMIT + 1, MOST);
    NAMED.get(turn % (NAMED.len() + 1)).copied().unwrap_or(any)
}

/// An honest report of one to three hours, one of which has this flow; and that
/// hour's rank.
fn report_with_flow(random: &mut Random, flow: u128) -> (Report, usize) {
    let count = 1 + random.below(3);
    let mut report = recorder::report(random, count);
    let rank = random.below(count);
    let readings = readings_with_flow(random, flow);
    let hour_of_quarter = report.hours[rank].hour_of_quarter;
    report.hours[rank] = hour_with(random, hour_of_quarter, readings);
    report.add_up();
    (report, rank)
}

/// The page of such a report with the flow in scfh replaced, and the line of it.
fn page_with_flow(random: &mut Random, thousands: u128, flow: u128) -> (Page, usize) {
    let (report, rank) = report_with_flow(random, thousands);
    let mut page = Page::of(&put(random, report));
    let line = flows::line_of_hour(&page, rank);
    flows::put(random, &mut page, line, flow);
    (page, line)
}

fn good(random: &mut Random, turn: usize) -> Vec<u8> {
    let flow = flow_of_turn(random, turn);
    let (mut report, rank) = report_with_flow(random, flow);
    if turn % 4 == 3 {
        make_gas(random, &mut report.hours[rank]);
        report.add_up();
    }
    put(random, report)
}

/// A figure that flow is used for, outside or on its lower edge or its upper one.
fn edge(random: &mut Random, turn: usize) -> Vec<u8> {
    let (figure, spot) = (OF_FLOW[turn % 3], [0, 1, 4, 5][turn / 3 % 4]);
    loop {
        let flow = flow_of_turn(random, turn / 12);
        let (mut report, rank) = report_with_flow(random, flow);
        if set_at_edge(random, &mut report, rank, figure, spot, false) {
            return put(random, report);
        }
    }
}

/// Such a figure whose edge is missed or met by as little as the numbers allow.
fn tight_edge(random: &mut Random, turn: usize) -> Vec<u8> {
    let figure = OF_FLOW[turn % 3];
    let mut trial = turn / 3;
    loop {
        let found = tight::find_up_to(random, figure, trial, MOST);
        let fits = |readings: &Readings, wanted| {
            readings.flow > FORMER_LIMIT && wanted <= column_limits()[place(figure)]
        };
        if let Some((fixed, wanted)) = found.filter(|(readings, wanted)| fits(readings, *wanted)) {
            if let Some(readings) = readings_around(random, &fixed, figure) {
                let report = report_with(random, readings, figure, wanted);
                return put(random, report);
            }
        }
        // The same side again.
        trial += 2;
    }
}

/// The flow cut to 29 or 32 bits of scfh, to the former limit or to fewer bits of
/// thousands, or counted as if thousands were scfh.
fn other_flow(turn: usize, flow: u128) -> u128 {
    match turn % 5 {
        0 => FLOW.unit * flow % (1 << 29) / FLOW.unit,
        1 => FLOW.unit * flow % (1 << 32) / FLOW.unit,
        2 => FORMER_LIMIT,
        3 => flow % (1 << 16),
        _ => flow / FLOW.unit,
    }
}

/// A figure of another flow than the hour's own, drawn again until it fails.
fn of_other_flow(random: &mut Random, turn: usize) -> Vec<u8> {
    let figure = OF_FLOW[turn % 3];
    loop {
        let flow = random.between(FORMER_LIMIT + 1, MOST);
        let readings = readings_with_flow(random, flow);
        let wanted = figure.of_recorded(&Readings { flow: other_flow(turn, flow), ..readings });
        if !figure.possible(&readings, wanted) {
            let report = report_with(random, readings, figure, wanted);
            return put(random, report);
        }
    }
}

/// Totals off by one.
fn wrong_total(random: &mut Random, turn: usize) -> Vec<u8> {
    loop {
        let flow = flow_of_turn(random, turn);
        let (mut report, _) = report_with_flow(random, flow);
        let total = &mut report.totals[turn % TOTALS];
        *total = if *total == 0 || random.once_in(2) { *total + 1 } else { *total - 1 };
        if report.fits() {
            return put(random, report);
        }
    }
}

/// A flow past its limit.
fn past_limit(random: &mut Random, turn: usize) -> u128 {
    let any = random.between(1, 999);
    FLOW.unit * MOST + [1, 999, 500, any][turn % 4]
}

/// A flow past its limit, beside the figures of the limit, and in some turns a
/// figure that fails.
fn too_large(random: &mut Random, turn: usize) -> Vec<u8> {
    let flow = past_limit(random, turn);
    if turn % 8 < 6 {
        return page_with_flow(random, MOST, flow).0.bytes();
    }
    let report = too_large_with_flow(random, turn, MOST);
    let mut page = Page::of(&bytes(random, &report));
    let line = flows::any_line(random, &page);
    flows::put(random, &mut page, line, flow);
    page.bytes()
}

/// A large flow in its range that is no whole thousand: just above or just below
/// one, about so many bits, or any.
fn uneven_flow(random: &mut Random, turn: usize) -> u128 {
    let any = FLOW.unit * random.between(FORMER_LIMIT, MOST - 1) + random.between(1, 999);
    // The largest flow has none above it in the range.
    let named = NAMED.iter().filter(|&&flow| flow < MOST).map(|flow| FLOW.unit * flow);
    let flows: Vec<u128> =
        named.flat_map(|flow| [flow + 1, flow + 999]).chain(ABOUT_BITS).chain([any, any]).collect();
    flows[turn % flows.len()]
}

/// A large flow that is no whole thousand, beside the figures of the thousand below.
fn uneven(random: &mut Random, turn: usize) -> Vec<u8> {
    let flow = uneven_flow(random, turn);
    page_with_flow(random, flow / FLOW.unit, flow).0.bytes()
}

/// A flow past its limit or that is no whole thousand, and a fault on its line,
/// before it or behind it.
fn and_another_fault(random: &mut Random, turn: usize) -> Vec<u8> {
    let flow = if turn % 2 == 0 { past_limit(random, turn) } else { uneven_flow(random, turn) };
    let (mut page, line) = page_with_flow(random, flow / FLOW.unit, flow);
    // The first of these is the same fault again.
    let fault = ON_LINE[1 + turn / 3 % (ON_LINE.len() - 1)];
    let index = match turn % 3 {
        0 => line,
        1 => random.below(line),
        _ => line + 1 + random.below(page.lines.len() - line - 1),
    };
    fault(random, index, &mut page);
    page.bytes()
}

/// A figure at the end of its column, or one that is the last there to pass; CO2 as
/// large as it can be.
fn at_column_limit(random: &mut Random, turn: usize) -> Vec<u8> {
    let figure = [Figure::Heat, Figure::So2, Figure::Heat, Figure::So2, Figure::Co2][turn % 5];
    let readings = limit_readings(random, Form::Present, figure, turn % 5 >= 2);
    let wanted = figure.of_recorded(&readings).min(column_limits()[place(figure)]);
    let report = report_with(random, readings, figure, wanted);
    put(random, report)
}

/// Readings of the largest flow, which call for a figure that no column holds.
fn too_large_figure(random: &mut Random, turn: usize) -> Vec<u8> {
    let report = too_large_with_flow(random, turn % 2, MOST);
    put(random, report)
}

/// Hours with the most NOx; right, or one up.
fn heaviest(random: &mut Random, turn: usize) -> Vec<u8> {
    heavy(random, turn % 6, (MOST_WRITTEN, written_figures(&MOST_WRITTEN)))
}

#[cfg(test)]
mod tests {
    use super::*;

    #[test]
    fn the_most_is_the_limit() {
        assert_eq!(FLOW.unit * MOST, FLOW.limits().1);
    }

    #[test]
    fn uneven_flows_are_in_range() {
        let mut random = Random::new(11);
        for turn in 0..500 {
            let flow = uneven_flow(&mut random, turn);
            assert!(FLOW.in_range(flow) && FLOW.recorded(flow).is_none());
            assert!(!FLOW.in_range(past_limit(&mut random, turn)));
        }
    }
}
