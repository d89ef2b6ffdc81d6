//! Written reports, small ones and full quarters, and then changes to them:
//! each change is a list of bytes to set in the report as it stands.

use super::changes::{self, any_changes};
use super::edges::set_at_edge;
use super::flows;
use super::gas_hours;
use super::idle_hours;
use super::page::{two_below, Page};
use super::recorder::{column_limits, honest_figures};
use super::sheets::{case, need, order, order_in, words_of};
use super::tons::{FORMER_MOST_WRITTEN, MOST_WRITTEN};
use crate::calendar::{eight_digits, hours_in_quarter, moment_of};
use crate::cases::Case;
use crate::figures::{Monitor, Readings, FIGURES};
use crate::layout::{DATE_200, HOURLY, R100, R200};
use crate::random::Random;
use crate::report::{Hour, PlainPen, Report, TOTALS};
use crate::write::{hour_of, report_of, Form, Order, WORDS};
use std::ops::Range;

/// More changes than this are not made at once.
const MOST_EDITS: usize = 1_500;

/// How many kinds of steps there are.
const STEPS: usize = 22;

/// The step that makes one 200 line too many.
const ONE_MORE: usize = 20;

/// The step that makes a flow no whole thousand.
const UNEVEN: usize = 21;

/// The full quarters of the first form in turn: year and quarter.
const FULL: [(u32, u32); 9] =
    [(2005, 1), (2000, 1), (2005, 3), (2001, 2), (1996, 1), (2094, 4), (1995, 1), (2092, 2), (2008, 3)];

/// The readings of every hour, if that full quarter has large totals.
fn heaviest(number: usize) -> Option<Readings> {
    match number {
        // The largest heat and the largest SO2 figure.
        5 => Some(Readings { so2: Monitor(30_000), nox: 99_999, co2: 996, flow: 200_803, fc: 20_000 }),
        8 => Some(FORMER_MOST_WRITTEN),
        _ => None,
    }
}

/// An order with all hours of a quarter, and with the same readings in each if
/// they are given.
fn full_order(
    random: &mut Random,
    form: Form,
    (year, quarter): (u32, u32),
    readings: Option<Readings>,
) -> Order {
    let hours = hours_in_quarter(year, quarter);
    let mut order = order_in(random, form, year, quarter, hours as usize);
    if let Some(readings) = readings {
        let hour = |hour_of_quarter| Hour { hour_of_quarter, time: 100, readings, figures: [0; 4] };
        order.words = (0..hours).flat_map(|rank| words_of(form, &hour(rank))).collect();
    }
    order
}

/// A full quarter of the first form, and changes to it.
pub fn full(random: &mut Random, number: usize) -> Vec<Case> {
    let order = full_order(random, Form::First, FULL[number % FULL.len()], heaviest(number));
    let mut cases = Vec::new();
    if number == 2 {
        // The largest report of all, one byte too many for its room.
        cases.push(case(Form::First, order.clone(), need(&order) - 1));
    }
    let steps = (number * 7..number * 7 + 14).chain([ONE_MORE, UNEVEN]);
    cases.extend(written(random, Form::First, order, steps, turns(number, 3), turns(number, 2)));
    cases
}

/// A full quarter of the present form, and changes to it: one of hours with the
/// most NOx and one of any hours in turn.
pub fn present_full(random: &mut Random, number: usize) -> Vec<Case> {
    let (quarter, readings) = [((2005, 3), Some(MOST_WRITTEN)), ((2000, 1), None)][number % 2];
    let order = full_order(random, Form::Present, quarter, readings);
    let steps = number * 7..number * 7 + 8;
    written(random, Form::Present, order, steps, turns(number, 2), turns(number, 2))
}

/// About as many hours of the first form as 65,536 bytes hold, and changes.
pub fn middle(random: &mut Random, number: usize) -> Vec<Case> {
    let order = order(random, Form::First, 205 + number % 2);
    written(random, Form::First, order, number * 9..number * 9 + 10, turns(number, 2), turns(number, 2))
}

/// A few hours of the first form, and changes.
pub fn small(random: &mut Random, number: usize) -> Vec<Case> {
    few(random, Form::First, number)
}

/// A few hours of the present form, and changes.
pub fn present_small(random: &mut Random, number: usize) -> Vec<Case> {
    few(random, Form::Present, number)
}

fn few(random: &mut Random, form: Form, number: usize) -> Vec<Case> {
    let order = order(random, form, 1 + number % 9);
    written(random, form, order, number * 5..number * 5 + 5, turns(number, 2), turns(number, 3))
}

/// So many turns for the report with this number, in a row with those of the
/// others.
fn turns(number: usize, count: usize) -> Range<usize> {
    number * count..(number + 1) * count
}

/// The order written, these steps of change to its report, and then turns in
/// which lines of it are made idle, and turns in which hours are made gas hours.
fn written(
    random: &mut Random,
    form: Form,
    order: Order,
    steps: impl Iterator<Item = usize>,
    idle_turns: Range<usize>,
    gas_turns: Range<usize>,
) -> Vec<Case> {
    let hour = |words| hour_of(form, words).expect("an hour of a sound order");
    let hours = order.words.chunks(WORDS).map(hour).collect();
    let report = report_of(&order, hours);
    let room = need(&order) + random.pick(&[0, 0, 1, 77]);
    let mut cases = vec![case(form, order, room)];
    let mut now = report.bytes(&mut PlainPen);
    for step in steps {
        let next = changed(random, step, &report);
        cases.extend(patch(&mut now, next));
    }
    for turn in idle_turns {
        let rank = any_rank(random, &report);
        let page = Page::of(&report.bytes(&mut PlainPen));
        let next = idle_hours::emptied(random, turn, page, rank);
        cases.extend(patch(&mut now, next));
    }
    for turn in gas_turns {
        let rank = any_rank(random, &report);
        let next = gas_hours::made_gas(random, turn, &report, rank);
        cases.extend(patch(&mut now, next));
    }
    cases
}

/// The changes that make one report of another, unless they are too many or the
/// lengths differ.
fn patch(now: &mut Vec<u8>, next: Vec<u8>) -> Option<Case> {
    if next.len() != now.len() {
        return None;
    }
    let edits: Vec<(usize, u8)> =
        (0..now.len()).filter(|&i| now[i] != next[i]).map(|i| (i, next[i])).collect();
    if edits.len() > MOST_EDITS {
        return None;
    }
    *now = next;
    Some(Case::Patch(edits))
}

/// Any hour, the first and last ones more often.
fn any_rank(random: &mut Random, report: &Report) -> usize {
    let count = report.hours.len();
    match random.below(6) {
        0 => count - 1,
        1 => 0,
        _ => random.below(count),
    }
}

/// The bytes of the report after one step of change.
fn changed(random: &mut Random, step: usize, report: &Report) -> Vec<u8> {
    let mut next = report.clone();
    let (way, turn) = (step % STEPS, step / STEPS);
    let rank = any_rank(random, report);
    let figure = FIGURES[(turn + way) % 4];
    match way {
        // Outside, on, on, outside the edges of a figure, readings as written.
        0..=3 => {
            let spot = [0, 1, 4, 5][way];
            if !set_at_edge(random, &mut next, rank, figure, spot, false) {
                set_at_edge(random, &mut next, rank, figure, 5, true);
            }
        }
        4 | 5 => next.totals[(turn + way) % TOTALS] += 1,
        6 => {
            let total = &mut next.totals[random.below(TOTALS)];
            *total = total.saturating_sub(1);
        }
        7 => {
            // Two figures fail, in any two hours.
            let other = any_rank(random, report);
            set_at_edge(random, &mut next, rank, figure, 5, false);
            let figure = random.pick(&FIGURES);
            set_at_edge(random, &mut next, other, figure, 5, false);
        }
        8 => {
            set_at_edge(random, &mut next, rank, figure, 5, false);
            next.totals[random.below(TOTALS)] += 1;
        }
        9 => honest(random, &mut next),
        10 => return report.bytes(&mut PlainPen),
        11 => {
            // A figure at its edge in every one of some hours, on both sides.
            for spot in [1, 4, 1, 4, 1, 4] {
                let rank = any_rank(random, report);
                let figure = random.pick(&FIGURES);
                set_at_edge(random, &mut next, rank, figure, spot, false);
            }
        }
        12 => {
            set_at_edge(random, &mut next, rank, figure, 5, false);
            return changed_lines(random, turn, &next, 1);
        }
        13 => return unread_filled(random, report),
        14 => return swapped(random, report),
        15 => {
            let mut bytes = report.bytes(&mut PlainPen);
            let place = random.below(bytes.len());
            bytes[place] = random.pick(&[b'\n', bytes[place] ^ 1, 0, 200]);
            return bytes;
        }
        16 | 17 => return changed_lines(random, turn, report, 1),
        18 => {
            let mut page = Page::of(&report.bytes(&mut PlainPen));
            changes::unlike_date(random, step, &mut page);
            return page.bytes();
        }
        ONE_MORE => return one_more(random, report),
        UNEVEN => {
            let mut page = Page::of(&report.bytes(&mut PlainPen));
            flows::uneven_on(random, flows::line_of_hour(&page, rank), &mut page);
            return page.bytes();
        }
        _ => return changed_lines(random, turn, report, 2),
    }
    let report = if next.fits() { &next } else { report };
    report.bytes(&mut PlainPen)
}

/// The bytes of the report after so many changes inside lines.
fn changed_lines(random: &mut Random, turn: usize, report: &Report, count: usize) -> Vec<u8> {
    let mut page = Page::of(&report.bytes(&mut PlainPen));
    any_changes(random, count, turn, &mut page);
    page.bytes()
}

/// Figures from the recorder in many hours instead of those of the writer.
fn honest(random: &mut Random, report: &mut Report) {
    let every = report.hours.len().div_ceil(100);
    let start = random.below(every);
    for hour in report.hours.iter_mut().skip(start).step_by(every) {
        let figures = honest_figures(random, &hour.readings);
        if figures.iter().zip(column_limits()).all(|(&f, limit)| f <= limit) {
            hour.figures = figures;
        }
    }
    report.add_up();
}

/// Odd bytes in unread columns of some lines.
fn unread_filled(random: &mut Random, report: &Report) -> Vec<u8> {
    let mut page = Page::of(&report.bytes(&mut PlainPen));
    for _ in 0..10 {
        let index = random.below(page.lines.len());
        let record = page.record(index);
        if record.date.is_none() {
            continue;
        }
        let mut columns: Vec<_> = record.values.iter().map(|v| v.columns).collect();
        columns.extend(record.date);
        for place in 9..record.length {
            let read = columns.iter().any(|c| (c.0..c.0 + c.1).contains(&(place + 1)));
            if !read {
                page.lines[index][place] = random.printable();
            }
        }
    }
    page.bytes()
}

/// One more 200 line after the last one, written over the 201 lines: an hour
/// later if the quarter has it, or the last hour again.
fn one_more(random: &mut Random, report: &Report) -> Vec<u8> {
    let mut bytes = report.bytes(&mut PlainPen);
    let hours = report.hours.len();
    let start = R100.length + 1 + hours * (R200.length + 1);
    let mut line = bytes[start - R200.length - 1..start].to_vec();
    let last = report.hours[hours - 1].hour_of_quarter;
    let later = last + 1 < hours_in_quarter(report.year, report.quarter);
    let hour = if later { last + 1 } else { last - random.below(2) as u32 };
    let date = eight_digits(report.year, moment_of(report.year, report.quarter, hour));
    DATE_200.of_mut(&mut line).copy_from_slice(date.as_bytes());
    bytes[start..start + line.len()].copy_from_slice(&line);
    bytes
}

/// Two lines of the same record type changed places.
fn swapped(random: &mut Random, report: &Report) -> Vec<u8> {
    let mut page = Page::of(&report.bytes(&mut PlainPen));
    let block = random.below(HOURLY.len());
    match two_below(random, page.hours) {
        Some((a, b)) => {
            let (a, b) = (page.index(block, a), page.index(block, b));
            page.lines.swap(a, b);
        }
        None => {
            let totals = page.totals();
            page.lines.swap(0, totals);
        }
    }
    page.bytes()
}
