//! Files for the check, family by family.

use super::changes;
use super::damage::damaged;
use super::edges;
use super::flows;
use super::page::Page;
use super::recorder::{self, bytes, hour_with, readings, report, report_in, FORMER_LIMIT};
use super::{family_of, Family};
use crate::calendar::{hours_in_quarter, is_leap};
use crate::figures::{Monitor, Readings, FIGURES};
use crate::random::Random;
use crate::report::{Hour, Report, TOTALS};
use crate::rounding::half_up;

/// The families and their shares.
const FAMILIES: [(Family<Vec<u8>>, usize); 24] = [
    (honest, 8),
    (edge, 16),
    (tight_edge, 10),
    (exact_heat, 4),
    (without_flow, 5),
    (far_off, 4),
    (too_large, 1),
    (two_impossible, 4),
    (off_total, 8),
    (wrong_total, 5),
    (half_total, 2),
    (damage, 15),
    (cut_lines, 3),
    (format, 8),
    (range, 8),
    (good_range, 4),
    (uneven_flow, 6),
    (uneven_and_more, 14),
    (broken_flow, 2),
    (date, 7),
    (good_date, 3),
    (inner, 8),
    (many_faults, 10),
    (same_line, 9),
];

/// The file with this number among all files.
pub fn file(random: &mut Random, number: usize) -> Vec<u8> {
    let (family, turn) = family_of(&FAMILIES, number);
    family(random, turn)
}

/// A page of an honest report with so many hours at least and two more at most.
fn page(random: &mut Random, least: usize) -> Page {
    let count = least + random.below(3);
    let report = report(random, count);
    Page::of(&bytes(random, &report))
}

fn honest(random: &mut Random, turn: usize) -> Vec<u8> {
    let report = report(random, [0, 1, 2, 3, 4, 1, 2][turn % 7]);
    bytes(random, &report)
}

fn edge(random: &mut Random, turn: usize) -> Vec<u8> {
    let report = edges::at_edge(random, turn);
    bytes(random, &report)
}

fn tight_edge(random: &mut Random, turn: usize) -> Vec<u8> {
    let report = edges::at_tight_edge(random, turn);
    bytes(random, &report)
}

fn exact_heat(random: &mut Random, turn: usize) -> Vec<u8> {
    let report = edges::at_exact_heat(random, turn);
    bytes(random, &report)
}

fn without_flow(random: &mut Random, turn: usize) -> Vec<u8> {
    let report = edges::without_flow(random, turn);
    bytes(random, &report)
}

fn far_off(random: &mut Random, turn: usize) -> Vec<u8> {
    let report = edges::far_off(random, turn);
    bytes(random, &report)
}

fn too_large(random: &mut Random, turn: usize) -> Vec<u8> {
    let report = edges::too_large(random, turn);
    bytes(random, &report)
}

fn two_impossible(random: &mut Random, turn: usize) -> Vec<u8> {
    let report = edges::two_impossible(random, turn);
    bytes(random, &report)
}

/// The totals in tenths: more than all of them fits into the columns.
const IN_TENTHS: [usize; 4] = [0, 1, 2, 4];

/// Totals off by one; sometimes two of them, or a figure that fails besides.
fn off_total(random: &mut Random, turn: usize) -> Vec<u8> {
    let count = random.below(5);
    let mut report = report(random, count);
    if turn % 11 == 10 && count > 0 {
        let rank = random.below(count);
        edges::set_at_edge(random, &mut report, rank, FIGURES[turn % 4], 5, true);
    }
    let total = turn % TOTALS;
    let up = report.totals[total] == 0 || turn / TOTALS % 2 == 0;
    report.totals[total] = if up { report.totals[total] + 1 } else { report.totals[total] - 1 };
    if turn % 7 == 6 {
        let other = random.below(TOTALS);
        report.totals[other] += 1;
    }
    if turn % 13 == 12 {
        // The right total again, were it cut to 32 bits.
        report.add_up();
        report.totals[IN_TENTHS[turn % 4]] += 1 << 32;
    }
    fitting(random, report)
}

/// The bytes of a report, or of one without hours if some number is too large.
fn fitting(random: &mut Random, report: Report) -> Vec<u8> {
    let report = if report.fits() { report } else { recorder::report(random, 0) };
    bytes(random, &report)
}

/// Totals formed by a wrong rule.
fn wrong_total(random: &mut Random, turn: usize) -> Vec<u8> {
    let count = 2 + random.below(3);
    let mut report = report(random, count);
    let hours = report.hours.clone();
    let sum = |of: &dyn Fn(&Hour) -> u128| hours.iter().map(of).sum::<u128>();
    match turn % 8 {
        // Hourly pounds, tons and heat rounded before the sum.
        0 => report.totals[0] = half_up(sum(&|h| half_up(h.figures[1] * h.time, 100)), 2_000),
        1 => report.totals[0] = sum(&|h| half_up(h.figures[1] * h.time, 200_000)),
        2 => report.totals[1] = sum(&|h| half_up(h.figures[3] * h.time, 100)),
        3 => report.totals[2] = sum(&|h| half_up(h.figures[0] * h.time, 100)),
        // The mean weighted by time.
        4 => report.totals[3] = half_up(sum(&|h| h.figures[2] * h.time), sum(&|h| h.time)),
        // The sum for the mean, and cut instead of rounded totals.
        5 => report.totals[3] = sum(&|h| h.figures[2]).min(99_999),
        6 => {
            report.totals[0] = sum(&|h| h.figures[1] * h.time) / 200_000;
            report.totals[1] = sum(&|h| h.figures[3] * h.time) / 100;
            report.totals[2] = sum(&|h| h.figures[0] * h.time) / 100;
        }
        // Times left out.
        _ => report.totals[1] = sum(&|h| h.figures[3]),
    }
    fitting(random, report)
}

/// SO2 tons that lie just at, below or above a half before rounding.
fn half_total(random: &mut Random, turn: usize) -> Vec<u8> {
    let count = 1 + random.below(2);
    let mut report = report(random, count);
    let time = random.pick(&[1, 20, 25, 50, 80, 100]);
    let rate = 100_000 / time * (2 * random.between(0, 3) + 1) + [0, 1, 2][turn % 3] - 1;
    let so2 = random.between(20_000, 60_000);
    let flow = half_up(rate * 1_000_000, 166 * so2);
    let fixed = Readings { so2: Monitor(so2), flow, co2: 1, fc: 30_000, nox: 5 };
    let hour_of_quarter = report.hours[0].hour_of_quarter;
    report.hours = vec![hour_with(random, hour_of_quarter, fixed)];
    report.hours[0].time = time;
    report.hours[0].figures = FIGURES.map(|f| f.of_recorded(&fixed));
    report.hours[0].figures[1] = rate;
    report.add_up();
    if turn / 3 % 2 == 0 {
        report.totals[0] = report.totals[0].saturating_sub(1);
    }
    fitting(random, report)
}

fn damage(random: &mut Random, turn: usize) -> Vec<u8> {
    let page = page(random, 0);
    damaged(random, turn, page)
}

/// Whole lines missing at the end, from one line to all but the first, with
/// the rest right or a figure or total wrong; or one line too many.
fn cut_lines(random: &mut Random, turn: usize) -> Vec<u8> {
    let report = if turn % 5 == 4 {
        edges::far_off(random, turn)
    } else {
        let count = random.below(4);
        report(random, count)
    };
    let mut page = Page::of(&bytes(random, &report));
    let (hours, count) = (page.hours, page.lines.len());
    let kept = match turn % 6 {
        0 => 1,
        1 => 1 + hours,
        2 => 1 + 5 * hours,
        3 => count - 1,
        4 => 1 + random.below(count - 1),
        _ => {
            let again = page.lines[random.below(count)].clone();
            page.lines.push(again);
            count + 1
        }
    };
    page.lines.truncate(kept);
    page.bytes()
}

fn format(random: &mut Random, turn: usize) -> Vec<u8> {
    let mut page = page(random, usize::from(turn % 8 > 0));
    changes::bad_format(random, turn, &mut page);
    page.bytes()
}

fn range(random: &mut Random, turn: usize) -> Vec<u8> {
    if turn % 9 == 8 {
        return foreign_year(random, turn / 9);
    }
    let mut page = page(random, 1);
    changes::bad_range(random, turn, &mut page);
    page.bytes()
}

/// A file that is right but for its year, which is just inside or outside.
fn foreign_year(random: &mut Random, turn: usize) -> Vec<u8> {
    let count = random.below(3);
    let quarter = 1 + random.below(4) as u32;
    let report = report_in(random, [1994, 1995, 2094, 2095][turn % 4], quarter, count);
    bytes(random, &report)
}

/// Readings and times at the very ends of their ranges, all right.
fn good_range(random: &mut Random, turn: usize) -> Vec<u8> {
    let count = 1 + random.below(3);
    let mut report = report(random, count);
    let rank = random.below(count);
    let base = Readings { so2: Monitor(10), nox: 10, co2: 100, flow: 1_000, fc: 18_000 };
    let fixed = match turn % 12 {
        0 => Readings { co2: 1, ..base },
        1 => Readings { co2: 1_000, ..base },
        2 => Readings { flow: 0, ..base },
        3 => Readings { flow: FORMER_LIMIT, ..base },
        4 => Readings { fc: 5_000, ..base },
        5 => Readings { fc: 30_000, ..base },
        6 => Readings { so2: Monitor(0), nox: 0, ..base },
        7 => Readings { so2: Monitor(99_999), ..base },
        8 => Readings { nox: 99_999, ..base },
        _ => readings(random),
    };
    report.hours[rank] = hour_with(random, report.hours[rank].hour_of_quarter, fixed);
    report.hours[rank].time = if turn % 2 == 0 { 1 } else { 100 };
    report.add_up();
    fitting(random, report)
}

/// Flow that is no whole thousand, in one hour or two, and no other fault.
fn uneven_flow(random: &mut Random, turn: usize) -> Vec<u8> {
    let mut page = page(random, 1);
    flows::uneven_flow(random, turn, &mut page);
    if turn % 4 == 3 {
        flows::uneven_flow(random, turn / 4, &mut page);
    }
    page.bytes()
}

/// Flow that is no whole thousand, and another fault before it, on its line or
/// behind it.
fn uneven_and_more(random: &mut Random, turn: usize) -> Vec<u8> {
    let (way, turn) = (turn % 9, turn / 9);
    let mut report = if way == 0 {
        edges::far_off(random, turn)
    } else {
        let count = 2 + random.below(3);
        report(random, count)
    };
    if way == 1 {
        report.totals[IN_TENTHS[turn % 4]] += 1;
    }
    let mut page = Page::of(&bytes(random, &report));
    let (line, count) = (flows::any_line(random, &page), page.lines.len());
    flows::uneven_on(random, line, &mut page);
    // The first of these is the same fault again.
    let fault = changes::ON_LINE[1 + turn % (changes::ON_LINE.len() - 1)];
    match way {
        2 => flows::large_flow(random, turn, &mut page),
        3 => flows::broken_flow(random, turn, &mut page),
        4 => fault(random, line, &mut page),
        5 => {
            let before = random.below(line);
            fault(random, before, &mut page);
        }
        6 => {
            let behind = line + 1 + random.below(count - line - 1);
            fault(random, behind, &mut page);
        }
        7 => page.lines.truncate(1 + random.below(count)),
        8 => return damaged(random, turn, page),
        _ => {}
    }
    page.bytes()
}

fn broken_flow(random: &mut Random, turn: usize) -> Vec<u8> {
    let mut page = page(random, 1);
    flows::broken_flow(random, turn, &mut page);
    page.bytes()
}

fn date(random: &mut Random, turn: usize) -> Vec<u8> {
    let count = 1 + random.below(3);
    let report = if turn % 3 == 0 {
        let year = random.pick(&[1995, 1999, 2000, 2001, 2003, 2004, 2094]);
        report_in(random, year, 1, count)
    } else {
        report(random, count)
    };
    let mut page = Page::of(&bytes(random, &report));
    changes::bad_date(random, turn, &mut page);
    page.bytes()
}

/// Right dates at the ends of quarters and in leap years; or a 29 February
/// that is then moved, all its dates with it, to a year that has none.
fn good_date(random: &mut Random, turn: usize) -> Vec<u8> {
    let leap = random.pick(&[1996, 2000, 2004, 2024, 2092]);
    let mut report = report_in(random, leap, if turn % 4 == 3 { 2 } else { 1 }, 2);
    let last = hours_in_quarter(report.year, report.quarter) - 1;
    let (first, second) = match turn % 4 {
        0 => (24 * 59 - 1, 24 * 59),
        1 => (24 * 60 - 1, 24 * 60),
        2 => (0, last),
        _ => (0, last),
    };
    report.hours[0].hour_of_quarter = first;
    report.hours[1].hour_of_quarter = second;
    let text = bytes(random, &report);
    if turn % 5 < 2 && turn % 4 < 2 {
        let other = if is_leap(leap + 1) { leap + 2 } else { leap + 1 };
        return moved_year(Page::of(&text), other);
    }
    text
}

/// The page with another year on line 100 and in all dates.
fn moved_year(mut page: Page, year: u32) -> Vec<u8> {
    page.set(0, crate::layout::YEAR, format!("{year:04}").as_bytes());
    for (block, record) in crate::layout::HOURLY.iter().enumerate() {
        for rank in 0..page.hours {
            let (index, Some(columns)) = (page.index(block, rank), record.date) else { continue };
            if let Some(mut date) = page.get(index, columns) {
                date[..2].copy_from_slice(format!("{:02}", year % 100).as_bytes());
                page.set(index, columns, &date);
            }
        }
    }
    page.bytes()
}

/// One fault inside a line: year and quarter, dates unlike, names, bytes.
fn inner(random: &mut Random, turn: usize) -> Vec<u8> {
    let mut page = page(random, usize::from(turn % 9 > 0));
    let (way, turn) = (turn % 8, turn / 8);
    match way {
        0 => changes::bad_head(random, turn, &mut page),
        1..=3 => changes::unlike_date(random, 3 * turn + way, &mut page),
        4 | 5 => changes::unlike_name(random, 2 * turn + way, &mut page),
        _ => changes::odd_byte(random, 2 * turn + way, &mut page),
    }
    page.bytes()
}

/// Two or more faults of any kind in one file.
fn many_faults(random: &mut Random, turn: usize) -> Vec<u8> {
    let report = match turn % 4 {
        0 => edges::at_edge(random, turn / 4),
        1 => edges::two_impossible(random, turn),
        2 => edges::far_off(random, turn),
        _ => {
            let count = 1 + random.below(3);
            report(random, count)
        }
    };
    let mut page = Page::of(&bytes(random, &report));
    let count = 1 + random.below(3);
    changes::any_changes(random, count, 0, &mut page);
    if random.once_in(3) {
        let turn = random.below(1_000);
        return damaged(random, turn, page);
    }
    page.bytes()
}

/// Two or three faults on the same line, to see which is found first.
fn same_line(random: &mut Random, turn: usize) -> Vec<u8> {
    let mut page = page(random, usize::from(turn % 10 > 0));
    let index = page.any(random);
    let count = changes::ON_LINE.len();
    let first = turn % count;
    let second = (first + 1 + turn / count % (count - 1)) % count;
    let mut ways = vec![first, second];
    if random.once_in(4) {
        ways.push(random.below(count));
    }
    ways.sort_unstable();
    for way in ways {
        changes::ON_LINE[way](random, index, &mut page);
    }
    page.bytes()
}
