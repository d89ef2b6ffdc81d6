//! Reports with gas hours: good ones; SO2 figures at the edges that heat gives
//! them, past these and formed by wrong rules; GAS and blank 200 values that do not
//! go together; and hours of written reports made gas hours.

use super::changes::{any_changes, bad_text, text_of, Change, ODD_BYTES, ON_LINE};
use super::damage::damaged;
use super::edges::set_at_edge;
use super::idle_hours::put;
use super::page::{two_below, Page};
use super::recorder::{self, column_limits, honest_figures, FORMER_LIMIT};
use super::{family_of, Family};
use crate::figures::{Figure, Gas, Readings, FIGURES};
use crate::layout::*;
use crate::random::Random;
use crate::report::{Hour, PlainPen, Report, TOTALS};
use crate::rounding::half_up;

/// The places of the 200 and 310 lines in `HOURLY`.
const READING: usize = 0;
const RATE: usize = 5;

/// What the SO2 columns of a gas hour's 200 line hold.
const NO_READING: &[u8; 6] = b"      ";

/// The families and their shares.
const FAMILIES: [(Family<Vec<u8>>, usize); 15] = [
    (good, 44),
    (edge, 48),
    (past_readings, 10),
    (without_heat, 8),
    (largest, 12),
    (wrong_rule, 16),
    (wrong_figure, 16),
    (wrong_total, 10),
    (unpaired, 36),
    (other_word, 36),
    (malformed, 18),
    (same_line, 36),
    (and_another_fault, 40),
    (changed, 4),
    (damage, 4),
];

/// The file with this number among those with gas hours.
pub fn file(random: &mut Random, number: usize) -> Vec<u8> {
    let (family, turn) = family_of(&FAMILIES, number);
    family(random, turn)
}

/// The last edge between two SO2 figures up to which the columns of heat reach.
pub const LAST_EDGE: u128 = 599;

/// The heat at an edge, from 0 to the last: it alone gives both the figure with
/// the number of the edge and the next one.
pub fn heat_at(edge: u128) -> u128 {
    half_up(5_000 * (2 * edge + 1), 6)
}

/// The same hour as a gas hour, with an SO2 figure that passes.
pub fn make_gas(random: &mut Random, hour: &mut Hour) {
    hour.readings.so2 = Gas(hour.figures[0]);
    let (low, high) = Figure::So2.edges(&hour.readings);
    hour.figures[1] = random.between(low, high);
}

/// A report of so many hours, one at least. All are gas hours, or the first is,
/// the last, every second, or any.
fn report(random: &mut Random, turn: usize, count: usize) -> Report {
    let mut report = recorder::report(random, count);
    let chosen = random.below(count);
    for (rank, hour) in report.hours.iter_mut().enumerate() {
        let gas = match turn % 5 {
            0 => true,
            1 => rank == 0,
            2 => rank == count - 1,
            3 => rank % 2 == 1 || count == 1,
            _ => rank == chosen || random.once_in(2),
        };
        if gas {
            make_gas(random, hour);
        }
    }
    report.add_up();
    report
}

/// The page of such a report, now and then with idle hours.
fn page(random: &mut Random, turn: usize, count: usize) -> Page {
    let report = report(random, turn, count);
    Page::of(&put(random, report))
}

/// A gas hour with these readings, heat and SO2, unless the heat does not pass or
/// another figure does not fit.
fn gas_hour(random: &mut Random, readings: Readings, heat: u128, so2: u128) -> Option<Hour> {
    let readings = Readings { so2: Gas(heat), ..readings };
    let [_, _, nox_rate, co2_rate] = honest_figures(random, &readings);
    let figures = [heat, so2, nox_rate, co2_rate];
    let sound = readings.flow <= FORMER_LIMIT
        && Figure::Heat.possible(&readings, heat)
        && figures.iter().zip(column_limits()).all(|(&figure, limit)| figure <= limit);
    let time = random.pick(&[1, 25, 50, 99, 100, 100]);
    sound.then_some(Hour { hour_of_quarter: 0, time, readings, figures })
}

/// A gas hour with this heat and SO2.
fn hour_with_heat(random: &mut Random, heat: u128, so2: u128) -> Hour {
    loop {
        let (co2, fc) = (random.between(1, 1_000), random.between(5_000, 30_000));
        let flow = half_up(heat * fc, 100 * co2) + random.between(0, 1);
        let readings = Readings { nox: random.spread(9_999), co2, flow, fc, ..Readings::default() };
        if let Some(hour) = gas_hour(random, readings, heat, so2) {
            return hour;
        }
    }
}

/// A report of a few hours, one of which is the given one.
fn report_with(random: &mut Random, hour: Hour) -> Report {
    let (turn, count) = (random.below(5), 1 + random.below(3));
    let mut report = report(random, turn, count);
    let there = &mut report.hours[random.below(count)];
    *there = Hour { hour_of_quarter: there.hour_of_quarter, ..hour };
    report.add_up();
    report
}

/// The bytes of such a report with a gas hour of this heat and SO2.
fn put_with(random: &mut Random, heat: u128, so2: u128) -> Vec<u8> {
    let hour = hour_with_heat(random, heat, so2);
    let report = report_with(random, hour);
    put(random, report)
}

fn good(random: &mut Random, turn: usize) -> Vec<u8> {
    let report = report(random, turn, [1, 2, 3, 2, 4, 3][turn % 6]);
    put(random, report)
}

/// The two figures about an edge beside the three heats about it: the first gives
/// only the lower figure, the last only the upper one.
fn edge(random: &mut Random, turn: usize) -> Vec<u8> {
    let edge = match turn / 6 % 5 {
        0 => random.between(0, LAST_EDGE),
        1 => 0,
        2 => LAST_EDGE,
        3 => random.between(0, 5),
        _ => random.spread(LAST_EDGE),
    };
    let heat = heat_at(edge) + (turn % 3) as u128 - 1;
    put_with(random, heat, edge + (turn / 3 % 2) as u128)
}

/// The heat at an edge, which flow and CO2 give on one side of the edge alone, and
/// the SO2 figure of the other side, which passes all the same.
fn past_readings(random: &mut Random, turn: usize) -> Vec<u8> {
    loop {
        let edge = random.between(0, 60);
        let (co2, fc) = (random.between(1, 40), random.between(8_000, 30_000));
        let drawn = Readings { nox: random.spread(2_000), co2, fc, ..Readings::default() };
        // In halves of the unit the edge is at 5,000 * (2 * edge + 1) / 3, and the
        // values of heat lie between 50 * (2 * flow -+ 1) * (2 * co2 -+ 1) / fc.
        let at_edge = 100 * (2 * edge + 1) * fc;
        let (flow, so2) = if turn % 2 == 0 {
            ((at_edge / (3 * (2 * co2 + 1))).saturating_sub(1) / 2, edge + 1)
        } else {
            (at_edge.div_ceil(3 * (2 * co2 - 1)) / 2 + 1, edge)
        };
        if let Some(hour) = gas_hour(random, Readings { flow, ..drawn }, heat_at(edge), so2) {
            let report = report_with(random, hour);
            return put(random, report);
        }
    }
}

/// A gas hour whose heat is 0.0, with an SO2 figure that is 0.0 or more.
fn without_heat(random: &mut Random, turn: usize) -> Vec<u8> {
    let any = random.spread(column_limits()[1]);
    put_with(random, 0, [0, 1, 0, any][turn % 4])
}

/// A gas hour with the largest heat or nearly so, or with the largest SO2 figure.
fn largest(random: &mut Random, turn: usize) -> Vec<u8> {
    let [heat, so2, ..] = column_limits();
    let large = random.between(900_000, heat);
    let figure = LAST_EDGE + 1;
    let (heat, so2) = [
        (heat, figure),
        (heat, figure + 1),
        (heat, figure - 1),
        (large, half_up(6 * large, 10_000)),
        (heat, so2),
        (random.spread(heat), so2 - random.between(0, 1)),
    ][turn % 6];
    put_with(random, heat, so2)
}

/// An SO2 figure formed by a wrong rule, drawn again until it fails.
fn wrong_rule(random: &mut Random, turn: usize) -> Vec<u8> {
    loop {
        let mut hour = recorder::report(random, 1).hours.remove(0);
        hour.figures[1] = wrongly_formed(random, turn, &mut hour);
        hour.readings.so2 = Gas(hour.figures[0]);
        if !Figure::So2.possible(&hour.readings, hour.figures[1]) && hour.figures[1] <= column_limits()[1] {
            let report = report_with(random, hour);
            return put(random, report);
        }
    }
}

/// The SO2 figure by a wrong rule. One takes another heat that flow and CO2 give,
/// and moves the hour's own away from it.
fn wrongly_formed(random: &mut Random, turn: usize, hour: &mut Hour) -> u128 {
    let [heat, so2, ..] = hour.figures;
    match turn % 8 {
        // That of a monitor.
        0 => so2,
        // Another default; heat itself; pounds of the time alone.
        1 => half_up(6 * heat, 1_000),
        2 => half_up(6 * heat, 100_000),
        3 => heat,
        4 => half_up(6 * heat * hour.time, 1_000_000),
        // Cut, or rounded up.
        5 => 6 * heat / 10_000,
        6 => (6 * heat).div_ceil(10_000),
        _ => {
            let (low, high) = Figure::Heat.edges(&hour.readings);
            let (own, other) = random.pick(&[(low, high), (high, low)]);
            hour.figures[0] = own.min(HEAT.largest());
            half_up(6 * other, 10_000)
        }
    }
}

/// Figures past their edges: heat, NOx and CO2 of gas hours, and SO2 of any hour.
fn wrong_figure(random: &mut Random, turn: usize) -> Vec<u8> {
    loop {
        let count = 1 + random.below(3);
        let mut report = report(random, turn / 4, count);
        let (rank, spot) = (random.below(count), random.pick(&[0, 5]));
        let figure = FIGURES[turn % 4];
        let fitting = report.hours[rank].is_gas() || figure == Figure::So2;
        if fitting && set_at_edge(random, &mut report, rank, figure, spot, false) {
            return put(random, report);
        }
    }
}

/// Totals off by one.
fn wrong_total(random: &mut Random, turn: usize) -> Vec<u8> {
    loop {
        let count = 1 + random.below(3);
        let mut report = report(random, turn / TOTALS, count);
        let total = &mut report.totals[turn % TOTALS];
        *total = if *total == 0 || random.once_in(2) { *total + 1 } else { *total - 1 };
        if report.fits() {
            return put(random, report);
        }
    }
}

/// Puts a word, or other text, where a 310 line says GAS.
fn set_word(page: &mut Page, rank: usize, word: &[u8]) {
    page.set(page.index(RATE, rank), GAS_COLUMNS, word);
}

/// Puts text into the SO2 columns of a 200 line.
fn set_reading(page: &mut Page, rank: usize, text: &[u8]) {
    page.set(page.index(READING, rank), SO2.columns, text);
}

/// Gives an hour both GAS and a value, or in every other turn neither.
fn unpair(random: &mut Random, turn: usize, page: &mut Page, rank: usize) {
    if turn % 2 == 1 {
        set_reading(page, rank, NO_READING);
        return set_word(page, rank, b"   ");
    }
    set_word(page, rank, GAS_WORD);
    let there = page.get(page.index(READING, rank), SO2.columns);
    if there.is_none_or(|text| is_blank(&text)) {
        let any = random.spread(SO2.largest());
        let reading = random.pick(&[0, any, SO2.largest()]);
        set_reading(page, rank, &text_of(&SO2, reading));
    }
}

/// A blank value in one hour and GAS in another.
fn exchange(random: &mut Random, page: &mut Page) {
    if let Some((one, other)) = two_below(random, page.hours) {
        unpair(random, 0, page, one);
        unpair(random, 1, page, other);
    }
}

/// GAS beside a value, or a blank value without GAS: in the first hour, the last
/// or any, or in one hour the one and in another the other.
fn unpaired(random: &mut Random, turn: usize) -> Vec<u8> {
    let way = turn / 2 % 4;
    let count = if way == 0 { 1 + random.below(3) } else { 2 + random.below(2) };
    let mut page = page(random, turn / 2, count);
    let any = random.below(count);
    match way {
        0 => unpair(random, turn, &mut page, 0),
        1 => unpair(random, turn, &mut page, count - 1),
        2 => exchange(random, &mut page),
        _ => unpair(random, turn, &mut page, any),
    }
    page.bytes()
}

/// What does not say GAS, though most of it is nearly that.
const OTHER_WORDS: [&[u8; 3]; 17] = [
    b"gas", b"Gas", b"GAs", b"GaS", b"gAS", b" GA", b"GA ", b"AS ", b" AS", b"G S", b"S  ", b"GAX", b"XAS",
    b"GXS", b"SAG", b"G4S", b"   ",
];

/// Another word, in an hour with a value, where it is unread, or without one; or
/// GAS a column too far left, over the end of the SO2 figure.
fn other_word(random: &mut Random, turn: usize) -> Vec<u8> {
    let (way, count) = (random.below(5), 1 + random.below(3));
    let mut report = report(random, way, count);
    let rank = random.below(count);
    if turn % 2 == 0 {
        let hour = recorder::report(random, 1).hours.remove(0);
        let hour_of_quarter = report.hours[rank].hour_of_quarter;
        report.hours[rank] = Hour { hour_of_quarter, ..hour };
    } else {
        make_gas(random, &mut report.hours[rank]);
    }
    report.add_up();
    let mut page = Page::of(&put(random, report));
    match OTHER_WORDS.get(turn / 2 % (OTHER_WORDS.len() + 1)) {
        Some(word) => set_word(&mut page, rank, *word),
        None => page.set(page.index(RATE, rank), Columns(GAS_COLUMNS.0 - 1, 4), b"GAS "),
    }
    page.bytes()
}

/// Text for the SO2 columns that is nearly blank, and no number.
const NEARLY_BLANK: [&[u8; 6]; 10] = [
    b"     .", b".     ", b"-     ", b"     -", b"   .  ", b"0     ", b"     0", b"    .0", b"  0.0 ",
    b"______",
];

/// An SO2 value in no format, with GAS and without.
fn malformed(random: &mut Random, turn: usize) -> Vec<u8> {
    let count = 1 + random.below(3);
    let mut page = page(random, turn / 4, count);
    let rank = random.below(count);
    let text = match turn / 2 % 3 {
        0 => random.pick(&NEARLY_BLANK).to_vec(),
        1 if turn % 12 == 10 => {
            let mut text = NO_READING.to_vec();
            text[random.below(6)] = random.pick(&ODD_BYTES);
            text
        }
        // The first of these texts would be blank.
        _ => bad_text(random, 1 + turn % 15, SO2.columns.1, SO2.decimals),
    };
    set_reading(&mut page, rank, &text);
    set_word(&mut page, rank, if turn % 2 == 0 { GAS_WORD } else { b"   " });
    page.bytes()
}

/// Faults that a 310 line can have: of value, date, name, bytes, type and length.
const LINE_FAULTS: &[Change] = ON_LINE.split_at(2).1;

/// GAS and a value, or neither, and one or two of these faults on the same line.
fn same_line(random: &mut Random, turn: usize) -> Vec<u8> {
    let count = 1 + random.below(3);
    let mut page = page(random, turn / 3, count);
    let rank = random.below(count);
    unpair(random, turn, &mut page, rank);
    let mut ways = vec![turn / 2 % LINE_FAULTS.len()];
    if random.once_in(6) {
        ways.push(random.below(LINE_FAULTS.len()));
    }
    ways.sort_unstable();
    for way in ways {
        LINE_FAULTS[way](random, page.index(RATE, rank), &mut page);
    }
    page.bytes()
}

/// GAS and a value, or neither, and a fault on a line before or behind; or a
/// figure or total that is wrong besides.
fn and_another_fault(random: &mut Random, turn: usize) -> Vec<u8> {
    let (way, count) = (turn / 2 % 8, 1 + random.below(3));
    let mut report = report(random, turn, count);
    let rank = random.below(count);
    match way {
        0 => drop(set_at_edge(random, &mut report, rank, FIGURES[turn % 4], 5, false)),
        1 => report.totals[random.pick(&[0, 1, 2, 4])] += 1,
        _ => {}
    }
    let mut page = Page::of(&put(random, report));
    unpair(random, turn, &mut page, rank);
    let (line, all) = (page.index(RATE, rank), page.lines.len());
    let fault = LINE_FAULTS[(turn + turn / 16 * 3) % LINE_FAULTS.len()];
    match way {
        2 | 3 => {
            let before = random.below(line);
            fault(random, before, &mut page);
        }
        4 | 5 => {
            let behind = line + 1 + random.below(all - line - 1);
            fault(random, behind, &mut page);
        }
        6 => page.lines.truncate(1 + random.below(all)),
        7 => return damaged(random, turn, page),
        _ => {}
    }
    page.bytes()
}

/// One or two faults inside any lines.
fn changed(random: &mut Random, turn: usize) -> Vec<u8> {
    let count = 1 + random.below(3);
    let mut page = page(random, turn, count);
    any_changes(random, 1 + turn % 2, 0, &mut page);
    page.bytes()
}

fn damage(random: &mut Random, turn: usize) -> Vec<u8> {
    let count = 1 + random.below(3);
    let page = page(random, turn, count);
    damaged(random, turn, page)
}

/// More hours than this of a written report are not made gas hours at once.
const MOST_MADE_GAS: usize = 25;

/// A written report with gas hours: that with this rank, or more; with an SO2
/// figure that passes, one past it or the one written; or with GAS alone, a blank
/// value alone, and in two hours the one and the other.
pub fn made_gas(random: &mut Random, turn: usize, report: &Report, rank: usize) -> Vec<u8> {
    let mut next = report.clone();
    let count = next.hours.len();
    let way = turn % 8;
    match way {
        0 | 1 => make_gas(random, &mut next.hours[rank]),
        2 => {
            let every = count.div_ceil(MOST_MADE_GAS);
            let start = random.below(every);
            next.hours.iter_mut().skip(start).step_by(every).for_each(|hour| make_gas(random, hour));
        }
        3 => {
            make_gas(random, &mut next.hours[rank]);
            set_at_edge(random, &mut next, rank, Figure::So2, 5, false);
        }
        4 => {
            let hour = &mut next.hours[rank];
            hour.readings.so2 = Gas(hour.figures[0]);
        }
        _ => {}
    }
    next.add_up();
    let mut page = Page::of(&next.bytes(&mut PlainPen));
    match way {
        5 | 6 => unpair(random, way, &mut page, rank),
        7 => exchange(random, &mut page),
        _ => {}
    }
    page.bytes()
}

#[cfg(test)]
mod tests {
    use super::*;
    use crate::check::check;

    /// The SO2 figures from `low` to `high` pass beside this heat, and no others.
    fn assert_figures(heat: u128, low: u128, high: u128) {
        let readings = Readings { so2: Gas(heat), ..Readings::default() };
        assert_eq!(Figure::So2.edges(&readings), (low, high), "{heat}");
    }

    #[test]
    fn each_edge_has_one_heat_that_gives_both_figures() {
        for edge in 0..=LAST_EDGE {
            let heat = heat_at(edge);
            assert_figures(heat - 1, edge, edge);
            assert_figures(heat, edge, edge + 1);
            assert_figures(heat + 1, edge + 1, edge + 1);
        }
        assert_figures(HEAT.largest(), LAST_EDGE + 1, LAST_EDGE + 1);
    }

    #[test]
    fn good_reports_are_accepted() {
        let mut random = Random::new(11);
        for turn in 0..500 {
            for file in [good(&mut random, turn), past_readings(&mut random, turn)] {
                assert!(check(&file).to_string().starts_with("accepted "));
            }
        }
    }

    #[test]
    fn wrong_rules_fail() {
        let mut random = Random::new(12);
        for turn in 0..500 {
            assert!(check(&wrong_rule(&mut random, turn)).to_string().starts_with("refused 12 "));
        }
    }
}
