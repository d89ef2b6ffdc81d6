//! Reports with idle hours, good ones and those with faults on their 300 lines,
//! among them or behind them; and lines of written reports made idle.

use super::changes::{
    any_changes, bad_text, byte_on, date_on, length_on, name_on, text_of, wrong_date, Change, ODD_BYTES,
};
use super::damage::damaged;
use super::edges;
use super::page::{is_idle, Page};
use super::recorder::{self, bytes, rising_hours};
use super::{family_of, Family};
use crate::calendar::{eight_digits, hours_in_quarter, moment_of};
use crate::layout::*;
use crate::random::Random;
use crate::report::{PlainPen, Report, TOTALS};
use crate::rounding::half_up;

/// The place of the 300 lines in `HOURLY`.
const BLOCK: usize = 4;

/// The families and their shares.
const FAMILIES: [(Family<Vec<u8>>, usize); 16] = [
    (good, 30),
    (wrong_figure, 48),
    (wrong_total, 24),
    (given_heat, 36),
    (missing_heat, 12),
    (time_that_is_none, 34),
    (time_too_large, 12),
    (date, 70),
    (surplus, 36),
    (idle_and_operating, 48),
    (cut, 18),
    (foreign_line, 60),
    (same_line, 108),
    (changed, 12),
    (damage, 18),
    (whole_quarter, 1),
];

/// The file with this number among those with idle hours.
pub fn file(random: &mut Random, number: usize) -> Vec<u8> {
    let (family, turn) = family_of(&FAMILIES, number);
    family(random, turn)
}

/// How many operating hours stand before an idle one, place by place: none, all,
/// some of them, or any number.
fn operating_before(random: &mut Random, place: usize, operating: usize) -> usize {
    match place % 4 {
        0 => 0,
        1 => operating,
        2 if operating > 1 => 1 + random.below(operating - 1),
        _ => random.below(operating + 1),
    }
}

/// The report with so many idle hours in this place. All its hours are drawn
/// anew.
pub fn with_idle_hours(random: &mut Random, mut report: Report, place: usize, idle: usize) -> Report {
    let operating = report.hours.len();
    let places: Vec<usize> = (0..idle).map(|_| operating_before(random, place, operating)).collect();
    let mut drawn = rising_hours(random, report.year, report.quarter, operating + idle).into_iter();
    for rank in 0..=operating {
        let idle_here = places.iter().filter(|&&place| place == rank).count();
        report.idle_hours.extend(drawn.by_ref().take(idle_here));
        if let Some(hour) = report.hours.get_mut(rank) {
            hour.hour_of_quarter = drawn.next().unwrap_or(hour.hour_of_quarter);
        }
    }
    report
}

/// The bytes of the report, now and then with idle hours.
pub fn put(random: &mut Random, mut report: Report) -> Vec<u8> {
    if random.once_in(4) {
        let (place, idle) = (random.below(4), 1 + random.below(3));
        report = with_idle_hours(random, report, place, idle);
    }
    bytes(random, &report)
}

/// An honest report with so many operating and idle hours.
fn report(random: &mut Random, place: usize, operating: usize, idle: usize) -> Report {
    let report = recorder::report(random, operating);
    with_idle_hours(random, report, place, idle)
}

/// The page of such a report.
fn page(random: &mut Random, place: usize, operating: usize, idle: usize) -> Page {
    let report = report(random, place, operating, idle);
    Page::of(&bytes(random, &report))
}

/// A page with one or two operating hours and one to three idle ones.
fn small_page(random: &mut Random) -> Page {
    let (place, operating, idle) = (random.below(4), 1 + random.below(2), 1 + random.below(3));
    page(random, place, operating, idle)
}

/// The 300 lines of idle hours, or those of operating ones.
fn lines_of(page: &Page, idle: bool) -> Vec<usize> {
    page.indices(&R300).filter(|&index| is_idle(&page.lines[index]) == idle).collect()
}

/// Any 300 line of an idle hour, or of an operating one.
fn any_line(random: &mut Random, page: &Page, idle: bool) -> usize {
    random.pick(&lines_of(page, idle))
}

/// A number on line 100.
fn head(page: &Page, columns: Columns) -> u32 {
    page.get(0, columns).and_then(|text| read_number(&text, 0)).unwrap_or(0) as u32
}

/// All dates of the page's quarter.
fn dates(page: &Page) -> Vec<Vec<u8>> {
    let (year, quarter) = (head(page, YEAR), head(page, QUARTER));
    let date = |hour| eight_digits(year, moment_of(year, quarter, hour)).into_bytes();
    (0..hours_in_quarter(year, quarter)).map(date).collect()
}

fn date_on_line(page: &Page, index: usize) -> Vec<u8> {
    page.get(index, DATE_300).unwrap_or_default()
}

/// Gives a 300 line the time and heat of an idle hour.
fn make_idle(page: &mut Page, index: usize) {
    page.set(index, TIME.columns, b"0.00");
    page.set(index, HEAT.columns, b"       ");
}

/// Gives a 300 line a time above 0, and a heat input.
fn make_operating(random: &mut Random, page: &mut Page, index: usize) {
    page.set(index, TIME.columns, random.pick(&[b"0.01", b"0.50", b"1.00"]));
    let heat = random.spread(HEAT.largest());
    page.set(index, HEAT.columns, &text_of(&HEAT, heat));
}

fn good(random: &mut Random, turn: usize) -> Vec<u8> {
    let operating = [1, 2, 0, 3, 2, 0, 1][turn % 7];
    let idle = [1, 2, 3, 30, 5][turn % 5];
    let report = report(random, turn, operating, idle);
    bytes(random, &report)
}

/// Figures at their edges and past them, with idle hours before their lines.
fn wrong_figure(random: &mut Random, turn: usize) -> Vec<u8> {
    let report = match turn % 4 {
        0 | 1 => edges::at_edge(random, [0, 20][turn % 2] + turn / 4),
        2 => edges::far_off(random, turn / 4),
        _ => edges::two_impossible(random, turn / 4),
    };
    let (place, idle) = (random.pick(&[0, 0, 2, 3]), 1 + random.below(3));
    let report = with_idle_hours(random, report, place, idle);
    bytes(random, &report)
}

/// Totals off by one, or as if idle hours counted.
fn wrong_total(random: &mut Random, turn: usize) -> Vec<u8> {
    let (place, operating, idle) = (random.below(4), random.below(4), 1 + random.below(3));
    let mut report = report(random, place, operating, idle);
    let nox: u128 = report.hours.iter().map(|hour| hour.figures[2]).sum();
    let total = turn % TOTALS;
    match turn / TOTALS % 4 {
        0 | 1 => report.totals[total] += 1,
        2 => report.totals[total] = report.totals[total].saturating_sub(1),
        // The mean over all hours listed.
        _ => report.totals[3] = half_up(nox, (operating + idle) as u128),
    }
    if !report.fits() {
        report.add_up();
    }
    bytes(random, &report)
}

/// A byte that is printable and no blank.
fn visible(random: &mut Random) -> u8 {
    random.between(33, 126) as u8
}

/// How many sorts of printable text no idle hour has in its heat columns.
const HEATS: usize = 9;

/// What no idle hour has in its heat columns; first printable text, then other
/// bytes, and at last numbers in no format, one of which is blank.
fn heat_of_idle_hour(random: &mut Random, turn: usize) -> Vec<u8> {
    let mut text = vec![b' '; HEAT.columns.1];
    match turn % 12 {
        0 => text_of(&HEAT, 0),
        1 => {
            let heat = random.spread(HEAT.largest());
            text_of(&HEAT, heat)
        }
        2 => {
            text[0] = visible(random);
            text
        }
        3 => {
            text[HEAT.columns.1 - 1] = visible(random);
            text
        }
        4 => {
            text[random.below(HEAT.columns.1)] = visible(random);
            text
        }
        5 => vec![visible(random); HEAT.columns.1],
        6 => vec![random.pick(b"0.-_"); HEAT.columns.1],
        7 => random.pick(&[b"     .0", b"   0.0 ", b"0.0    ", b"      0", b"    0,0", b"   -0.0"]).to_vec(),
        8 => b"00000.0".to_vec(),
        HEATS => vec![random.pick(&ODD_BYTES); HEAT.columns.1],
        10 => {
            text[random.below(HEAT.columns.1)] = random.pick(&ODD_BYTES);
            text
        }
        _ => bad_text(random, turn / 12, HEAT.columns.1, HEAT.decimals),
    }
}

/// An idle hour whose heat columns are not blank.
fn given_heat(random: &mut Random, turn: usize) -> Vec<u8> {
    let mut page = if turn % 5 == 4 { page(random, turn / 5, 0, 2) } else { small_page(random) };
    let index = any_line(random, &page, true);
    let heat = heat_of_idle_hour(random, turn);
    page.set(index, HEAT.columns, &heat);
    page.bytes()
}

/// What should not stand in the heat columns of an operating hour.
fn heat_of_operating_hour(random: &mut Random, turn: usize) -> Vec<u8> {
    match turn % 3 {
        0 => vec![b' '; HEAT.columns.1],
        1 => vec![random.pick(b"0.-x"); HEAT.columns.1],
        _ => bad_text(random, turn / 3, HEAT.columns.1, HEAT.decimals),
    }
}

/// An operating hour whose heat columns are blank or hold no number.
fn missing_heat(random: &mut Random, turn: usize) -> Vec<u8> {
    let mut page = small_page(random);
    let index = any_line(random, &page, false);
    let heat = heat_of_operating_hour(random, turn);
    page.set(index, HEAT.columns, &heat);
    page.bytes()
}

/// What is no time, though most of it looks like 0.00.
const NO_TIMES: [&[u8; 4]; 20] = [
    b"    ", b" .00", b".000", b"0.0 ", b" 0.0", b"00.0", b"0000", b"   0", b"0   ", b"0,00", b"-.00",
    b"+.00", b"0.0O", b"O.00", b"0. 0", b"0 00", b"0..0", b"....", b"-0.0", b" 000",
];

/// A blank time or one in no format, beside a blank heat, a heat or a broken
/// one.
fn time_that_is_none(random: &mut Random, turn: usize) -> Vec<u8> {
    let mut page = small_page(random);
    let index = any_line(random, &page, (turn + turn / 4) % 2 == 0);
    let time = if turn % 4 == 0 { NO_TIMES[0] } else { NO_TIMES[turn * 3 / 4 % NO_TIMES.len()] };
    page.set(index, TIME.columns, time);
    other_heat(random, &mut page, index);
    page.bytes()
}

/// Perhaps another heat, which may be none.
fn other_heat(random: &mut Random, page: &mut Page, index: usize) {
    let heat = match random.below(4) {
        0 => vec![b' '; HEAT.columns.1],
        1 => text_of(&HEAT, 13_333),
        2 => {
            let turn = random.below(1_000);
            heat_of_operating_hour(random, turn)
        }
        _ => return,
    };
    page.set(index, HEAT.columns, &heat);
}

/// A time above 1.00, beside a blank heat, a heat or a broken one.
fn time_too_large(random: &mut Random, turn: usize) -> Vec<u8> {
    let mut page = small_page(random);
    let index = any_line(random, &page, turn % 2 == 0);
    large_time_on(random, index, &mut page);
    other_heat(random, &mut page, index);
    page.bytes()
}

/// A date on a 300 line that is wrong, not later than the one before, or right
/// and that of another hour; now and then beside another heat.
fn date(random: &mut Random, turn: usize) -> Vec<u8> {
    let (operating, idle) = ([1, 2, 0, 2, 1][turn % 5], 2 + random.below(2));
    let mut page = page(random, turn / 5, operating, idle);
    let listed = page.indices(&R300);
    let way = turn / 2 % 12;
    let chosen = any_line(random, &page, turn % 2 == 0 || operating == 0);
    // Not to be later than the chosen line is a fault of the next one.
    let index = if way < 2 { (chosen + 1).min(listed.end - 1) } else { chosen };
    let all = dates(&page);
    let before = date_on_line(&page, index.max(listed.start + 1) - 1);
    let behind = date_on_line(&page, (index + 1).min(listed.end - 1));
    let place = all.iter().position(|date| *date == before).unwrap_or(0);
    let text = match way {
        0 => before,
        1 => all[place.saturating_sub(1)].clone(),
        2 => behind,
        3 => all[0].clone(),
        4 => all[all.len() - 1].clone(),
        5 => {
            let other = random.pick(&lines_of(&page, true));
            date_on_line(&page, other)
        }
        6 => {
            let other = (index + 1).min(listed.end - 1);
            page.lines.swap(index, other);
            return page.bytes();
        }
        _ => {
            let date = date_on_line(&page, index);
            let variant = random.below(18);
            wrong_date(random, variant, &date, &before, head(&page, YEAR))
        }
    };
    page.set(index, DATE_300, &text);
    if random.once_in(4) {
        other_heat(random, &mut page, index);
    }
    page.bytes()
}

/// A line with positive time where an idle hour was: one too many, behind the
/// last operating hour or before it, with any heat.
fn surplus(random: &mut Random, turn: usize) -> Vec<u8> {
    let operating = turn % 3;
    let place = if turn % 4 == 3 { random.below(4) } else { 1 };
    let mut page = page(random, place, operating, 1 + turn / 2 % 2);
    let index = any_line(random, &page, true);
    make_operating(random, &mut page, index);
    match turn / 3 % 8 {
        0 => page.set(index, HEAT.columns, b"       "),
        1 => {
            let heat = heat_of_operating_hour(random, turn);
            page.set(index, HEAT.columns, &heat);
        }
        2 => {
            // The same heat as an operating hour's.
            let heat = lines_of(&page, false).into_iter().find_map(|line| page.get(line, HEAT.columns));
            page.set(index, HEAT.columns, &heat.unwrap_or_default());
        }
        3 => {
            // The quarter's last hour.
            let last = dates(&page).pop().unwrap_or_default();
            page.set(index, DATE_300, &last);
        }
        4 if operating > 0 => {
            // The last operating hour again.
            let last = page.get(page.index(0, operating - 1), DATE_200).unwrap_or_default();
            page.set(index, DATE_300, &last);
        }
        5 => lines_of(&page, true).into_iter().for_each(|line| make_operating(random, &mut page, line)),
        _ => {}
    }
    page.bytes()
}

/// An hour that has a 200 line and is idle, instead of its operating line, before
/// it or behind it; or that has no 300 line at all.
fn idle_and_operating(random: &mut Random, turn: usize) -> Vec<u8> {
    let (operating, idle) = (1 + turn % 3, random.below(3));
    let mut page = page(random, turn / 3, operating, idle);
    let rank = random.below(operating);
    let index = page.index(BLOCK, rank);
    match turn / 2 % 8 {
        0 => make_idle(&mut page, index),
        1 => {
            page.lines.insert(index, page.lines[index].clone());
            make_idle(&mut page, index);
        }
        2 => {
            page.lines.insert(index, page.lines[index].clone());
            make_idle(&mut page, index + 1);
        }
        3 => lines_of(&page, false).into_iter().for_each(|line| make_idle(&mut page, line)),
        4 => {
            let last = page.index(BLOCK, operating - 1);
            make_idle(&mut page, last);
        }
        5 => {
            // The file ends with the 300 lines.
            make_idle(&mut page, index);
            page.lines.truncate(page.totals());
        }
        6 => {
            // The hour's other lines are gone. It is idle, but the totals have it.
            make_idle(&mut page, index);
            [7, 6, 5, 3, 2, 1, 0].iter().for_each(|&block| drop(page.lines.remove(page.index(block, rank))));
        }
        _ => drop(page.lines.remove(index)),
    }
    page.bytes()
}

/// The file ends before the 300 lines, among them or with the last of them.
fn cut(random: &mut Random, turn: usize) -> Vec<u8> {
    let (operating, idle) = (turn % 4, 1 + random.below(3));
    let mut page = page(random, turn / 4, operating, idle);
    let listed = page.indices(&R300);
    let kept = match turn / 4 % 3 {
        0 => listed.end,
        1 => listed.start,
        _ => listed.start + random.below(listed.len() + 1),
    };
    page.lines.truncate(kept);
    page.bytes()
}

/// Lines of other types among the 300 lines or right behind them, and 300 lines
/// among others.
fn foreign_line(random: &mut Random, turn: usize) -> Vec<u8> {
    let (operating, idle) = ([0, 1, 2, 0, 1][turn % 5], 1 + random.below(3));
    let mut page = page(random, turn / 5, operating, idle);
    let listed = page.indices(&R300);
    let among = listed.start + 1 + random.below(listed.len());
    let moved = any_line(random, &page, true);
    match turn / 2 % 9 {
        0 | 1 => {
            let reading = reading_line(random, &page);
            page.lines.insert(among, reading);
        }
        2 => {
            let other = page.lines[random.below(listed.start)].clone();
            page.lines.insert(among, other);
        }
        3 => drop(page.lines.remove(listed.end)),
        4 => {
            let totals = page.lines.remove(listed.end);
            page.lines.insert(among, totals);
        }
        5 => {
            let line = page.lines.remove(moved);
            page.lines.insert(listed.end, line);
        }
        6 => {
            let line = page.lines.remove(moved);
            let behind = listed.end + random.below(page.lines.len() - listed.end + 1);
            page.lines.insert(behind, line);
        }
        7 => {
            let line = page.lines.remove(moved);
            page.lines.insert(1 + random.below(listed.start), line);
        }
        _ => page.lines.insert(listed.end, page.lines[listed.end].clone()),
    }
    page.bytes()
}

/// A 200 line of the page's stack and of any hour of its quarter.
fn reading_line(random: &mut Random, page: &Page) -> Vec<u8> {
    let mut report = recorder::report(random, 1);
    report.name.copy_from_slice(NAME.of(&page.lines[0]));
    let mut line = Page::of(&report.bytes(&mut PlainPen)).lines.swap_remove(1);
    let all = dates(page);
    DATE_200.of_mut(&mut line).copy_from_slice(&all[random.below(all.len())]);
    line
}

/// Faults on a given 300 line: heat, another hour's date, a time above its
/// range, a time out of its format, a wrong date, name, byte, type and length;
/// the length comes last, as the others need whole lines.
const ON_LINE: [Change; 9] = [
    heat_on,
    another_hour_on,
    large_time_on,
    no_time_on,
    wrong_date_on,
    name_on,
    byte_on,
    type_on,
    length_on,
];

fn heat_on(random: &mut Random, index: usize, page: &mut Page) {
    let turn = random.below(1_000);
    let heat = if is_idle(&page.lines[index]) {
        heat_of_idle_hour(random, turn % HEATS)
    } else {
        heat_of_operating_hour(random, turn)
    };
    page.set(index, HEAT.columns, &heat);
}

fn another_hour_on(_: &mut Random, index: usize, page: &mut Page) {
    let (all, now) = (dates(page), date_on_line(page, index));
    let next = all.iter().position(|date| *date == now).map_or(0, |place| place + 1);
    page.set(index, DATE_300, all.get(next).unwrap_or(&all[0]));
}

fn large_time_on(random: &mut Random, index: usize, page: &mut Page) {
    let any = random.between(101, 999);
    let time = random.pick(&[101, 101, 110, 200, 999, any]);
    page.set(index, TIME.columns, &text_of(&TIME, time));
}

fn no_time_on(random: &mut Random, index: usize, page: &mut Page) {
    let time = random.pick(&NO_TIMES);
    page.set(index, TIME.columns, time);
}

/// A date that is none, or that of the line before.
fn wrong_date_on(random: &mut Random, index: usize, page: &mut Page) {
    if page.indices(&R300).start == index || random.once_in(2) {
        date_on(random, index, page);
    } else {
        page.set(index, DATE_300, &date_on_line(page, index - 1));
    }
}

fn type_on(random: &mut Random, index: usize, page: &mut Page) {
    let kind = random.pick(&[b"200", b"220", b"301", b"310", b"30 ", b"3O0", b" 30", b"000"]);
    page.set(index, Columns(1, 3), kind);
}

/// Two or three faults on the 300 line of an idle hour, or of an operating one,
/// to see which is found first.
fn same_line(random: &mut Random, turn: usize) -> Vec<u8> {
    let mut page = small_page(random);
    let index = any_line(random, &page, turn % 2 == 0);
    let count = ON_LINE.len();
    let pairs: Vec<[usize; 2]> = (0..count).flat_map(|b| (0..b).map(move |a| [a, b])).collect();
    let mut ways = pairs[turn / 2 % pairs.len()].to_vec();
    if random.once_in(6) {
        ways.push(random.below(count));
    }
    ways.sort_unstable();
    for way in ways {
        ON_LINE[way](random, index, &mut page);
    }
    page.bytes()
}

/// One or two faults inside any lines.
fn changed(random: &mut Random, turn: usize) -> Vec<u8> {
    let mut page = small_page(random);
    any_changes(random, 1 + turn % 2, 0, &mut page);
    page.bytes()
}

fn damage(random: &mut Random, turn: usize) -> Vec<u8> {
    let page = small_page(random);
    damaged(random, turn, page)
}

/// A quarter of which all hours are listed and few are operating; right, or
/// with a fault at its end.
fn whole_quarter(random: &mut Random, turn: usize) -> Vec<u8> {
    let mut report = recorder::report_in(random, 2005, [3, 1, 4, 2][turn % 4], 2 - turn % 3);
    let idle = |hour: &u32| report.hours.iter().all(|operating| operating.hour_of_quarter != *hour);
    report.idle_hours = (0..hours_in_quarter(report.year, report.quarter)).filter(idle).collect();
    let mut page = Page::of(&bytes(random, &report));
    let last = page.indices(&R300).end - 1;
    match turn % 5 {
        1 => page.set(last, HEAT.columns, b"    0.0"),
        2 => page.lines.insert(last, page.lines[last].clone()),
        3 => page.lines.truncate(last + 1),
        4 => make_operating(random, &mut page, last),
        _ => {}
    }
    page.bytes()
}

/// A 300 line of a written report made idle, as a whole or in part: that of the
/// operating hour with this rank, or the last one.
pub fn emptied(random: &mut Random, turn: usize, mut page: Page, rank: usize) -> Vec<u8> {
    let index = page.index(BLOCK, rank);
    match turn % 6 {
        0 => make_idle(&mut page, index),
        1 => page.set(index, TIME.columns, b"0.00"),
        2 => {
            let last = page.index(BLOCK, page.hours - 1);
            make_idle(&mut page, last);
        }
        3 => page.set(index, HEAT.columns, b"       "),
        4 => {
            make_idle(&mut page, index);
            let other = page.index(BLOCK, random.below(page.hours));
            page.set(other, TIME.columns, b"0.00");
        }
        _ => no_time_on(random, index, &mut page),
    }
    page.bytes()
}
