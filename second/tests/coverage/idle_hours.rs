//! Files with idle hours: good ones, faults on their 300 lines, among them and
//! behind them.

use super::files::*;
use second::layout::*;
use std::collections::BTreeMap;

/// Good files with idle hours before, between and behind operating ones, with
/// idle ones alone, with many, and with all hours of a quarter.
#[test]
fn good_files_with_idle_hours() {
    let mut sorts = Sorts::new();
    for (file, ..) in files().filter(|&(_, number, _)| number == 0) {
        let listed: Vec<&[u8]> = lines_of(file).into_iter().filter(|line| is_listed(line)).collect();
        let idle: Vec<bool> = listed.iter().map(|line| is_idle(line)).collect();
        let operating = idle.iter().filter(|&&idle| !idle).count();
        let inner = idle.iter().skip_while(|&&idle| idle).skip_while(|&&idle| !idle);
        for (sort, has) in [
            ("first", operating > 0 && idle[0]),
            ("between", inner.clone().any(|&idle| !idle)),
            ("last", operating > 0 && idle[idle.len() - 1]),
            ("alone", operating == 0 && !idle.is_empty()),
            ("many", idle.len() >= 20 + operating),
            ("all hours of a quarter", idle.len() >= 2_160 && operating > 0),
        ] {
            *sorts.entry(sort).or_default() += usize::from(has);
        }
    }
    assert_sorts(&sorts, &["first", "between", "last", "alone", "many"], 5);
    assert_sorts(&sorts, &["all hours of a quarter"], 1);
}

/// The heat columns of idle hours, where they are not blank.
#[test]
fn heat_of_idle_hours() {
    let mut sorts = Sorts::new();
    for (file, number, line) in files() {
        let Some(&there) = lines_of(file).get(line.wrapping_sub(1)) else { continue };
        let heat = text(there, HEAT.columns);
        let blank_before = heat.iter().take_while(|&&byte| byte == b' ').count();
        let blank_behind = heat.iter().rev().take_while(|&&byte| byte == b' ').count();
        let sort = match (number, read_number(heat, HEAT.decimals)) {
            (47, Some(0)) => "zero",
            (47, Some(_)) => "number",
            (47, None) if blank_before == HEAT.columns.1 - 1 => "last column",
            (47, None) if blank_behind == HEAT.columns.1 - 1 => "first column",
            (47, None) if blank_before + blank_behind == 0 => "every column",
            (47, None) => "malformed",
            (4, _) if is_idle(there) && heat.iter().any(|byte| !(32..=126).contains(byte)) => "odd byte",
            _ => continue,
        };
        *sorts.entry(sort).or_default() += 1;
    }
    assert_sorts(&sorts, &["zero", "number", "every column", "malformed"], 5);
    assert_sorts(&sorts, &["first column", "last column", "odd byte"], 3);
}

/// Times and dates that 300 lines must not have.
#[test]
fn times_and_dates_of_listed_hours() {
    let mut sorts = Sorts::new();
    for (file, number, line) in files() {
        let lines = lines_of(file);
        let (Some(&there), true) = (lines.get(line.wrapping_sub(1)), line > 1) else { continue };
        if !is_listed(there) {
            continue;
        }
        let (hours, heat) = (text(there, TIME.columns), text(there, HEAT.columns));
        let (date, before) = (text(there, DATE_300), lines[line - 2]);
        let date_before = text(before, DATE_300);
        let digits = date.iter().all(u8::is_ascii_digit);
        let sort = match number {
            8 if is_operating(there) && is_blank(heat) => "blank heat",
            8 if is_operating(there) => "broken heat",
            8 if is_blank(hours) && is_blank(heat) => "blank time and heat",
            8 if is_blank(hours) => "blank time",
            8 if is_blank(heat) => "broken time and blank heat",
            8 => "broken time",
            9 if is_blank(heat) => "large time and blank heat",
            9 if read_number(heat, HEAT.decimals).is_none() => "large time and broken heat",
            9 => "large time",
            6 if !digits && is_idle(there) => "no date of an idle hour",
            6 if !digits => "no date of an operating hour",
            6 if !is_listed(before) => "first date outside",
            6 if date == date_before && is_idle(before) && is_idle(there) => "idle twice",
            6 if date == date_before && is_idle(before) => "idle, then operating",
            6 if date == date_before && is_idle(there) => "operating, then idle",
            6 if date < date_before && is_idle(before) => "earlier than an idle hour",
            6 if date < date_before => "earlier than an operating hour",
            6 => "later date outside",
            _ => continue,
        };
        *sorts.entry(sort).or_default() += 1;
    }
    let times = [
        "blank heat",
        "broken heat",
        "blank time and heat",
        "blank time",
        "broken time and blank heat",
        "broken time",
        "large time and blank heat",
        "large time and broken heat",
        "large time",
    ];
    let dates = [
        "no date of an idle hour",
        "no date of an operating hour",
        "first date outside",
        "later date outside",
        "idle twice",
        "idle, then operating",
        "operating, then idle",
        "earlier than an idle hour",
        "earlier than an operating hour",
    ];
    assert_sorts(&sorts, &times, 3);
    assert_sorts(&sorts, &dates, 3);
}

/// Lines with positive time that are surplus or of another rank; other lines
/// among 300 lines, and these among others; files that end there.
#[test]
fn ranks_among_listed_hours() {
    let mut sorts = Sorts::new();
    for (file, number, line) in files() {
        let lines = lines_of(file);
        let (Some(&there), true) = (lines.get(line.wrapping_sub(1)), line > 1) else { continue };
        let before = &lines[..line - 1];
        let hours = before.iter().filter(|line| line.starts_with(R200.kind)).count();
        let operating = before.iter().filter(|line| is_operating(line)).count();
        let behind_listed = is_listed(before[line - 2]);
        let idle_before = before.iter().any(|line| is_idle(line));
        let expected = before.get(operating + 1).map_or(&[][..], |line| text(line, DATE_200));
        let stood_idle = before.iter().any(|line| is_idle(line) && text(line, DATE_300) == expected);
        let sort = match number {
            7 if !is_listed(there) => continue,
            7 if hours == 0 => "operating, without readings",
            7 if operating == hours && is_blank(text(there, HEAT.columns)) => "surplus, without heat",
            7 if operating == hours => "surplus",
            7 if stood_idle => "behind its idle hour",
            7 => "of another hour",
            2 if there.starts_with(R200.kind) && behind_listed && hours == 0 => "200 behind idle hours",
            2 if there.starts_with(R200.kind) && behind_listed => "200 behind 300",
            2 if there.starts_with(R301.kind) && operating < hours && idle_before => "301 too early",
            2 if there.starts_with(R310.kind) && behind_listed && idle_before => "310 behind 300",
            2 if is_idle(there) && hours == 0 => "idle behind the totals of none",
            2 if is_idle(there) && before[line - 2].starts_with(R301.kind) => "idle behind 301",
            2 if is_idle(there) => "idle among other lines",
            10 if !behind_listed => continue,
            10 if hours == 0 => "end behind idle hours",
            10 if operating < hours => "end before the last operating hour",
            10 => "end behind 300",
            _ => continue,
        };
        *sorts.entry(sort).or_default() += 1;
    }
    let wanted = [
        "operating, without readings",
        "surplus, without heat",
        "surplus",
        "behind its idle hour",
        "of another hour",
        "200 behind idle hours",
        "200 behind 300",
        "301 too early",
        "310 behind 300",
        "idle behind the totals of none",
        "idle behind 301",
        "idle among other lines",
        "end behind idle hours",
        "end before the last operating hour",
        "end behind 300",
    ];
    assert_sorts(&sorts, &wanted, 3);
}

/// Figures and totals that fail with idle hours before their lines.
#[test]
fn figures_and_totals_behind_idle_hours() {
    let mut times = Times::new();
    for (file, number, line) in files() {
        if number > 10 && lines_of(file)[..line].iter().any(|line| is_idle(line)) {
            add(&mut times, number);
        }
    }
    for number in (11..=14).chain(21..=24).chain([48]) {
        assert!(times.get(&number).is_some_and(|&times| times >= 5), "{number} {times:?}");
    }
}

/// What a look at a 300 line and the one before it finds, apart from its type
/// and its rank, in the order of the check.
fn faults_on(lines: &[&[u8]], index: usize) -> Vec<u32> {
    let line = lines[index];
    let (date, before) = (text(line, DATE_300), text(lines[index - 1], DATE_300));
    let late = !is_listed(lines[index - 1]) || date > before;
    let heat = line.get(HEAT.columns.0 - 1..).unwrap_or_default();
    [
        (3, line.len() != R300.length),
        (4, line.iter().any(|byte| !(32..=126).contains(byte))),
        (5, text(line, NAME) != text(lines[0], NAME)),
        (6, !date.iter().all(u8::is_ascii_digit) || !late),
        (8, time(line).is_none()),
        (9, time(line).is_some_and(|time| time > 100)),
        (47, is_idle(line) && !is_blank(heat)),
        (8, is_operating(line) && read_number(heat, HEAT.decimals).is_none()),
    ]
    .into_iter()
    .filter_map(|(number, found)| found.then_some(number))
    .collect()
}

/// The first of two faults on a 300 line is found, whichever they are.
#[test]
fn two_faults_on_a_300_line() {
    let mut pairs = BTreeMap::<(u32, u32), usize>::new();
    for (file, number, line) in files() {
        let lines = lines_of(file);
        if line < 2 || !lines.get(line - 1).is_some_and(|line| is_listed(line)) {
            continue;
        }
        let faults = faults_on(&lines, line - 1);
        for &other in &faults {
            *pairs.entry((number, other)).or_default() += 1;
        }
        if [3, 4, 5, 8, 9, 47].contains(&number) {
            assert_eq!(faults.first(), Some(&number));
        }
    }
    for (number, behind) in
        [(3, &[4, 5, 6, 8, 9, 47][..]), (4, &[5, 6, 8, 9, 47]), (5, &[6, 8, 9, 47]), (6, &[8, 9, 47])]
            .into_iter()
            .chain([(9, &[8][..]), (7, &[8])])
    {
        for other in behind {
            assert!(pairs.contains_key(&(number, *other)), "{number} {other} {pairs:?}");
        }
    }
}
