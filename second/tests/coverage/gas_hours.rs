//! Files with gas hours: good ones, SO2 figures at the edges that heat gives them,
//! and GAS and blank 200 values that do not go together; and written reports whose
//! hours were made gas hours.

use super::files::*;
use second::cases::{Answering, Case};
use second::figures::Readings;
use second::layout::*;
use second::list::number_of;
use std::collections::{BTreeMap, BTreeSet};

/// Readings and figures of an hour.
type Judged = (Readings, [u128; 4]);

fn is_gas(readings: &Readings) -> bool {
    readings.so2.reading().is_none()
}

/// Where the 310 lines stand, as 301 and the 200 lines tell.
fn rate_lines(lines: &[&[u8]]) -> std::ops::Range<usize> {
    let hours = lines.iter().filter(|line| line.starts_with(R200.kind)).count();
    let totals = lines.iter().position(|line| line.starts_with(R301.kind)).unwrap_or(lines.len());
    totals + 1..(totals + 1 + hours).min(lines.len())
}

/// The gas hours of a file whose lines are right; if it is refused, only that on
/// the line of the refusal.
fn gas_hours(file: &[u8], number: u32, line: usize) -> Vec<Judged> {
    let lines = lines_of(file);
    let on_line = |rank| (4..8).any(|block| operating_lines(&lines, block)[rank] + 1 == line);
    let hours = hours_of(file).into_iter().enumerate();
    let judged = hours.filter(|(rank, (_, readings, _))| is_gas(readings) && (number == 0 || on_line(*rank)));
    judged.map(|(_, (_, readings, figures))| (readings, figures)).collect()
}

/// Whether a file whose lines are right has gas hours, and others.
fn sorts_of_hours(file: &[u8]) -> (bool, bool) {
    let hours = hours_of(file);
    let is = |gas| hours.iter().any(|(_, readings, _)| is_gas(readings) == gas);
    (is(true), is(false))
}

/// Good files whose hours are all gas hours or some of them, with idle hours
/// beside them, without heat and with the largest.
#[test]
fn good_files_with_gas_hours() {
    let mut sorts = Sorts::new();
    for (file, ..) in files().filter(|&(_, number, _)| number == 0) {
        let (hours, lines) = (hours_of(file), lines_of(file));
        let gas: Vec<bool> = hours.iter().map(|(_, readings, _)| is_gas(readings)).collect();
        if !gas.contains(&true) {
            continue;
        }
        let any = |has: fn(&[u128; 4]) -> bool| {
            hours.iter().any(|(_, readings, figures)| is_gas(readings) && has(figures))
        };
        let line = lines[rate_lines(&lines).start];
        for (sort, has) in [
            ("all", true),
            ("gas alone", !gas.contains(&false)),
            ("gas, then not", gas.windows(2).any(|pair| pair == [true, false])),
            ("not, then gas", gas.windows(2).any(|pair| pair == [false, true])),
            ("three hours and more", gas.len() >= 3),
            ("idle hours", lines.iter().any(|line| is_idle(line))),
            ("no heat", any(|figures| figures[0] == 0)),
            ("no SO2 in spite of heat", any(|figures| figures[0] > 0 && figures[1] == 0)),
            ("large heat", any(|figures| figures[0] >= 900_000)),
            ("the largest heat", any(|figures| figures[0] == HEAT.largest())),
            ("zeros before SO2", gas[0] && text(line, R310.values[0].columns).starts_with(b"00")),
        ] {
            *sorts.entry(sort).or_default() += usize::from(has);
        }
    }
    assert_sorts(&sorts, &["all"], 100);
    assert_sorts(&sorts, &["gas alone", "gas, then not", "not, then gas", "three hours and more"], 20);
    assert_sorts(&sorts, &["idle hours", "no SO2 in spite of heat"], 15);
    assert_sorts(&sorts, &["no heat", "large heat", "zeros before SO2"], 5);
    assert_sorts(&sorts, &["the largest heat"], 1);
}

/// How far a heat is from an edge, that of a figure and the next one: the heat that
/// the edge is recorded as, one below or one above.
fn from_edge(heat: u128, edge: u128) -> Option<usize> {
    let recorded = (5_000 * (2 * edge + 1) + 3) / 6;
    (recorded - 1..=recorded + 1).position(|other| other == heat)
}

/// The two figures about an edge beside the three heats about it: those that pass,
/// and those that do not; at the first edge, the last and many others.
#[test]
fn edges_of_gas_hours() {
    let mut times = [[[0; 2]; 3]; 2];
    let mut edges = BTreeSet::new();
    for (file, number, line) in files().filter(|(_, number, _)| [0, 12].contains(number)) {
        for (_, [heat, so2, ..]) in gas_hours(file, number, line) {
            for (upper, edge) in [Some(so2), so2.checked_sub(1)].into_iter().enumerate() {
                let Some(edge) = edge.filter(|&edge| edge < 600) else { continue };
                if let Some(place) = from_edge(heat, edge) {
                    edges.insert(edge);
                    times[usize::from(number == 12)][place][upper] += 1;
                }
            }
        }
    }
    let [passed, failed] = times;
    assert!(
        [passed[0][0], passed[1][0], passed[1][1], passed[2][1]].iter().all(|&times| times >= 6),
        "{passed:?}"
    );
    assert!([failed[0][1], failed[2][0]].iter().all(|&times| times >= 6), "{failed:?}");
    assert_eq!([passed[0][1], passed[2][0], failed[0][0], failed[1][0], failed[1][1], failed[2][1]], [0; 6]);
    assert!(edges.len() >= 20 && edges.contains(&0) && edges.contains(&599), "{edges:?}");
}

/// Hours whose flow and CO2 give only smaller heats than the SO2 figure needs, or
/// only larger ones, and which pass.
#[test]
fn heats_that_flow_and_co2_do_not_give() {
    let mut times = [0; 2];
    for (file, ..) in files().filter(|&(_, number, _)| number == 0) {
        for (readings, [_, so2, ..]) in gas_hours(file, 0, 0) {
            let Readings { co2, flow, fc, .. } = readings;
            // In halves of a tenth: heat from flow and CO2, times 3 * fc, and the
            // ends of the heats that give the figure, times the same.
            let least = (300 * flow).saturating_sub(150) * (2 * co2 - 1);
            let greatest = (300 * flow + 150) * (2 * co2 + 1);
            times[0] += usize::from(so2 > 0 && greatest <= 5_000 * (2 * so2).saturating_sub(1) * fc);
            times[1] += usize::from(least >= 5_000 * (2 * so2 + 1) * fc);
        }
    }
    assert!(times.iter().all(|&times| times >= 4), "{times:?}");
}

/// Every figure of gas hours fails, and SO2 of other hours beside them; and every
/// total.
#[test]
fn figures_and_totals_with_gas_hours() {
    let [mut in_gas_hours, mut beside, mut totals] = [(); 3].map(|()| Times::new());
    for (file, number, line) in files() {
        if (11..=14).contains(&number) {
            if !gas_hours(file, number, line).is_empty() {
                add(&mut in_gas_hours, number);
            } else if sorts_of_hours(file).0 {
                add(&mut beside, number);
            }
        } else if ((21..=24).contains(&number) || number == 48) && sorts_of_hours(file).0 {
            add(&mut totals, number);
        }
    }
    assert!([11, 13, 14].iter().all(|number| in_gas_hours[number] >= 3), "{in_gas_hours:?}");
    assert!(in_gas_hours[&12] >= 40 && beside[&12] >= 1, "{in_gas_hours:?} {beside:?}");
    assert!([21, 22, 23, 24, 48].iter().all(|number| totals[number] >= 2), "{totals:?}");
}

/// What an hour has: whether its 200 value is blank, and what stands where its 310
/// line may say GAS.
fn reading_and_word<'a>(lines: &[&'a [u8]], rank: usize) -> (bool, &'a [u8]) {
    let readings: Vec<&[u8]> = lines.iter().filter(|line| line.starts_with(R200.kind)).copied().collect();
    let reading = readings.get(rank).map_or(&b""[..], |line| text(line, SO2.columns));
    let rate = rate_lines(lines).nth(rank).map_or(&b""[..], |index| lines[index]);
    (!reading.is_empty() && is_blank(reading), text(rate, GAS_COLUMNS))
}

/// Whether GAS and a blank value do not go together in an hour.
fn is_unpaired(lines: &[&[u8]], rank: usize) -> bool {
    let (blank, word) = reading_and_word(lines, rank);
    blank != (word == GAS_WORD)
}

/// Words that are not GAS.
const WORDS: [&[u8; 3]; 9] = [b"   ", b"gas", b"Gas", b" GA", b"GA ", b"AS ", b" AS", b"GAX", b"XAS"];

/// GAS beside a value and blank values without GAS, in first hours and later ones,
/// behind idle hours and before other such hours; and words that are not GAS,
/// beside blank values and, unread, beside others.
#[test]
fn gas_and_blanks_that_do_not_go_together() {
    let (mut sorts, mut words) = (Sorts::new(), BTreeMap::<(u32, &[u8]), usize>::new());
    for (file, number, line) in files().filter(|(_, number, _)| [0, 49].contains(number)) {
        let lines = lines_of(file);
        let (there, hours) = (rate_lines(&lines), rate_lines(&lines).len());
        if number == 0 {
            for rank in 0..hours {
                *words.entry((0, reading_and_word(&lines, rank).1)).or_default() += 1;
            }
            continue;
        }
        let rank = line - 1 - there.start;
        let (blank, word) = reading_and_word(&lines, rank);
        assert!(is_unpaired(&lines, rank) && (0..rank).all(|rank| !is_unpaired(&lines, rank)));
        if blank {
            *words.entry((49, word)).or_default() += 1;
        }
        let others: Vec<usize> = (0..hours).filter(|&other| other != rank).collect();
        let gas_before = (0..rank).any(|rank| reading_and_word(&lines, rank).0);
        let turned = others
            .iter()
            .any(|&other| is_unpaired(&lines, other) && blank != reading_and_word(&lines, other).0);
        let reading = text(lines[1 + rank], SO2.columns);
        for (sort, has) in [
            ("value, first", !blank && rank == 0),
            ("value, later", !blank && rank > 0),
            ("blank, first", blank && rank == 0),
            ("blank, later", blank && rank > 0),
            ("value 0.0", read_number(reading, SO2.decimals) == Some(0)),
            ("behind a gas hour", gas_before),
            ("behind idle hours", lines.iter().any(|line| is_idle(line))),
            ("the other way round in another hour", turned),
        ] {
            *sorts.entry(sort).or_default() += usize::from(has);
        }
    }
    assert_sorts(&sorts, &["value, first", "value, later", "blank, first", "blank, later"], 10);
    assert_sorts(&sorts, &["value 0.0", "behind a gas hour", "behind idle hours"], 5);
    assert_sorts(&sorts, &["the other way round in another hour"], 3);
    for word in WORDS {
        for number in [0, 49] {
            assert!(words.contains_key(&(number, &word[..])), "{number} {word:?}");
        }
    }
}

/// On a 310 line with GAS and a value, or neither: any fault before these is found,
/// and none behind.
#[test]
fn other_faults_on_the_310_line() {
    let mut times = BTreeMap::<(u32, bool), usize>::new();
    for (file, number, line) in files().filter(|(_, number, _)| [2, 3, 4, 5, 7, 49].contains(number)) {
        let lines = lines_of(file);
        let there = rate_lines(&lines);
        let index = line.wrapping_sub(1);
        if !there.contains(&index) || !is_unpaired(&lines, index - there.start) {
            continue;
        }
        let value = &R310.values[0];
        let malformed = read_number(text(lines[index], value.columns), value.decimals).is_none();
        if number != 49 || malformed {
            *times.entry((number, reading_and_word(&lines, index - there.start).0)).or_default() += 1;
        }
    }
    for number in [2, 3, 4, 5, 7, 49] {
        for blank in [true, false] {
            assert!(
                times.get(&(number, blank)).is_some_and(|&times| times >= 1),
                "{number} {blank} {times:?}"
            );
        }
    }
    assert!(times[&(49, true)] >= 3 && times[&(49, false)] >= 3, "{times:?}");
}

/// The file with GAS where a value is blank, and nowhere else.
fn mended(file: &[u8]) -> Vec<u8> {
    let lines = lines_of(file);
    let mut mended: Vec<Vec<u8>> = lines.iter().map(|line| line.to_vec()).collect();
    for (rank, index) in rate_lines(&lines).enumerate().filter(|&(rank, _)| is_unpaired(&lines, rank)) {
        let word = if reading_and_word(&lines, rank).0 { GAS_WORD } else { b"   " };
        if mended[index].len() == R310.length {
            GAS_COLUMNS.of_mut(&mut mended[index]).copy_from_slice(word);
        }
    }
    mended.join(&b'\n')
}

/// Faults behind 49, which would be found without it; and faults before it.
#[test]
fn faults_before_and_behind_49() {
    let [mut behind, mut before] = [(); 2].map(|()| Times::new());
    for (file, number, line) in files().filter(|&(_, number, _)| number > 1) {
        let lines = lines_of(file);
        let there = rate_lines(&lines);
        if number == 49 {
            add(&mut behind, refusal(&mended(file)).0);
        } else if line <= there.start && (0..there.len()).any(|rank| is_unpaired(&lines, rank)) {
            add(&mut before, number);
        }
    }
    for (numbers, least) in [(0..=0, 20), (2..=10, 12), (11..=14, 20)] {
        assert!(sum(&behind, numbers) >= least, "{behind:?}");
    }
    let totals_behind = sum(&behind, 21..=24) + sum(&behind, 48..=48);
    assert!(totals_behind >= 2, "{behind:?}");
    assert!(before.len() >= 6 && sum(&before, 2..=9) >= 10, "{before:?}");
}

/// Readings that are neither blank nor numbers, with GAS and without; some have no
/// digit, and some but one byte.
#[test]
fn malformed_readings() {
    let mut sorts = Sorts::new();
    for (file, _, line) in files().filter(|&(_, number, _)| number == 8) {
        let lines = lines_of(file);
        let reading = text(lines[line - 1], SO2.columns);
        if !lines[line - 1].starts_with(R200.kind) {
            continue;
        }
        assert!(!is_blank(reading));
        let says_gas = reading_and_word(&lines, line - 2).1 == GAS_WORD;
        let bytes = reading.iter().filter(|&&byte| byte != b' ').count();
        for (sort, has) in [
            ("with GAS", says_gas),
            ("without GAS", !says_gas),
            ("one byte, with GAS", says_gas && bytes == 1),
            ("one byte, without GAS", !says_gas && bytes == 1),
        ] {
            *sorts.entry(sort).or_default() += usize::from(has);
        }
    }
    assert_sorts(&sorts, &["with GAS", "without GAS"], 8);
    assert_sorts(&sorts, &["one byte, with GAS", "one byte, without GAS"], 1);
}

/// Written reports, small ones and full quarters, with gas hours: one or many; and
/// with GAS or blank values alone.
#[test]
fn written_reports_made_gas() {
    let (mut sorts, mut answering) = (Sorts::new(), Answering::default());
    for case in CASES.iter() {
        let answer = answering.answer(case);
        if !matches!(case, Case::Patch(_)) {
            continue;
        }
        let report = answering.report();
        let (lines, number) = (lines_of(report), number_of(&answer));
        let of_gas =
            lines.iter().filter(|line| line.starts_with(R310.kind) && text(line, GAS_COLUMNS) == GAS_WORD);
        let (gas, full) = (of_gas.count(), report.len() > 600_000);
        let later = number == 49 && !answer[0].ends_with(&format!(" {}", rate_lines(&lines).start + 1));
        for (sort, has) in [
            ("accepted", number == 0 && gas > 0),
            ("accepted, many gas hours", number == 0 && gas >= 5),
            ("accepted, full quarter", number == 0 && gas > 0 && full),
            ("wrong SO2", number == 12 && gas > 0),
            ("wrong SO2, full quarter", number == 12 && gas > 0 && full),
            ("GAS alone", number == 49 && gas > 0),
            ("blank alone", number == 49 && gas == 0),
            ("49 in a later hour", later),
            ("49 in a later hour, full quarter", later && full),
        ] {
            *sorts.entry(sort).or_default() += usize::from(has);
        }
    }
    assert_sorts(&sorts, &["accepted", "wrong SO2", "GAS alone", "blank alone", "49 in a later hour"], 10);
    assert_sorts(
        &sorts,
        &["accepted, many gas hours", "accepted, full quarter", "wrong SO2, full quarter"],
        3,
    );
    assert_sorts(&sorts, &["49 in a later hour, full quarter"], 3);
}
