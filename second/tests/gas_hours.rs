//! The check of files with gas hours: the request's hours, GAS and blank 200 values
//! that do not go together, and which of several faults is found.

use second::check::check;
use second::figures::{Figure, Gas, Monitor, Readings, FIGURES};
use second::generate::page::Page;
use second::layout::*;
use second::report::{Hour, PlainPen, Report};

const PAPER: Readings = Readings { so2: Monitor(2_500), nox: 2_000, co2: 120, flow: 20_000, fc: 18_000 };

/// The paper's hour.
fn monitored(hour_of_quarter: u32) -> Hour {
    let figures = FIGURES.map(|figure| figure.of_recorded(&PAPER));
    Hour { hour_of_quarter, time: 50, readings: PAPER, figures }
}

/// The paper's hour as a gas hour.
fn gas(hour_of_quarter: u32) -> Hour {
    gas_with(hour_of_quarter, 20_000, 13_333, 8)
}

/// The paper's hour as a gas hour with another flow, heat and SO2.
fn gas_with(hour_of_quarter: u32, flow: u128, heat: u128, so2: u128) -> Hour {
    let readings = Readings { so2: Gas(heat), flow, ..PAPER };
    let [_, _, nox, co2] = FIGURES.map(|figure| figure.of_recorded(&readings));
    Hour { hour_of_quarter, time: 50, readings, figures: [heat, so2, nox, co2] }
}

fn page(hours: Vec<Hour>, idle_hours: Vec<u32>) -> Page {
    let name = *b"STACK1";
    let mut report = Report { year: 2005, quarter: 3, name, hours, idle_hours, ..Report::default() };
    report.add_up();
    Page::of(&report.bytes(&mut PlainPen))
}

fn answer(page: &Page) -> String {
    check(&page.bytes()).to_string()
}

/// The answer to a page with these changes of text on its lines, counted from 1.
fn answer_with(page: &Page, changes: &[(usize, Columns, &str)]) -> String {
    let mut page = page.clone();
    for (line, columns, text) in changes {
        page.set(line - 1, *columns, text.as_bytes());
    }
    answer(&page)
}

const READING: Columns = SO2.columns;
const RATE: Columns = R310.values[0].columns;
const WORDS: [&str; 14] =
    ["   ", "gas", "Gas", "GAs", " GA", "GA ", "AS ", " AS", "GAX", "XAS", "GXS", "SAG", "G  ", "S  "];

#[test]
fn the_paper_hour_as_a_gas_hour() {
    let page = page(vec![gas(0)], vec![]);
    let lines: Vec<&str> = page.lines.iter().map(|line| std::str::from_utf8(line).unwrap()).collect();
    assert_eq!(lines[1], "200STACK1      05070100                 ");
    assert_eq!(lines[6], "301STACK1        0.0       68.4      666.7 0.358        0.1");
    assert_eq!(lines[7], "310STACK105070100           0.8GAS");
    assert_eq!(answer(&page), "accepted 1 0 684 6667 358 1");
    for (rate, expected) in
        [("    0.7", "refused 12 8"), ("    0.9", "refused 12 8"), ("  830.0", "refused 12 8")]
    {
        assert_eq!(answer_with(&page, &[(8, RATE, rate)]), expected);
    }
    assert_eq!(answer_with(&page, &[(8, RATE, "00000.8")]), "accepted 1 0 684 6667 358 1");
}

/// The request's heats: which SO2 figures pass, and which do not.
#[test]
fn so2_of_the_heats_to_try() {
    for (flow, heat, passing, failing) in [
        (20_000, 13_333, &[8][..], &[0, 7, 9, 8_300][..]),
        (1_248, 832, &[0], &[1]),
        (1_250, 833, &[0, 1], &[2]),
        (1_251, 834, &[1], &[0, 2]),
        (0, 0, &[0], &[1, 999_999]),
    ] {
        for &so2 in passing {
            let answer = answer(&page(vec![gas_with(0, flow, heat, so2)], vec![]));
            assert!(answer.starts_with("accepted 1 0 "), "{heat} {so2} {answer}");
        }
        for &so2 in failing {
            assert_eq!(
                answer(&page(vec![gas_with(0, flow, heat, so2)], vec![])),
                "refused 12 8",
                "{heat} {so2}"
            );
        }
    }
}

/// Heat is judged before SO2, by flow and CO2 alone; SO2 by the recorded heat alone.
#[test]
fn heat_is_judged_as_ever() {
    let gas = |heat, so2| page(vec![gas_with(0, 20_000, heat, so2)], vec![]);
    let (low, high) = Figure::Heat.edges(&PAPER);
    assert_eq!((low, high), (13_277, 13_389));
    for heat in [low - 1, high + 1] {
        assert_eq!(answer(&gas(heat, 8)), "refused 11 6");
        assert_eq!(answer(&gas(heat, 100)), "refused 11 6");
    }
    for heat in [low, high] {
        assert!(answer(&gas(heat, 8)).starts_with("accepted 1 0 684 "));
        assert_eq!(answer(&gas(heat, 7)), "refused 12 8");
    }
}

#[test]
fn other_words_are_unread() {
    let (gas, monitored) = (page(vec![gas(0)], vec![]), page(vec![monitored(0)], vec![]));
    for word in WORDS {
        assert_eq!(answer_with(&gas, &[(8, GAS_COLUMNS, word)]), "refused 49 8", "{word}");
        let answer = answer_with(&monitored, &[(8, GAS_COLUMNS, word)]);
        assert_eq!(answer, "accepted 1 2 684 6667 358 1", "{word}");
    }
    assert_eq!(answer_with(&monitored, &[(8, GAS_COLUMNS, "GAS")]), "refused 49 8");
    assert_eq!(answer_with(&monitored, &[(2, READING, "      ")]), "refused 49 8");
    for reading in ["   0.0", "   0.8", "9999.9", "0000.0"] {
        assert_eq!(answer_with(&gas, &[(2, READING, reading)]), "refused 49 8", "{reading}");
    }
    let both = [(2, READING, "      "), (8, GAS_COLUMNS, "GAS")];
    assert_eq!(answer_with(&monitored, &both), "refused 12 8");
}

#[test]
fn malformed_readings_are_no_blank_ones() {
    let gas = page(vec![gas(0)], vec![]);
    for reading in
        ["     .", ".     ", "-     ", "     0", "0     ", "    .0", "  0.0 ", " -0.0 ", "   0,0", "   GAS"]
    {
        for word in WORDS.into_iter().chain(["GAS"]) {
            let changes = [(2, READING, reading), (8, GAS_COLUMNS, word)];
            assert_eq!(answer_with(&gas, &changes), "refused 8 2", "{reading} {word}");
        }
    }
}

/// Idle hours 0, 2 and 4; a gas hour 1 and the paper's hour 3, or the other way
/// round. The 200 lines are 2 and 3, the 310 lines 16 and 17.
fn mixed(gas_first: bool) -> Page {
    let hours = if gas_first { vec![gas(1), monitored(3)] } else { vec![monitored(1), gas(3)] };
    page(hours, vec![0, 2, 4])
}

#[test]
fn gas_and_blanks_go_together_in_each_hour() {
    for gas_first in [true, false] {
        let page = mixed(gas_first);
        assert_eq!(answer(&page), "accepted 2 2 1368 13333 358 2");
        for (reading, rate) in [(2, 16), (3, 17)] {
            let expected = format!("refused 49 {rate}");
            let is_gas = (rate == 16) == gas_first;
            let (value, word) = if is_gas { (" 250.0", "   ") } else { ("      ", "GAS") };
            assert_eq!(answer_with(&page, &[(reading, READING, value)]), expected);
            assert_eq!(answer_with(&page, &[(rate, GAS_COLUMNS, word)]), expected);
            let both = [(reading, READING, value), (rate, GAS_COLUMNS, word)];
            assert_eq!(answer_with(&page, &both), format!("refused 12 {rate}"));
        }
        // As many blanks as there are of GAS, but in other hours.
        let (first, second) = if gas_first { ("   ", "GAS") } else { ("GAS", "   ") };
        let exchanged = [(16, GAS_COLUMNS, first), (17, GAS_COLUMNS, second)];
        assert_eq!(answer_with(&page, &exchanged), "refused 49 16");
    }
}

/// On a 310 line: type, length, bytes, name, date, then GAS, then the value.
#[test]
fn faults_of_a_310_line_in_order() {
    let faults: [(u32, Columns, &str); 5] = [
        (2, Columns(1, 3), "311"),
        (4, Columns(18, 1), "\t"),
        (5, NAME, "STACK2"),
        (7, Columns(10, 8), "05070102"),
        (8, RATE, "       "),
    ];
    for (page, unpaired) in [
        (mixed(false), [(3, READING, "   0.8"), (17, GAS_COLUMNS, "GAS")]),
        (mixed(false), [(3, READING, "      "), (17, GAS_COLUMNS, "gas")]),
    ] {
        assert_eq!(answer_with(&page, &unpaired), "refused 49 17");
        for (number, columns, text) in faults {
            let changes = [unpaired[0], unpaired[1], (17, columns, text)];
            let first = if number == 8 { 49 } else { number };
            assert_eq!(answer_with(&page, &changes), format!("refused {first} 17"));
        }
        for length in [33, 35] {
            let mut page = page.clone();
            page.set(2, READING, unpaired[0].2.as_bytes());
            page.lines[16].resize(length, b' ');
            assert_eq!(answer(&page), "refused 3 17");
        }
    }
}

/// A blank value is no fault on its own line, whatever follows: any fault on the
/// lines between is found, and none behind the 310 line.
#[test]
fn faults_before_and_behind() {
    let mut page = mixed(true);
    page.set(2, READING, b"      ");
    assert_eq!(answer(&page), "refused 49 17");
    for line in 1..=page.lines.len() {
        let mut other = page.clone();
        other.lines[line - 1].push(b' ');
        let expected = if line <= 17 { format!("refused 3 {line}") } else { "refused 49 17".into() };
        assert_eq!(answer(&other), expected);
        other = page.clone();
        other.lines.truncate(line);
        let expected = if line < 17 { format!("refused 10 {}", line + 1) } else { "refused 49 17".into() };
        assert_eq!(answer(&other), expected);
    }
    for (line, record, value, text) in [
        (11, &R300, 1, "    0.0"),
        (15, &R301, 0, "       99.9"),
        (15, &R301, 4, "       99.9"),
        (16, &R310, 0, "   99.9"),
        (18, &R320, 1, "99.999"),
    ] {
        assert_eq!(answer_with(&page, &[(line, record.values[value].columns, text)]), "refused 49 17");
    }
}

/// Totals are those of the recorded figures, gas hours or not.
#[test]
fn totals_with_gas_hours() {
    let page = mixed(true);
    for (value, text, number) in [
        (0, "        0.1", 21),
        (1, "      136.9", 22),
        (2, "     1333.4", 23),
        (3, " 0.359", 24),
        (4, "        0.1", 48),
    ] {
        let answer = answer_with(&page, &[(15, R301.values[value].columns, text)]);
        assert_eq!(answer, format!("refused {number} 15"));
    }
    // 600.0 tenths of a pound in each of 2,208 hours are 66.24 tons.
    let hour = |hour_of_quarter| {
        let readings = Readings { so2: Gas(999_999), co2: 100, flow: 500_000, fc: 5_000, nox: 0 };
        Hour { hour_of_quarter, time: 100, readings, figures: [999_999, 600, 0, 28_500] }
    };
    let full = answer(&self::page((0..2_208).map(hour).collect(), vec![]));
    assert_eq!(full, "accepted 2208 662 62928000 2207997792 0 0");
}
