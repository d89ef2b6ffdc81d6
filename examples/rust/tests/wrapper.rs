//! The wrapper's refusals are those of README.md and of include/edr.h; line 301 has NOx tons; words too large for a sheet are refused,
//! times of 0, and flows past their limit; quarters join in order and within their limits; what is too short for an answer is
//! left as it was; a recorder's readings are rounded by their exact values, and refused reading by reading; a kept sheet is
//! converted to the one that gives its report, or left as it was; README.md shows what the examples of the year to date, of a recorder's
//! hour and of a kept sheet print.

use std::collections::BTreeMap;

use edr::Reading::{self, Absent, Measured, Substituted};
use edr::{
    hour_word, word, Answer, Converted, Joined, Kind, Quarter, Recorded, RecorderHour, Written, YearToDate,
};

const README: &str = include_str!("../../../README.md");
const HEADER: &str = include_str!("../../../include/edr.h");
const YEAR_PRINTED: &str = include_str!("../../expected/year_to_date");
const HOUR_PRINTED: &str = include_str!("../../expected/recorder_hour");
const KEPT_PRINTED: &str = include_str!("../../expected/kept_sheet");
const WORKED_HOUR: &str = include_str!("../../../samples/worked-hour.txt");

/// Number and meaning of each row of the table of refusals.
fn rows() -> BTreeMap<u64, &'static str> {
    let cells = README.lines().filter_map(|line| line.strip_prefix("| ")?.split_once(" | "));
    cells.filter_map(|(number, rest)| Some((number.parse().ok()?, rest.split_once(" | ")?.0))).collect()
}

#[test]
fn meanings_are_those_of_the_readme() {
    let rows = rows();
    for number in 0..100 {
        assert_eq!(edr::meaning(number), rows.get(&number).copied().unwrap_or(edr::meaning(0)), "{number}");
    }
    assert!(!rows.is_empty() && !rows.contains_key(&0));
}

#[test]
fn the_header_names_the_same_numbers() {
    let named = HEADER.lines().filter_map(|line| line.trim().strip_prefix("EDR_REFUSAL_")?.split_once(" = "));
    let numbers = named.map(|(_, rest)| rest.split(|c: char| !c.is_ascii_digit()).next()?.parse().ok());
    let numbers: Option<Vec<u64>> = numbers.collect();
    assert_eq!(numbers, Some(rows().into_keys().collect()));
}

#[test]
fn line_301_has_nox_tons() {
    let accepted = Quarter { hours: 1, so2: 2, co2: 684, heat: 6_667, nox: 358, nox_tons: 1 };
    assert_eq!(edr::check(WORKED_HOUR.as_bytes()), Answer::Accepted(accepted));
    let lines_301 = [
        (" 0.358        0.2\n", 48),
        (" 0.359        0.2\n", 24),
        (" 0.358      9.9.9\n", 8),
        (" 0.358           \n", 8),
        (" 0.358\n", 3), // the former form
    ];
    for (end, number) in lines_301 {
        let file = WORKED_HOUR.replace(" 0.358        0.1\n", end);
        assert_eq!(edr::check(file.as_bytes()), Answer::Refused { number, line: 7 }, "{end}");
    }
}

#[test]
fn a_gas_hour_has_gas_and_no_so2_reading() {
    let gas_hour = WORKED_HOUR
        .replace("            250.0\n", "                 \n")
        .replace("         830.0   \n", "           0.8GAS\n")
        .replace("        0.2       68.4", "        0.0       68.4");
    let accepted = Quarter { hours: 1, so2: 0, co2: 684, heat: 6_667, nox: 358, nox_tons: 1 };
    assert_eq!(edr::check(gas_hour.as_bytes()), Answer::Accepted(accepted));
    let changes = [
        ("0.8GAS", "0.9GAS", 12, 8),
        ("0.8GAS", "0.8gas", 49, 8),
        ("                 \n", "            250.0\n", 49, 8),
        ("                 \n", "            25x.0\n", 8, 2),
    ];
    for (old, new, number, line) in changes {
        let file = gas_hour.replacen(old, new, 1);
        assert_eq!(edr::check(file.as_bytes()), Answer::Refused { number, line }, "{new}");
    }
}

/// What stands in elements that a call must leave.
const KEPT: u64 = 77;

#[test]
fn an_answer_too_short_is_left() {
    for (room, code) in [(0, 2), (5, 2), (6, 1), (7, 1)] {
        let mut answer = [KEPT; 8];
        // SAFETY: each pointer and length are those of memory that is borrowed for the call.
        let returned =
            unsafe { edr::edr_check(WORKED_HOUR.as_ptr(), WORKED_HOUR.len(), answer.as_mut_ptr(), room) };
        let filled = if code == 1 { [1, 2, 684, 6_667, 358, 1, KEPT, KEPT] } else { [KEPT; 8] };
        assert_eq!((returned, answer), (code, filled), "{room}");
    }
}

#[test]
fn a_record_too_short_is_left() {
    let previous = [2005, 1, 2160, 4_500, 1_500_000, 14_000_000, 2_600];
    let answer = [2184, 4_600, 1_600_000, 15_000_000, 361, 2_700];
    let joined = [2005, 2, 4344, 9_100, 3_100_000, 29_000_000, 5_300, KEPT];
    let lengths = [(7, 6, 7, 1), (6, 6, 7, 2), (7, 5, 7, 2), (7, 6, 6, 2)];
    for (previous_length, answer_length, room, code) in lengths {
        let mut record = [KEPT; 8];
        // SAFETY: each pointer is that of an array that is borrowed for the call and has at least so many elements.
        let returned = unsafe {
            edr::edr_year_to_date(
                previous.as_ptr(),
                previous_length,
                answer.as_ptr(),
                answer_length,
                2005,
                2,
                record.as_mut_ptr(),
                room,
            )
        };
        let filled = if code == 1 { joined } else { [KEPT; 8] };
        assert_eq!((returned, record), (code, filled), "{previous_length} {answer_length} {room}");
    }
}

/// What the writer says to a sheet of one hour.
fn written(sheet: [u32; edr::HOUR_WORDS]) -> Written {
    edr::write(2005, 3, b"STACK1", &sheet, &mut [0; edr::report_length(1)])
}

/// The worked hour with this flow.
fn with_flow(flow: u32) -> [u32; edr::HOUR_WORDS] {
    [
        hour_word(0, 50),
        word(Kind::So2, 2_500),
        word(Kind::Nox, 2_000),
        word(Kind::Co2, 120),
        word(Kind::Flow, flow),
        word(Kind::Fc, 18_000),
    ]
}

#[test]
fn words_out_of_range_are_refused() {
    let sheet = with_flow(20_000);
    assert_eq!(written(sheet), Written::Length(393));
    let out_of_range = [
        (0, hour_word(0, 0), 32),
        (0, hour_word(0, 128 + 50), 32),
        (0, hour_word(1 << 25, 50), 31),
        (0, word(Kind::Hour, u32::MAX), 31),
        (1, word(Kind::So2, 1 << 29 | 2_500), 32),
        (2, word(Kind::Nox, 1 << 30 | 2_000), 32),
        (3, word(Kind::Co2, 1 << 31 | 120), 32),
        (4, word(Kind::Flow, 10_000_000), 32),
        (4, word(Kind::Flow, 20_000_000), 32), // scfh, as they were kept
        (4, word(Kind::Flow, 9_999_999), 33),
        (5, word(Kind::Fc, 1 << 29 | 18_000), 32),
    ];
    for (place, word, number) in out_of_range {
        let mut sheet = sheet;
        sheet[place] = word;
        assert_eq!(written(sheet), Written::Refused(number), "{place}: {word:#x}");
    }
}

const FIRST: Quarter =
    Quarter { hours: 2160, so2: 4_500, co2: 1_500_000, heat: 14_000_000, nox: 358, nox_tons: 2_600 };
const SECOND: Quarter =
    Quarter { hours: 2184, so2: 4_600, co2: 1_600_000, heat: 15_000_000, nox: 361, nox_tons: 2_700 };

/// The year 2005 after the first of them, and after both.
const AFTER_ONE: YearToDate = YearToDate {
    year: 2005,
    quarter: 1,
    hours: 2160,
    so2: 4_500,
    co2: 1_500_000,
    heat: 14_000_000,
    nox_tons: 2_600,
};
const AFTER_TWO: YearToDate = YearToDate {
    year: 2005,
    quarter: 2,
    hours: 4344,
    so2: 9_100,
    co2: 3_100_000,
    heat: 29_000_000,
    nox_tons: 5_300,
};

#[test]
fn quarters_join_in_order() {
    let none = YearToDate::none(2005);
    assert_eq!(edr::join(none, 2005, 1, FIRST), Joined::Record(AFTER_ONE));
    assert_eq!(edr::join(AFTER_ONE, 2005, 2, SECOND), Joined::Record(AFTER_TWO));
    assert_eq!(Joined::Record(AFTER_TWO).to_string(), "year to date 2005 2 4344 9100 3100000 29000000 5300");
    let out_of_order = [
        (none, 2005, 0),
        (none, 2005, 2),
        (none, 2006, 1),
        (AFTER_ONE, 2005, 1),
        (AFTER_ONE, 2005, 3),
        (AFTER_ONE, 2006, 2),
        (YearToDate { quarter: 4, ..AFTER_ONE }, 2005, 5),
        (YearToDate { quarter: 4, ..AFTER_ONE }, 2006, 1),
        (YearToDate { quarter: u64::MAX, ..AFTER_ONE }, 2005, 0),
        (YearToDate { quarter: 0, ..AFTER_ONE }, 2005, 1),
        (YearToDate { hours: 1, ..none }, 2005, 1),
        (YearToDate { so2: 1, ..none }, 2005, 1),
        (YearToDate { co2: 1, ..none }, 2005, 1),
        (YearToDate { heat: 1, ..none }, 2005, 1),
        (YearToDate { nox_tons: 1, ..none }, 2005, 1),
    ];
    for (previous, year, quarter) in out_of_order {
        let joined = edr::join(previous, year, quarter, SECOND);
        assert_eq!(joined, Joined::Refused(41), "{previous} {year} {quarter}");
    }
}

#[test]
fn quarters_join_within_their_limits() {
    const MOST_HOURS: u64 = edr::MOST_HOURS as u64;
    const MOST: u64 = 9_999_999_999;
    let previous = YearToDate {
        hours: 2 * MOST_HOURS,
        so2: MOST,
        co2: MOST - 1,
        heat: 0,
        nox_tons: MOST - 2,
        ..AFTER_TWO
    };
    let answer = Quarter { hours: MOST_HOURS, so2: 0, co2: 1, heat: MOST, nox: u64::MAX, nox_tons: 2 };
    let joined = |previous, answer| edr::join(previous, 2005, 3, answer);
    let most = YearToDate {
        quarter: 3,
        hours: 3 * MOST_HOURS,
        so2: MOST,
        co2: MOST,
        heat: MOST,
        nox_tons: MOST,
        ..previous
    };
    assert_eq!(joined(previous, answer), Joined::Record(most));
    let beyond = [
        (YearToDate { hours: previous.hours + 1, ..previous }, answer, 41),
        (previous, Quarter { hours: answer.hours + 1, ..answer }, 41),
        (previous, Quarter { so2: 1, ..answer }, 42),
        (previous, Quarter { co2: 2, ..answer }, 42),
        (YearToDate { heat: 1, ..previous }, answer, 42),
        (previous, Quarter { nox_tons: 3, ..answer }, 42),
        (YearToDate { nox_tons: u64::MAX, ..previous }, answer, 42),
        (previous, Quarter { hours: answer.hours + 1, nox_tons: 3, ..answer }, 41),
        (YearToDate { so2: u64::MAX, ..previous }, Quarter { so2: u64::MAX, ..answer }, 42),
        (previous, Quarter { hours: u64::MAX, so2: u64::MAX, ..answer }, 41),
    ];
    for (previous, answer, number) in beyond {
        assert_eq!(joined(previous, answer), Joined::Refused(number), "{previous} {answer:?}");
    }
}

const HOUR: RecorderHour = RecorderHour {
    so2: Measured(250.0),
    nox: Measured(200.0),
    co2: Measured(12.0),
    flow: Measured(20_000_000.0),
};

/// What it is recorded as.
const VALUES: [u32; edr::RECORDER_READINGS] = [2_500, 2_000, 120, 20_000];

/// The hour with another reading at a place of SO2, NOx, CO2, flow.
fn with(place: usize, reading: Reading) -> RecorderHour {
    let mut hour = HOUR;
    *[&mut hour.so2, &mut hour.nox, &mut hour.co2, &mut hour.flow][place] = reading;
    hour
}

/// The answer of these values, with so many readings substituted.
fn recorded([so2, nox, co2, flow]: [u32; edr::RECORDER_READINGS], substituted: u32) -> Recorded {
    let words = [word(Kind::So2, so2), word(Kind::Nox, nox), word(Kind::Co2, co2), word(Kind::Flow, flow)];
    Recorded::Words { words, substituted }
}

#[test]
fn readings_are_rounded_by_their_exact_values() {
    let ppm = [
        (0.0, 0),
        (-0.0, 0),
        (0_f64.next_up(), 0),
        (0.05_f64.next_down(), 0),
        (0.05, 1),
        (0.15, 1),
        (0.25, 3),
        (9_999.95_f64.next_down(), 99_999),
    ];
    let percent = [(0.05, 1), (0.15, 1), (12.25, 123), (100.0, 1_000), (100.05, 1_000)];
    let scfh = [
        (0.0, 0),
        (-0.0, 0),
        (500_f64.next_down(), 0),
        (500.0, 1),
        (20_000_500.0, 20_001),
        (500_000_500.0, 500_001),
        (9_999_999_499.9, 9_999_999),
    ];
    for (place, readings) in [&ppm[..], &ppm, &percent, &scfh].into_iter().enumerate() {
        for &(reading, value) in readings {
            let mut values = VALUES;
            values[place] = value;
            for (reading, substituted) in [(Measured(reading), 0), (Substituted(reading), 1)] {
                let hour = with(place, reading);
                assert_eq!(edr::recorder_words(hour), recorded(values, substituted), "{hour:?}");
            }
        }
    }
}

#[test]
fn substituted_readings_are_counted() {
    let mut hour = HOUR;
    assert_eq!(edr::recorder_words(hour), recorded(VALUES, 0));
    hour.nox = Substituted(200.0);
    assert_eq!(edr::recorder_words(hour), recorded(VALUES, 1));
    hour.flow = Substituted(20_000_000.0);
    assert_eq!(edr::recorder_words(hour), recorded(VALUES, 2));
    hour.so2 = Substituted(250.0);
    assert_eq!(edr::recorder_words(hour), recorded(VALUES, 3));
    hour.co2 = Substituted(12.0);
    assert_eq!(edr::recorder_words(hour), recorded(VALUES, 4));
    assert_eq!(edr::recorder_words(hour).to_string(), "recorded 2500 2000 120 20000 4");
}

#[test]
fn readings_are_refused_each_by_itself() {
    let least_too_large = [9_999.95, 9_999.95, 100.05_f64.next_up(), 9_999_999_500.0];
    for (place, too_large) in least_too_large.into_iter().enumerate() {
        let refused = [
            (Absent, 44),
            (Measured(-1.0), 45),
            (Measured((-0.0_f64).next_down()), 45),
            (Measured(f64::NAN), 45),
            (Measured(-f64::NAN), 45),
            (Measured(f64::INFINITY), 45),
            (Measured(f64::NEG_INFINITY), 45),
            (Substituted(-1.0), 45),
            (Measured(too_large), 46),
            (Substituted(too_large), 46),
            (Measured(f64::MAX), 46),
        ];
        for (reading, number) in refused {
            let hour = with(place, reading);
            assert_eq!(edr::recorder_words(hour), Recorded::Refused(number), "{hour:?}");
        }
    }
    for co2 in [0.0, -0.0, 0.05_f64.next_down()] {
        let hour = RecorderHour { co2: Measured(co2), ..HOUR };
        assert_eq!(edr::recorder_words(hour), Recorded::Refused(46), "{co2}");
    }
}

#[test]
fn the_first_reading_that_is_refused_counts() {
    let refused = [
        (RecorderHour { so2: Measured(-1.0), nox: Absent, ..HOUR }, 45),
        (RecorderHour { so2: Measured(10_000.0), nox: Absent, co2: Measured(-1.0), ..HOUR }, 46),
        (RecorderHour { nox: Absent, co2: Measured(f64::NAN), flow: Measured(1e9), ..HOUR }, 44),
        (RecorderHour { co2: Measured(0.0), flow: Absent, ..HOUR }, 46),
    ];
    for (hour, number) in refused {
        assert_eq!(edr::recorder_words(hour), Recorded::Refused(number), "{hour:?}");
    }
}

#[test]
fn kept_sheets_are_converted_once() {
    let mut sheet = [with_flow(20_000_000), with_flow(500_000_000)].concat();
    assert_eq!(edr::convert(&mut sheet), Converted::Done);
    assert_eq!(sheet, [with_flow(20_000), with_flow(500_000)].concat());
    assert_eq!(edr::convert(&mut sheet), Converted::Done);
    assert_eq!(sheet, [with_flow(20), with_flow(500)].concat());
    assert_eq!(edr::convert(&mut sheet), Converted::Refused(50));
    assert_eq!(sheet, [with_flow(20), with_flow(500)].concat());
    assert_eq!(edr::convert(&mut []), Converted::Done);
    assert_eq!(Converted::Done.to_string(), "converted");
}

#[test]
fn kept_sheets_that_are_wrong_are_left() {
    let kept = [with_flow(20_000_000), with_flow(20_000_500)].concat();
    let mut unlike = kept.clone();
    unlike[0] = word(Kind::So2, 50);
    let most: Vec<u32> = (0..=edr::MOST_HOURS).flat_map(|_| with_flow(1_000)).collect();
    let wrong = [(&kept[..], 50), (&kept[..11], 31), (&unlike, 31), (&most, 31)];
    for (kept, number) in wrong {
        let mut sheet = kept.to_vec();
        assert_eq!(edr::convert(&mut sheet), Converted::Refused(number));
        assert_eq!(sheet, kept, "{number}");
    }
    let mut longest = most[..edr::HOUR_WORDS * edr::MOST_HOURS].to_vec();
    assert_eq!(edr::convert(&mut longest), Converted::Done);
    assert!(longest.chunks(edr::HOUR_WORDS).all(|words| words == with_flow(1)));
}

#[test]
fn the_readme_shows_lines_of_the_examples() {
    for (start, printed) in [
        ("    year to date ", YEAR_PRINTED),
        ("    recorded ", HOUR_PRINTED),
        ("    converted", KEPT_PRINTED),
    ] {
        let block = README.split("\n\n").find(|block| block.lines().any(|line| line.starts_with(start)));
        let shown: Vec<&str> = block.into_iter().flat_map(str::lines).map(str::trim_start).collect();
        let printed: Vec<&str> = printed.lines().filter(|line| !line.starts_with("written ")).collect();
        assert!(!shown.is_empty() && printed.starts_with(&shown), "{start}");
    }
}
