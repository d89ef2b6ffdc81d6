//! The cases of seed 1, what their files say line by line, and how often there is
//! each sort of thing.

use second::cases::Case;
use second::check::{check, Answer, Fault};
use second::conversion::convert;
use second::figures::{Gas, Monitor, Readings};
use second::generate::cases;
use second::layout::*;
use second::write::Order;
use std::collections::BTreeMap;
use std::ops::RangeInclusive;
use std::sync::LazyLock;

pub const COUNT: usize = 1_700;

/// The cases of seed 1.
pub static CASES: LazyLock<Vec<Case>> = LazyLock::new(|| cases(1, COUNT));

/// The files of seed 1, each with the number and line of its refusal, both 0
/// for an acceptance.
pub fn files() -> impl Iterator<Item = (&'static [u8], u32, usize)> {
    CASES.iter().filter_map(|case| match case {
        Case::File(bytes) => {
            let (number, line) = refusal(bytes);
            Some((bytes.as_slice(), number, line))
        }
        _ => None,
    })
}

/// What the writer is asked for in seed 1, with its room: sheets that are given so,
/// and those that are converted first.
pub fn sheets_to_write() -> impl Iterator<Item = (Order, usize)> {
    CASES.iter().filter_map(|case| match case {
        Case::Write { order, room } => Some((order.clone(), *room)),
        Case::Convert { order, room } => {
            let mut order = order.clone();
            convert(&mut order.words).ok()?;
            Some((order, *room))
        }
        _ => None,
    })
}

pub fn refusal(file: &[u8]) -> (u32, usize) {
    match check(file) {
        Answer::Accepted { .. } => (0, 0),
        Answer::Refused(Fault { number, line }) => (number, line),
    }
}

/// The lines of a file, the last one empty if the file ends in a line's end.
pub fn lines_of(file: &[u8]) -> Vec<&[u8]> {
    file.split(|&byte| byte == b'\n').collect()
}

/// The columns of a line, nothing if it does not reach so far.
pub fn text(line: &[u8], columns: Columns) -> &[u8] {
    line.get(columns.0 - 1..columns.0 - 1 + columns.1).unwrap_or_default()
}

pub fn is_listed(line: &[u8]) -> bool {
    line.starts_with(R300.kind)
}

/// The time on a 300 line.
pub fn time(line: &[u8]) -> Option<u128> {
    read_number(text(line, TIME.columns), TIME.decimals).filter(|_| is_listed(line))
}

pub fn is_idle(line: &[u8]) -> bool {
    time(line) == Some(0)
}

pub fn is_operating(line: &[u8]) -> bool {
    time(line).is_some_and(|time| time > 0)
}

/// Where the lines of the operating hours in a block of `HOURLY` stand.
pub fn operating_lines(lines: &[&[u8]], block: usize) -> Vec<usize> {
    let operating = |line: &[u8]| line.starts_with(HOURLY[block].kind) && !is_idle(line);
    (0..lines.len()).filter(|&index| operating(lines[index])).collect()
}

/// Time, readings and figures of the operating hours of a file whose lines are
/// right.
pub fn hours_of(file: &[u8]) -> Vec<(u128, Readings, [u128; 4])> {
    let lines = lines_of(file);
    let ranked: Vec<Vec<usize>> = (0..HOURLY.len()).map(|block| operating_lines(&lines, block)).collect();
    let hour = |rank: usize| {
        let entry = |block: usize, index: usize| {
            let value = &HOURLY[block].values[index];
            let text = value.columns.of(lines[ranked[block][rank]]);
            read_number(text, value.decimals).and_then(|number| value.recorded(number))
        };
        let number = |block, index| entry(block, index).unwrap();
        let so2 = entry(0, 0).map_or(Gas(number(4, 1)), Monitor);
        let [nox, co2, flow] = [1, 2, 3].map(|block| number(block, 0));
        let readings = Readings { so2, nox, co2, flow, fc: number(6, 0) };
        (number(4, 0), readings, [number(4, 1), number(5, 0), number(6, 1), number(7, 0)])
    };
    (0..ranked[0].len()).map(hour).collect()
}

/// How often there was each number.
pub type Times = BTreeMap<u32, usize>;

pub fn add(times: &mut Times, number: u32) {
    *times.entry(number).or_default() += 1;
}

pub fn sum(times: &Times, numbers: RangeInclusive<u32>) -> usize {
    times.range(numbers).map(|(_, times)| times).sum()
}

/// How often there was each sort of thing.
pub type Sorts = BTreeMap<&'static str, usize>;

/// Each of these sorts was there so often at least.
pub fn assert_sorts(sorts: &Sorts, wanted: &[&str], least: usize) {
    for sort in wanted {
        assert!(sorts.get(sort).is_some_and(|&times| times >= least), "{sort}: {sorts:?}");
    }
}
