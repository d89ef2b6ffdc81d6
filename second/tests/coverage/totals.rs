//! Line 301 and its totals: which of several wrong ones is named, NOx tons that
//! are right, wrong, on half a tenth, in no format or missing.

use super::files::*;
use second::figures::FIGURES;
use second::generate::recorder::column_limits;
use second::generate::tons::{FORMER_MOST_PASSING, FORMER_MOST_WRITTEN, MOST_WRITTEN};
use second::layout::*;
use std::collections::BTreeMap;

const NUMBERS: [u32; 5] = [21, 22, 23, 24, 48];
const TONS: &Value = &R301.values[4];

/// Half a tenth of a ton, in millionths of pounds.
const HALF: u128 = 100_000_000;

/// What a digit in the first column of NOx tons adds to them.
const FIRST_COLUMN: u128 = 1_000_000_000;

/// The 301 line of a file, if it has one.
fn totals_line<'a>(lines: &[&'a [u8]]) -> Option<&'a [u8]> {
    lines.iter().find(|line| line.starts_with(R301.kind)).copied()
}

/// The totals on a line, each if it is a number.
fn given(line: &[u8]) -> [Option<u128>; 5] {
    [0, 1, 2, 3, 4].map(|index| {
        let value = &R301.values[index];
        read_number(text(line, value.columns), value.decimals)
    })
}

/// The sums behind the totals of a file whose lines are right, and the unit in
/// which each is rounded.
fn sums(file: &[u8]) -> [(u128, u128); 5] {
    let mut sums = [(0, 200_000), (0, 100), (0, 100), (0, 1), (0, 2 * HALF)];
    let hours = hours_of(file);
    for (time, _, [heat, so2, nox, co2]) in &hours {
        let parts = [so2 * time, co2 * time, heat * time, *nox, nox * heat * time];
        sums.iter_mut().zip(parts).for_each(|((sum, _), part)| *sum += part);
    }
    sums[3].1 = hours.len().max(1) as u128;
    sums
}

/// Whether a total is its sum, rounded: half a unit less does not pass it, half a
/// unit more does.
fn is_rounded(total: u128, (sum, unit): (u128, u128)) -> bool {
    2 * unit * total <= 2 * sum + unit && 2 * sum < 2 * unit * total + unit
}

/// The totals on the line of a file whose lines are right that differ from those
/// formed.
fn wrong_totals(file: &[u8]) -> Vec<u32> {
    let line = totals_line(&lines_of(file)).expect("a line with totals");
    let right = |index: usize| given(line)[index].is_some_and(|total| is_rounded(total, sums(file)[index]));
    (0..5).filter(|&index| !right(index)).map(|index| NUMBERS[index]).collect()
}

/// The first of all totals that differ is named, after any figure that fails.
/// Every other differs beside it now and then; and each differs alone.
#[test]
fn the_first_total_that_differs() {
    let mut pairs = BTreeMap::<(u32, u32), usize>::new();
    for (file, number, _) in files().filter(|&(_, number, _)| number == 0 || number > 10) {
        if [43, 47, 49].contains(&number) {
            continue;
        }
        let wrong = wrong_totals(file);
        if number == 0 || NUMBERS.contains(&number) {
            assert_eq!(wrong.first().copied().unwrap_or(0), number);
        }
        let alone = wrong.len() == 1;
        wrong.iter().filter(|&&other| other != number || alone).for_each(|&other| {
            *pairs.entry((number, other)).or_default() += 1;
        });
    }
    for (index, number) in NUMBERS.into_iter().enumerate() {
        for other in &NUMBERS[index..] {
            let times = pairs.get(&(number, *other)).copied().unwrap_or(0);
            assert!(times >= if number == *other { 20 } else { 4 }, "{number} {other} {pairs:?}");
        }
    }
    for figure in 11..=14 {
        assert!(pairs.contains_key(&(figure, 48)), "{figure} {pairs:?}");
    }
}

/// NOx tons that differ: by one, by what 32 bits do not hold, as another total,
/// or at the end of their columns; with and without operating and idle hours.
#[test]
fn nox_tons_that_differ() {
    let mut sorts = Sorts::new();
    for (file, ..) in files().filter(|&(_, number, _)| number == 48) {
        let lines = lines_of(file);
        let Some([Some(so2), _, _, Some(mean), Some(tons)]) = totals_line(&lines).map(given) else {
            continue;
        };
        let (sum, unit) = sums(file)[4];
        let right = (2 * sum + unit) / (2 * unit);
        for (sort, has) in [
            ("one up", tons == right + 1),
            ("one down", tons + 1 == right),
            ("right in 32 bits", tons % (1 << 32) == right),
            ("at the end of the columns", tons >= TONS.largest() - 1),
            ("more than any quarter has", tons == 110_398_787),
            ("right but for the first column", tons != right && tons % FIRST_COLUMN == right),
            ("the mean", tons == mean && mean > 0),
            ("SO2 tons", tons == so2 && so2 > 0),
            ("half a tenth, rounded down", sum % unit == HALF && tons == sum / unit),
            ("below half a tenth, rounded up", sum % unit == HALF - 1 && tons == sum / unit + 1),
            ("no operating hours", hours_of(file).is_empty()),
            ("idle hours", lines.iter().any(|line| is_idle(line))),
        ] {
            *sorts.entry(sort).or_default() += usize::from(has);
        }
    }
    assert_sorts(&sorts, &["one up", "one down", "no operating hours", "idle hours"], 10);
    assert_sorts(&sorts, &["right in 32 bits", "half a tenth, rounded down"], 4);
    assert_sorts(&sorts, &["below half a tenth, rounded up"], 4);
    assert_sorts(&sorts, &["right but for the first column"], 2);
    let few = ["at the end of the columns", "more than any quarter has", "the mean", "SO2 tons"];
    assert_sorts(&sorts, &few, 1);
}

/// NOx tons that are right: on half a tenth, just below it, none, and of the
/// heaviest hours; with idle hours, and with zeros before the number.
#[test]
fn nox_tons_that_are_right() {
    let [heaviest, former] =
        [MOST_WRITTEN, FORMER_MOST_WRITTEN].map(|hour| FIGURES.map(|figure| figure.of_recorded(&hour)));
    let mut sorts = Sorts::new();
    for (file, ..) in files().filter(|&(_, number, _)| number == 0) {
        let lines = lines_of(file);
        let hours = hours_of(file);
        let (sum, unit) = sums(file)[4];
        let columns = text(totals_line(&lines).expect("a line with totals"), TONS.columns);
        for (sort, has) in [
            ("half a tenth", sum % unit == HALF),
            ("just below half a tenth", sum % unit == HALF - 1),
            ("none", sum == 0),
            ("many", sum > 100 * unit),
            ("of the heaviest hours", hours.iter().any(|(_, _, figures)| *figures == heaviest)),
            ("of the former heaviest written ones", hours.iter().any(|(_, _, figures)| *figures == former)),
            (
                "of the former heaviest that pass",
                hours.iter().any(|(_, _, figures)| *figures == FORMER_MOST_PASSING.1),
            ),
            ("with idle hours", sum > unit && lines.iter().any(|line| is_idle(line))),
            ("zeros before", columns.starts_with(b"00")),
        ] {
            *sorts.entry(sort).or_default() += usize::from(has);
        }
    }
    assert_sorts(&sorts, &["half a tenth", "just below half a tenth"], 5);
    assert_sorts(&sorts, &["none", "many", "with idle hours", "zeros before"], 10);
    let heavy =
        ["of the heaviest hours", "of the former heaviest written ones", "of the former heaviest that pass"];
    assert_sorts(&sorts, &heavy, 1);
}

/// Whether NOx tons are no number, but would be without their first column.
fn by_first_column(tons: &[u8]) -> bool {
    let read = |text| read_number(text, TONS.decimals);
    !tons.is_empty() && read(tons).is_none() && read(&tons[1..]).is_some()
}

/// Lines 301 of the old length, and of others; NOx tons that are blank or in no
/// format, beside such a mean and other wrong totals.
#[test]
fn nox_tons_that_are_missing_or_no_number() {
    let mut sorts = Sorts::new();
    for (file, number, line) in files().filter(|(_, number, _)| [3, 8].contains(number)) {
        let there = lines_of(file)[line - 1];
        let tons = text(there, TONS.columns);
        let [_, _, _, mean, number_of_tons] = given(there);
        if !there.starts_with(R301.kind) || (number == 8 && number_of_tons.is_some()) {
            continue;
        }
        let others_wrong = number == 8 && wrong_totals(file).first().is_some_and(|&first| first < 24);
        for (sort, has) in [
            ("old length", number == 3 && there.len() == 48),
            ("another length", number == 3 && there.len() != 48),
            ("blank", number == 8 && mean.is_some() && is_blank(tons)),
            ("no number", number == 8 && mean.is_some() && !is_blank(tons)),
            ("no number by the first column", number == 8 && mean.is_some() && by_first_column(tons)),
            ("no mean either", number == 8 && mean.is_none()),
            ("beside wrong totals", mean.is_some() && others_wrong),
            ("no mean either, beside wrong totals", mean.is_none() && others_wrong),
        ] {
            *sorts.entry(sort).or_default() += usize::from(has);
        }
    }
    let wanted = [
        "old length",
        "another length",
        "blank",
        "no number",
        "no number by the first column",
        "no mean either",
        "beside wrong totals",
        "no mean either, beside wrong totals",
    ];
    assert_sorts(&sorts, &wanted, 3);
}

/// The most heat times NOx rate that there is with any CO2 and Fc, given the largest
/// figures of both: less flow or NOx has less heat or a lower rate.
fn most_nox(heat: fn(u64, u64) -> u64, rate: fn(u64, u64) -> u64) -> u128 {
    let [heat_limit, _, rate_limit, _] = column_limits().map(|limit| limit as u64);
    let mut most = 0;
    for co2 in 1..=1_000 {
        for fc in 5_000..=30_000 {
            most = most.max(heat(co2, fc).min(heat_limit) * rate(co2, fc).min(rate_limit));
        }
    }
    most.into()
}

/// The hours that are called those with the most NOx: no hour has more.
#[test]
fn hours_with_the_most_nox() {
    let written = FIGURES.map(|figure| figure.of_recorded(&MOST_WRITTEN));
    assert!(FLOW.in_range(MOST_WRITTEN.flow * FLOW.unit));
    // CO2 fits, and the others are the largest that their columns hold.
    let limits = column_limits();
    assert!(written[..3] == limits[..3] && written[3] <= limits[3]);
}

/// Of those with flows up to the former limit, no written hour has more, and none
/// that passes.
#[test]
fn former_hours_with_the_most_nox() {
    let written = FIGURES.map(|figure| figure.of_recorded(&FORMER_MOST_WRITTEN));
    assert!(written.iter().zip(column_limits()).all(|(&figure, limit)| figure <= limit));
    let rounded = most_nox(
        |co2, fc| (200 * 500_000 * co2 + fc) / (2 * fc),
        |co2, fc| (2 * 1_194 * fc * 99_999 + 1_000_000 * co2) / (2_000_000 * co2),
    );
    assert_eq!(rounded, written[0] * written[2]);
    let (readings, figures) = FORMER_MOST_PASSING;
    assert!(FIGURES.iter().zip(figures).all(|(figure, number)| figure.possible(&readings, number)));
    // In halves, the figures' spans start below the value of the readings' spans' ends;
    // for the rate, where that of CO2 starts.
    let possible = most_nox(
        |co2, fc| ((100 * 1_000_001 * (2 * co2 + 1) - 1) / (2 * fc)).div_ceil(2),
        |co2, fc| ((2 * 1_194 * fc * 199_999 - 1) / (1_000_000 * (2 * co2 - 1))).div_ceil(2),
    );
    assert_eq!(possible, figures[0] * figures[2]);
}
