//! What the cases of a seed contain: every answer often enough, in any hour,
//! and the same bytes each time.

#[path = "coverage/conversions.rs"]
mod conversions;
#[path = "coverage/files.rs"]
mod files;
#[path = "coverage/gas_hours.rs"]
mod gas_hours;
#[path = "coverage/idle_hours.rs"]
mod idle_hours;
#[path = "coverage/large_flows.rs"]
mod large_flows;
#[path = "support/numbers.rs"]
mod numbers;
#[path = "coverage/sheets.rs"]
mod sheets;
#[path = "coverage/totals.rs"]
mod totals;

use files::*;
use numbers::{every_size, numbers, sizes_in, Name, Size};
use second::cases::{decode, Answering, Case, FILL};
use second::figures::{Figure, Readings};
use second::generate::{cases, tight};
use second::layout::*;
use second::list::{count, number_of};
use second::report::place;
use second::write::write;
use std::collections::BTreeMap;

#[test]
fn every_refusal_occurs_often() {
    for seed in [1, 2, 3] {
        let all = cases(seed, COUNT);
        assert!(all.len() >= 2_000);
        let (counts, _) = count(&all);
        for number in (1..=14).chain(21..=24).chain(31..=34).chain([43, 47, 48, 49, 50]) {
            let times: usize = counts.get(&number).map_or(0, |row| row.iter().sum());
            assert!(times >= 15, "seed {seed}: refusal {number} occurs {times} times");
        }
        for good in counts[&0] {
            assert!(good >= 100);
        }
        for number in 31..=34 {
            let [_, written, converted, _] = counts[&number];
            assert!(written >= 30 && converted >= 30, "seed {seed}: {number} {written} {converted}");
        }
    }
}

#[test]
fn cases_follow_from_the_seed_alone() {
    let encoded = |seed, count| {
        let mut bytes = Vec::new();
        cases(seed, count).iter().for_each(|case| case.encode(&mut bytes));
        bytes
    };
    let bytes = encoded(1, COUNT);
    assert!(bytes.len() <= 3_900_000);
    assert_eq!(bytes, encoded(1, COUNT));
    assert_ne!(encoded(1, 50), encoded(2, 50));
    assert_eq!(decode(&bytes).as_ref(), Some(&*CASES));
}

/// Figures fail in first, middle and last hours; each written report is
/// accepted; changes follow only on a successful write and stay inside it.
#[test]
fn cases_are_well_formed_and_spread_over_the_hours() {
    let mut answering = Answering::default();
    let mut written = None;
    let mut later = [0; 4];
    let mut first = [0; 4];
    for case in CASES.iter() {
        let answer = answering.answer(case);
        match case {
            Case::Write { order, room } | Case::Convert { order, room } => {
                let told = answer.iter().find_map(|line| line.strip_prefix("written "));
                written = told.map(|rest| {
                    let length: usize = rest.split(' ').next().unwrap().parse().unwrap();
                    assert!(length <= *room && length == 75 + 53 * order.words.len());
                    let accepted = format!("accepted {} ", order.words.len() / 6);
                    assert!(answer.last().is_some_and(|line| line.starts_with(&accepted)));
                    length
                });
            }
            Case::Patch(edits) => {
                let length = written.expect("a change follows a written report");
                assert!(edits.iter().all(|&(offset, _)| offset < length));
            }
            Case::File(bytes) => {
                let number = number_of(&answer) as usize;
                if (11..=14).contains(&number) {
                    let line: usize = answer[0].rsplit(' ').next().unwrap().parse().unwrap();
                    let ranked = operating_lines(&lines_of(bytes), number - 7);
                    let rank = ranked.iter().position(|&index| index == line - 1);
                    if rank.expect("the line of a figure") == 0 {
                        first[number - 11] += 1
                    } else {
                        later[number - 11] += 1
                    }
                }
            }
        }
    }
    assert!(first.iter().chain(&later).all(|&times| times >= 10), "{first:?} {later:?}");
}

/// The columns of flow on a line, if it is a whole 220 line.
fn flow_columns(line: &[u8]) -> Option<&[u8]> {
    let whole = line.starts_with(R220.kind) && line.len() == R220.length;
    whole.then(|| FLOW.columns.of(line))
}

/// The flow on a line, if it is one and no whole thousand.
fn uneven_flow(line: &[u8]) -> Option<u128> {
    let flow = read_number(flow_columns(line)?, FLOW.decimals)?;
    FLOW.recorded(flow).is_none().then_some(flow)
}

/// Whether the columns of flow hold no number, and the digits among them one
/// that is no whole thousand.
fn broken_uneven_flow(line: &[u8]) -> bool {
    flow_columns(line).is_some_and(|text| {
        let digits: Vec<u8> = text.iter().copied().filter(u8::is_ascii_digit).collect();
        let number = read_number(&digits, FLOW.decimals);
        read_number(text, FLOW.decimals).is_none() && number.is_some_and(|n| FLOW.recorded(n).is_none())
    })
}

/// The file with every flow cut to its whole thousand.
fn evened(file: &[u8]) -> Vec<u8> {
    let mut lines: Vec<Vec<u8>> = file.split(|&byte| byte == b'\n').map(<[u8]>::to_vec).collect();
    for line in &mut lines {
        if let Some(flow) = uneven_flow(line) {
            let text = format!("{:>10}", flow / FLOW.unit * FLOW.unit);
            FLOW.columns.of_mut(line).copy_from_slice(text.as_bytes());
        }
    }
    lines.join(&b'\n')
}

/// Flow that is no whole thousand, whatever is left over, in first and later
/// hours; alone, before other faults and behind them; too large or no number.
#[test]
fn flows_that_are_no_whole_thousand() {
    let [mut remainders, mut faults_behind, mut faults_before] = [(); 3].map(|()| Times::new());
    let (mut first, mut later, mut too_large, mut broken) = (0, 0, 0, 0);
    for (file, number, line) in files() {
        let lines = lines_of(file);
        match number {
            43 => {
                let flow = uneven_flow(lines[line - 1]).expect("no whole thousand");
                add(&mut remainders, (flow % FLOW.unit) as u32);
                add(&mut faults_behind, refusal(&evened(file)).0);
                if lines[line - 2].starts_with(R220.kind) {
                    later += 1;
                } else {
                    first += 1;
                }
            }
            9 if uneven_flow(lines[line - 1]).is_some() => too_large += 1,
            8 if broken_uneven_flow(lines[line - 1]) => broken += 1,
            _ if lines.iter().any(|line| uneven_flow(line).is_some()) => add(&mut faults_before, number),
            _ => {}
        }
    }
    assert!([1, 500, 999].iter().all(|over| remainders[over] >= 20), "{remainders:?}");
    assert!(remainders.len() >= 20, "{remainders:?}");
    assert!(first >= 40 && later >= 40, "{first} {later}");
    assert!(too_large >= 20 && broken >= 20, "{too_large} {broken}");
    for (numbers, least) in [(0..=0, 40), (2..=10, 20), (11..=14, 20)] {
        assert!(sum(&faults_behind, numbers) >= least, "{faults_behind:?}");
    }
    let totals_behind = sum(&faults_behind, 21..=24) + sum(&faults_behind, 48..=48);
    assert!(totals_behind >= 10, "{faults_behind:?}");
    assert!([2, 3, 4, 5, 7].iter().all(|number| faults_before[number] >= 2), "{faults_before:?}");
    assert!(sum(&faults_before, 2..=9) >= 30, "{faults_before:?}");
}

/// Heat whose span the readings' values only just miss, at either edge, and the
/// figure next to it, which passes.
#[test]
fn heat_that_is_met_exactly() {
    let meets = |readings: &Readings, heat, upper| tight::meets(Figure::Heat, readings, heat, upper);
    let (mut missed, mut beside) = ([0; 2], [0; 2]);
    for (file, number, _) in files().filter(|(_, number, _)| [0, 11].contains(number)) {
        for (_, readings, [heat, ..]) in hours_of(file) {
            for upper in [true, false] {
                let outward = if upper { heat + 1 } else { heat.saturating_sub(1) };
                if number == 11 && meets(&readings, heat, upper) {
                    missed[usize::from(upper)] += 1;
                } else if number == 0 && meets(&readings, outward, upper) {
                    beside[usize::from(upper)] += 1;
                }
            }
        }
    }
    assert!(missed.iter().chain(&beside).all(|&times| times >= 10), "{missed:?} {beside:?}");
}

/// Hours with flow 0: figures above 0 that pass, and one past the last of them.
#[test]
fn hours_without_flow() {
    let (mut passed, mut past) = ([0; 4], [0; 4]);
    for (file, number, _) in files().filter(|(_, number, _)| [0, 11, 12, 14].contains(number)) {
        for (_, readings, figures) in hours_of(file).iter().filter(|(_, readings, _)| readings.flow == 0) {
            for figure in [Figure::Heat, Figure::So2, Figure::Co2] {
                let index = place(figure);
                if number == 0 && figures[index] > 0 {
                    passed[index] += 1;
                } else if figures[index] == figure.edges(readings).1 + 1 {
                    past[index] += 1;
                }
            }
        }
    }
    // A CO2 figure of such an hour is always 0.
    assert!(passed[0] >= 20 && passed[1] >= 20 && passed[3] == 0, "{passed:?}");
    assert!([0, 1, 3].iter().all(|&index| past[index] >= 8), "{past:?}");
}

/// The written reports of seed 1, each with the bytes of its buffer behind it.
fn written() -> impl Iterator<Item = (Vec<u8>, Vec<u8>)> {
    sheets_to_write().filter_map(|(order, room)| {
        let mut report = vec![FILL; room];
        let length = write(&order, &mut report).ok()?;
        let behind = report.split_off(length);
        Some((report, behind))
    })
}

/// Sizes in which no number is written here; `compare/` has them written.
const MISSING: [(Name, Size); 4] = [
    (Name::Date, Size::Largest),
    (Name::So2Total, Size::Digits(6)),
    (Name::Co2Total, Size::Largest),
    (Name::NoxTons, Size::Digits(8)),
];

/// Every number is written at its least, at its largest and with each number of
/// digits, but for these.
#[test]
fn sizes_of_written_numbers() {
    let mut times: BTreeMap<(Name, Size), usize> = every_size().into_iter().map(|size| (size, 0)).collect();
    for size in written().flat_map(|(report, _)| sizes_in(&report)) {
        *times.get_mut(&size).expect("a size that there can be") += 1;
    }
    times.retain(|_, times| *times == 0);
    assert_eq!(times.into_keys().collect::<Vec<_>>(), MISSING);
}

/// The columns of CO2 and of the totals in tenths hold more than there can be: a
/// larger CO2 figure has too large a heat beside it, and no quarter has more hours.
#[test]
fn largest_figures_and_totals() {
    for (name, largest) in [
        (Name::Heat, 999_999),
        (Name::So2Rate, 999_999),
        (Name::NoxRate, 99_999),
        (Name::Co2Rate, 171_000),
        (Name::So2Total, 1_103_999),
        (Name::Co2Total, 377_568_000),
        (Name::HeatTotal, 2_207_997_792),
        (Name::NoxMean, 99_999),
        (Name::NoxTons, 110_398_786),
    ] {
        let number = numbers().into_iter().find(|number| number.name == name);
        assert_eq!(number.and_then(|number| number.ends().pop()), Some(largest), "{name:?}");
    }
}

/// Buffers as long as the report, one byte longer, and longer by more; the bytes
/// behind the report are as they were.
#[test]
fn rooms_of_written_reports() {
    let mut rooms = [0; 3];
    for (_, behind) in written() {
        rooms[behind.len().min(2)] += 1;
        assert!(behind.iter().all(|&byte| byte == FILL));
    }
    assert!(rooms[0] >= 100 && rooms[1] >= 25 && rooms[2] >= 40, "{rooms:?}");
}
