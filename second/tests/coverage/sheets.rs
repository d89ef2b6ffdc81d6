//! Sheets of the present form: each reason of refusal, alone and before others, the
//! ends of all ranges, and flows about the former limit and the present one.

use super::files::*;
use second::calendar::hours_in_quarter;
use second::cases::Case;
use second::figures::{Monitor, Readings, FIGURES};
use second::generate::recorder::column_limits;
use second::write::{write, Order};
use std::collections::{BTreeMap, BTreeSet};

/// The sheets of seed 1 that are given in the present form, each with its room.
fn present_form() -> impl Iterator<Item = (&'static Order, usize)> {
    CASES.iter().filter_map(|case| match case {
        Case::Write { order, room } => Some((order, *room)),
        _ => None,
    })
}

fn number_of(order: &Order, room: usize) -> u32 {
    write(order, &mut vec![0; room]).err().unwrap_or(0)
}

fn value(word: u32) -> u32 {
    word % 0x2000_0000
}

/// The least and the largest time, SO2, NOx, CO2, flow and Fc.
const RANGES: [(u32, u32); 6] =
    [(1, 100), (0, 99_999), (0, 99_999), (1, 1_000), (0, 9_999_999), (5_000, 30_000)];

/// The numbers of an hour that have a range.
fn numbers(hour: &[u32]) -> [u32; 6] {
    [value(hour[0]) % 128, value(hour[1]), value(hour[2]), value(hour[3]), value(hour[4]), value(hour[5])]
}

fn is_in_range(hour: &[u32]) -> bool {
    numbers(hour).iter().zip(RANGES).all(|(number, (low, high))| (low..=high).contains(number))
}

/// The causes of 31 that an order has.
fn causes(order: &Order) -> Vec<&'static str> {
    let Order { year, quarter, name, words } = order;
    let right_year = (1995..=2094).contains(year);
    let right_quarter = (1..=4).contains(quarter);
    let hours: Vec<u32> = words.iter().step_by(6).map(|&word| value(word) / 128).collect();
    let all = if right_year && right_quarter { hours_in_quarter(*year, *quarter) } else { u32::MAX };
    [
        ("year", !right_year),
        ("quarter", !right_quarter),
        ("blank name", *name == [b' '; 6]),
        ("unprintable name", name.iter().any(|byte| !(32..=126).contains(byte))),
        ("count", words.len() % 6 > 0),
        ("kind", words.iter().enumerate().any(|(place, word)| word / 0x2000_0000 != (place % 6) as u32)),
        ("hour beyond the quarter", hours.iter().any(|&hour| hour >= all)),
        ("the same hour", hours.windows(2).any(|pair| pair[0] == pair[1])),
        ("an earlier hour", hours.windows(2).any(|pair| pair[0] > pair[1])),
    ]
    .into_iter()
    .filter_map(|(cause, has)| has.then_some(cause))
    .collect()
}

/// The figures of an hour in range that do not fit.
fn too_large(hour: &[u32]) -> Vec<usize> {
    let [_, so2, nox, co2, flow, fc] = numbers(hour).map(u128::from);
    let readings = Readings { so2: Monitor(so2), nox, co2, flow, fc };
    let fits = |index: usize| FIGURES[index].of_recorded(&readings) <= column_limits()[index];
    (0..4).filter(|&index| !fits(index)).collect()
}

/// All faults of an order, as its words tell them, from the first on.
fn faults(order: &Order, room: usize) -> Vec<u32> {
    let hours = || order.words.chunks_exact(6);
    let numbers = [
        (31, !causes(order).is_empty()),
        (32, hours().any(|hour| !is_in_range(hour))),
        (33, hours().any(|hour| is_in_range(hour) && !too_large(hour).is_empty())),
        (34, room < 75 + 318 * (order.words.len() / 6)),
    ];
    numbers.into_iter().filter_map(|(number, has)| has.then_some(number)).collect()
}

/// The first fault is told, and each other stands behind it now and then; each is
/// alone often.
#[test]
fn the_first_fault_is_told() {
    let mut pairs = BTreeMap::<(u32, u32), usize>::new();
    for (order, room) in present_form() {
        let faults = faults(order, room);
        let first = faults.first().copied().unwrap_or(0);
        assert_eq!(number_of(order, room), first);
        let behind = if faults.len() > 1 { &faults[1..] } else { &faults };
        behind.iter().for_each(|&other| *pairs.entry((first, other)).or_default() += 1);
    }
    for number in 31..=34 {
        assert!(pairs[&(number, number)] >= 20, "{pairs:?}");
        assert!((number + 1..=34).all(|other| pairs[&(number, other)] >= 5), "{pairs:?}");
    }
}

#[test]
fn every_cause_of_31() {
    let mut alone = Sorts::new();
    let mut counts = BTreeSet::new();
    for (order, _) in present_form() {
        if let [cause] = causes(order)[..] {
            *alone.entry(cause).or_default() += 1;
        }
        counts.insert(order.words.len() % 6);
    }
    let wanted =
        ["year", "quarter", "blank name", "unprintable name", "count", "kind", "hour beyond the quarter"];
    assert_sorts(&alone, &wanted, 3);
    assert_sorts(&alone, &["the same hour", "an earlier hour"], 3);
    assert_eq!(counts.len(), 6);
}

/// Every number at both ends of its range in written hours, and just beyond them as
/// the only fault.
#[test]
fn ends_of_ranges() {
    let (mut written, mut refused) = (BTreeSet::new(), BTreeSet::new());
    for (order, room) in present_form() {
        let (number, faults) = (number_of(order, room), faults(order, room));
        for hour in order.words.chunks_exact(6) {
            for (place, number_there) in numbers(hour).into_iter().enumerate() {
                let (low, high) = RANGES[place];
                if number == 0 && (number_there == low || number_there == high) {
                    written.insert((place, number_there == low));
                } else if faults == [32] && (number_there + 1 == low || number_there == high + 1) {
                    refused.insert((place, number_there < low));
                }
            }
        }
    }
    assert_eq!(written.len(), 12, "{written:?}");
    let starts = RANGES.iter().filter(|(low, _)| *low > 0).count();
    assert_eq!(refused.len(), 6 + starts, "{refused:?}");
}

/// Flows about the former limit, about the largest in a word of scfh, and at the
/// limit are written; those past it are refused.
#[test]
fn flows_about_their_limits() {
    let mut told = BTreeMap::<(u32, u32), usize>::new();
    for (order, room) in present_form() {
        let number = number_of(order, room);
        let flows: BTreeSet<u32> = order.words.chunks_exact(6).map(|hour| value(hour[4])).collect();
        flows.into_iter().for_each(|flow| *told.entry((flow, number)).or_default() += 1);
    }
    for flow in [0, 1, 499_999, 500_000, 500_001, 536_870, 536_871, 9_999_998, 9_999_999] {
        assert!(told.get(&(flow, 0)).is_some_and(|&times| times >= 2), "{flow}");
    }
    for flow in [10_000_000, 20_000_000, 500_000_000, 0x1FFF_FFFF] {
        assert!(told.get(&(flow, 32)).is_some_and(|&times| times >= 2), "{flow}");
        assert!(!told.contains_key(&(flow, 0)));
    }
}

/// Heat, SO2 and NOx at the ends of their columns, and one past them as the only
/// figure too large; CO2 is never that. Both with flows above the former limit.
#[test]
fn figures_at_the_ends_of_their_columns() {
    let (mut largest, mut past) = (Times::new(), Times::new());
    for (order, room) in present_form() {
        let number = number_of(order, room);
        for hour in order.words.chunks_exact(6).filter(|hour| is_in_range(hour)) {
            let [_, so2, nox, co2, flow, fc] = numbers(hour).map(u128::from);
            let figures = FIGURES.map(|f| f.of_recorded(&Readings { so2: Monitor(so2), nox, co2, flow, fc }));
            for (index, limit) in column_limits().into_iter().enumerate() {
                let matters = flow > 500_000 || index == 2;
                if number == 0 && matters && figures[index] == limit {
                    add(&mut largest, index as u32);
                } else if number == 33 && matters && figures[index] == limit + 1 {
                    assert_eq!(too_large(hour), [index]);
                    add(&mut past, index as u32);
                }
            }
        }
    }
    assert!((0..3).all(|index| largest[&index] >= 2 && past[&index] >= 2), "{largest:?} {past:?}");
    assert!(!largest.contains_key(&3) && !past.contains_key(&3));
}

/// Full quarters, one of them with the largest report.
#[test]
fn full_quarters() {
    let hours: BTreeSet<usize> = present_form()
        .filter(|(order, room)| number_of(order, *room) == 0)
        .map(|(order, _)| order.words.len() / 6)
        .collect();
    assert!(hours.contains(&2_208) && hours.contains(&2_184), "{hours:?}");
}
