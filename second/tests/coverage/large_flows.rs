//! Files with flows about the former limit and the present one: good ones, figures
//! that fail, and flows that are too large or no whole thousands, alone and beside
//! other faults.

use super::files::*;
use second::figures::Figure;
use second::generate::tight;
use second::layout::*;
use std::collections::{BTreeMap, BTreeSet};

/// Flows, in thousands, about both limits and about the largest in a word of scfh.
const NAMED: [u128; 7] = [499_999, 500_000, 500_001, 536_870, 536_871, 9_999_998, 9_999_999];

/// The flow on a line, if it is a whole 220 line.
fn flow_on(line: &[u8]) -> Option<u128> {
    let whole = line.starts_with(R220.kind) && line.len() == R220.length;
    read_number(text(line, FLOW.columns), FLOW.decimals).filter(|_| whole)
}

/// Named flows in good files, and in hours with a figure that fails.
#[test]
fn hours_with_large_flows() {
    let (mut good, mut failing) = (BTreeMap::<u128, usize>::new(), BTreeSet::new());
    let (mut times, mut gas) = (Times::new(), 0);
    for (file, number, line) in files().filter(|(_, number, _)| [0, 11, 12, 14].contains(number)) {
        let lines = lines_of(file);
        let judged = |rank: usize| (4..8).any(|block| operating_lines(&lines, block)[rank] + 1 == line);
        for (rank, (_, readings, _)) in hours_of(file).into_iter().enumerate() {
            if number == 0 {
                *good.entry(readings.flow).or_default() += 1;
                gas += usize::from(readings.flow > 500_000 && readings.so2.reading().is_none());
            } else if readings.flow > 500_000 && judged(rank) {
                failing.insert(readings.flow);
                add(&mut times, number);
            }
        }
    }
    let large: BTreeMap<_, _> = good.range(499_999..).collect();
    assert!(NAMED.iter().all(|flow| *large[flow] >= 2) && large.len() >= 20, "{large:?}");
    assert!([500_001, 536_870, 9_999_999].iter().all(|flow| failing.contains(flow)), "{failing:?}");
    assert!([11, 12, 14].iter().all(|number| times[number] >= 10), "{times:?}");
    assert!(gas >= 3, "{gas}");
}

/// Heat that large flows only just miss, and the figures at the ends of columns that
/// they give.
#[test]
fn figures_of_large_flows() {
    let (mut met, mut largest) = (0, [0; 4]);
    for (file, number, _) in files().filter(|(_, number, _)| [0, 11].contains(number)) {
        for (_, readings, figures) in hours_of(file) {
            if readings.flow <= 500_000 {
                continue;
            }
            let meets = |heat, upper| tight::meets(Figure::Heat, &readings, heat, upper);
            met += usize::from(number == 11 && (meets(figures[0], true) || meets(figures[0], false)));
            if number == 0 {
                (0..4).for_each(|index| largest[index] = figures[index].max(largest[index]));
            }
        }
    }
    assert!(met >= 2, "{met}");
    assert_eq!(largest, [999_999, 999_999, 99_999, 171_000]);
}

/// Flows past the limit (9), and in range though large and no whole thousands (43):
/// in first and later hours, alone, and beside faults before, on and behind their
/// lines.
#[test]
fn flows_that_are_too_large_or_no_whole_thousands() {
    let (mut flows, mut sorts, mut before) = (BTreeSet::new(), Sorts::new(), Times::new());
    for (file, number, line) in files() {
        let lines = lines_of(file);
        let flow = lines.get(line.wrapping_sub(1)).and_then(|line| flow_on(line));
        let Some(flow) = flow.filter(|&flow| [9, 43].contains(&number) && flow > 500_000_000) else {
            let wrong = |flow: u128| flow > 500_000_000 && flow % 1_000 > 0;
            if lines.iter().any(|line| flow_on(line).is_some_and(wrong)) {
                add(&mut before, number);
            }
            continue;
        };
        assert_eq!(number, if flow > 9_999_999_000 { 9 } else { 43 });
        flows.insert(flow);
        let first = !lines[line - 2].starts_with(R220.kind);
        // The flow cut to what is in range and whole.
        let mut mended: Vec<Vec<u8>> = lines.iter().map(|line| line.to_vec()).collect();
        let text = format!("{:>10}", flow / 1_000 * 1_000);
        FLOW.columns.of_mut(&mut mended[line - 1]).copy_from_slice(text.as_bytes());
        let alone = refusal(&mended.join(&b'\n')).0 == 0;
        for (sort, has) in [
            ("9, first", number == 9 && first),
            ("9, later", number == 9 && !first),
            ("9, alone", number == 9 && alone),
            ("9, not alone", number == 9 && !alone),
            ("43, first", number == 43 && first),
            ("43, later", number == 43 && !first),
            ("43, alone", number == 43 && alone),
            ("43, not alone", number == 43 && !alone),
        ] {
            *sorts.entry(sort).or_default() += usize::from(has);
        }
    }
    for flow in [9_999_999_001, 9_999_999_500, 9_999_999_999, 9_999_998_001, 9_999_998_999, 500_000_001]
        .into_iter()
        .chain([536_870_911, 536_870_912, 4_294_967_295, 4_294_967_296, 8_589_934_592])
    {
        assert!(flows.contains(&flow), "{flow} {flows:?}");
    }
    let wanted = ["9, first", "9, later", "9, alone", "9, not alone"].into_iter().chain([
        "43, first",
        "43, later",
        "43, alone",
        "43, not alone",
    ]);
    assert_sorts(&sorts, &wanted.collect::<Vec<_>>(), 5);
    assert!([2, 3, 4, 5, 7].iter().all(|number| before.contains_key(number)), "{before:?}");
}
