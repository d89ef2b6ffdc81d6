//! Sheets of the first form: those that convert and are written as they always
//! were, those with larger flows, and each reason of refusal in any hour.

use super::files::*;
use second::cases::{sum_of_words, Answering, Case, FILL};
use second::conversion::{convert, write_first_form};
use second::generate::cases;
use second::write::{write, Order};
use std::collections::{BTreeMap, BTreeSet};

/// The sheets of the first form of seed 1, each with its room.
fn first_form() -> impl Iterator<Item = (&'static Order, usize)> {
    CASES.iter().filter_map(|case| match case {
        Case::Convert { order, room } => Some((order, *room)),
        _ => None,
    })
}

fn flows(words: &[u32]) -> impl Iterator<Item = u32> + '_ {
    words.iter().skip(4).step_by(6).map(|word| word % 0x2000_0000)
}

/// The number of the conversion's refusal, 0 if there is none.
fn refusal_of(words: &[u32]) -> u32 {
    convert(&mut words.to_vec()).err().unwrap_or(0)
}

fn converted(order: &Order) -> Order {
    let mut order = order.clone();
    convert(&mut order.words).expect("a sheet that converts");
    order
}

/// What a writer answers, 0 if it writes, and its buffer.
fn answer_of(
    writer: fn(&Order, &mut [u8]) -> Result<usize, u32>,
    order: &Order,
    room: usize,
) -> (u32, Vec<u8>) {
    let mut buffer = vec![FILL; room];
    let number = writer(order, &mut buffer).err().unwrap_or(0);
    (number, buffer)
}

/// With flows up to the former limit the writer answers as it did, and its buffer
/// is the same.
#[test]
fn answers_to_sheets_that_convert_stay() {
    for seed in [1, 2, 3] {
        let mut answers = Times::new();
        for case in cases(seed, COUNT) {
            let Case::Convert { order, room } = case else { continue };
            if refusal_of(&order.words) > 0 || flows(&order.words).any(|flow| flow > 500_000_000) {
                continue;
            }
            let former = answer_of(write_first_form, &order, room);
            assert_eq!(former, answer_of(write, &converted(&order), room));
            add(&mut answers, former.0);
        }
        assert!(answers[&0] >= 200 && (31..=34).all(|number| answers[&number] >= 30), "{answers:?}");
    }
}

/// Larger flows were refused with 32; now they are written, if nothing else is
/// wrong.
#[test]
fn sheets_with_larger_flows() {
    let (mut answers, mut written) = (Times::new(), BTreeMap::<u32, usize>::new());
    for (order, room) in first_form().filter(|(order, _)| refusal_of(&order.words) == 0) {
        let Some(largest) = flows(&order.words).max().filter(|&flow| flow > 500_000_000) else { continue };
        let former = answer_of(write_first_form, order, room).0;
        let (number, _) = answer_of(write, &converted(order), room);
        assert_eq!(former, if number == 31 { 31 } else { 32 });
        add(&mut answers, number);
        if number == 0 {
            *written.entry(largest).or_default() += 1;
        }
    }
    assert!(answers[&0] >= 15 && answers[&33] >= 5, "{answers:?}");
    assert!([500_001_000, 536_870_000].iter().all(|flow| written[flow] >= 3), "{written:?}");
    assert!(written.len() >= 5, "{written:?}");
}

/// Whether an hour is the first, the last or one between.
fn part_of(rank: usize, hours: usize) -> &'static str {
    match rank {
        0 => "first",
        _ if rank + 1 == hours => "last",
        _ => "middle",
    }
}

/// Ranks of the hours with a word of another kind, with the word's place.
fn unlike(words: &[u32]) -> Vec<(usize, usize)> {
    let wrong = |&place: &usize| words[place] / 0x2000_0000 != (place % 6) as u32;
    (0..words.len()).filter(wrong).map(|place| (place / 6, place % 6)).collect()
}

/// Ranks of the hours whose flow is no whole thousand.
fn uneven(words: &[u32]) -> Vec<usize> {
    flows(words).enumerate().filter(|(_, flow)| flow % 1_000 > 0).map(|(rank, _)| rank).collect()
}

/// 31 for words that are no whole hours or too many, and for one other kind in each
/// place of first, middle and last hours.
#[test]
fn counts_and_kinds() {
    let (mut counts, mut kinds) = (BTreeSet::new(), BTreeMap::<(usize, &str), usize>::new());
    for (order, _) in first_form() {
        let (words, number) = (&order.words, refusal_of(&order.words));
        let hours = words.len() / 6;
        match unlike(words)[..] {
            [] if number == 31 => drop(counts.insert(words.len())),
            [(rank, place)] if words.len() % 6 == 0 && hours > 2 => {
                assert_eq!(number, 31);
                *kinds.entry((place, part_of(rank, hours))).or_default() += 1;
            }
            _ => {}
        }
    }
    assert!(
        [1, 2, 3, 4, 5, 7, 8, 11, 13, 6 * 2_209].iter().all(|count| counts.contains(count)),
        "{counts:?}"
    );
    assert!(counts.iter().all(|&count| count % 6 > 0 || count > 6 * 2_208), "{counts:?}");
    assert_eq!(kinds.len(), 18, "{kinds:?}");
}

/// 50 for flows that are no whole thousands, in first, middle and last hours; and 31
/// instead, if another kind stands before, behind or in the same hour, or a word is
/// missing.
#[test]
fn flows_that_are_no_whole_thousands() {
    let (mut remainders, mut parts, mut sorts) = (Times::new(), Sorts::new(), Sorts::new());
    let mut largest = 0;
    for (order, _) in first_form() {
        let (words, hours) = (&order.words, order.words.len() / 6);
        let (uneven, unlike) = (uneven(words), unlike(words));
        let Some(&rank) = uneven.first() else { continue };
        if unlike.is_empty() && words.len() % 6 == 0 && hours <= 2_208 {
            assert_eq!(refusal_of(words), 50);
            *parts.entry(part_of(rank, hours)).or_default() += 1;
            flows(words).for_each(|flow| add(&mut remainders, flow % 1_000));
            largest = largest.max(flows(words).max().unwrap_or(0));
            continue;
        }
        assert_eq!(refusal_of(words), 31);
        for (sort, has) in [
            ("before another kind", unlike.first().is_some_and(|&(other, _)| rank < other)),
            ("behind another kind", unlike.first().is_some_and(|&(other, _)| other < rank)),
            ("in the same hour", unlike.first().is_some_and(|&(other, _)| other == rank)),
            ("with words that are no whole hours", words.len() % 6 > 0),
        ] {
            *sorts.entry(sort).or_default() += usize::from(has);
        }
    }
    assert_sorts(&parts, &["first", "middle", "last"], 10);
    assert!([1, 500, 999].iter().all(|over| remainders[over] >= 10), "{remainders:?}");
    assert_eq!(largest, 0x1FFF_FFFF);
    let wanted = [
        "before another kind",
        "behind another kind",
        "in the same hour",
        "with words that are no whole hours",
    ];
    assert_sorts(&sorts, &wanted, 4);
}

/// Sheets that convert, though the writer refuses them: values beyond their ranges,
/// hours that do not rise, wrong heads, short rooms; and the empty and the longest.
#[test]
fn what_the_conversion_does_not_see() {
    let (mut sorts, mut beyond) = (Sorts::new(), BTreeSet::new());
    for (order, room) in first_form().filter(|(order, _)| refusal_of(&order.words) == 0) {
        let words = &order.words;
        let number = answer_of(write, &converted(order), room).0;
        let hours: Vec<u32> = words.iter().step_by(6).map(|word| word / 128).collect();
        let sound_head = (1995..=2094).contains(&order.year)
            && (1..=4).contains(&order.quarter)
            && order.name.iter().all(|byte| (32..=126).contains(byte))
            && order.name != [b' '; 6];
        for (sort, has) in [
            ("no hours", words.is_empty() && number == 0),
            ("2,208 hours", words.len() == 6 * 2_208 && number == 0),
            ("not rising", number == 31 && hours.windows(2).any(|pair| pair[0] >= pair[1])),
            ("wrong head", number == 31 && !sound_head),
            ("short room", number == 34),
        ] {
            *sorts.entry(sort).or_default() += usize::from(has);
        }
        for (place, &word) in words.iter().enumerate().filter(|_| number == 31 || number == 32) {
            let value = word % 0x2000_0000;
            let (low, high) =
                [(0, 282_724), (0, 99_999), (0, 99_999), (1, 1_000), (0, 0x1FFF_FFFF), (5_000, 30_000)]
                    [place % 6];
            if value < low || value > high {
                beyond.insert((place % 6, value < low));
            }
        }
    }
    assert_sorts(&sorts, &["wrong head", "short room"], 20);
    assert_sorts(&sorts, &["not rising"], 10);
    assert_sorts(&sorts, &["no hours", "2,208 hours"], 3);
    assert_eq!(
        beyond,
        [(0, false), (1, false), (2, false), (3, false), (3, true), (5, false), (5, true)].into()
    );
}

/// The line of words has the sum of those that were given, if they are refused, and
/// else of those that the writer gets.
#[test]
fn sums_of_words() {
    let mut answering = Answering::default();
    for case in CASES.iter() {
        let answer = answering.answer(case);
        let Case::Convert { order, .. } = case else { continue };
        let number = refusal_of(&order.words);
        let words = if number > 0 { order.words.clone() } else { converted(order).words };
        assert_eq!(answer[0], format!("words {number} {}", sum_of_words(&words)));
        assert_eq!(answer.len() > 1, number == 0);
    }
}
