//! Sheets of the first form converted by both sides. Those that all seeds have are slices of an array, of every length up to some hours and
//! of those about the longest quarter; their words have the kinds of their places or not, and their flows are whole thousands or not. The
//! words before and behind a slice are compared too.

use std::ops::Range;

use edr::Converted;
use second::calendar::MOST_HOURS;
use second::conversion::convert;
use second::write::{value_of, word, FLOW_PLACE, LARGEST_VALUE, WORDS};

use crate::Answers;

/// The first lengths that are tried, all of them.
const SOME_WORDS: usize = 40;

/// The words of the longest quarter.
const MOST_WORDS: usize = WORDS * MOST_HOURS as usize;

/// As many words stand before a slice, and behind it.
const AROUND: usize = 8;

/// An array, and the part of it that is lent.
pub struct Lent {
    words: Vec<u32>,
    part: Range<usize>,
}

impl Lent {
    /// A whole sheet.
    pub fn sheet(words: &[u32]) -> Self {
        Lent { words: words.to_vec(), part: 0..words.len() }
    }
}

/// Both calls, with the first word of the whole array that is unlike the other's, and the wrapper's form of the call besides.
pub fn converted(lent: &Lent) -> Answers {
    let mut expected = lent.words.clone();
    let number = convert(&mut expected[lent.part.clone()]).err().unwrap_or(0);
    let mut words = lent.words.clone();
    let code = proved(&mut words[lent.part.clone()]);
    let mut answers = both(code, &words, number, &expected);
    let mut words = lent.words.clone();
    let code = match edr::convert(&mut words[lent.part.clone()]) {
        Converted::Done => 0,
        Converted::Refused(number) => number,
    };
    answers.add(both(code, &words, number, &expected));
    answers
}

fn proved(sheet: &mut [u32]) -> u64 {
    // SAFETY: pointer and length are those of a slice that is borrowed for the call.
    unsafe { edr::edr_convert(sheet.as_mut_ptr(), sheet.len()) }
}

fn both(code: u64, words: &[u32], number: u32, expected: &[u32]) -> Answers {
    let place = (0..words.len()).find(|&place| words[place] != expected[place]);
    Answers { proved: with_word(code, words, place), second: with_word(number.into(), expected, place) }
}

/// What is returned, with the first word that is unlike the other's.
fn with_word(code: u64, words: &[u32], place: Option<usize>) -> String {
    match place {
        Some(place) => format!("converted {code} with word {place} {:#010x}", words[place]),
        None => format!("converted {code}"),
    }
}

/// The slices that all seeds have.
pub fn slices() -> impl Iterator<Item = Lent> {
    let lengths = (0..=SOME_WORDS).chain(MOST_WORDS - 1..=MOST_WORDS + WORDS + 1);
    lengths.flat_map(|length| changes(length).into_iter().map(move |change| lent(length, &change)))
}

/// Places of a sheet, and what their words are instead.
type Change = Vec<(usize, u32)>;

/// A slice of sound words but for the changes.
fn lent(length: usize, change: &Change) -> Lent {
    let part = AROUND..AROUND + length;
    let mut words: Vec<u32> = (0..AROUND).chain(0..length + AROUND).map(sound).collect();
    change.iter().for_each(|&(place, word)| words[part.start + place] = word);
    Lent { words, part }
}

/// A word of the kind of its place, flow being a whole thousand and other values anything.
fn sound(place: usize) -> u32 {
    let (place, number) = (place % WORDS, (place / WORDS) as u32);
    let value = match place {
        FLOW_PLACE => 1_000 * (number * 17_903 % 536_871),
        _ => value_of(number.wrapping_mul(0x9E37_79B9)),
    };
    word(place as u32, value)
}

/// The same word with another kind.
fn unlike(place: usize, by: u32) -> Change {
    vec![(place, sound(place) ^ by << 29)]
}

/// A flow so much over its whole thousand.
fn uneven(place: usize, over: u32) -> Change {
    vec![(place, word(FLOW_PLACE as u32, (value_of(sound(place)) + over).min(LARGEST_VALUE)))]
}

/// No change; the largest value everywhere; another kind in the first word, a middle one or the last; a flow that is no whole thousand in
/// the first hour or the last; and both of these faults, either before the other.
fn changes(length: usize) -> Vec<Change> {
    let largest = (0..length).map(|place| (place, sound(place) | LARGEST_VALUE)).collect();
    let mut changes = vec![vec![], largest];
    if let Some(last) = length.checked_sub(1) {
        changes.extend([(0, 1), (length / 2, 4), (last, 7)].map(|(place, by)| unlike(place, by)));
    }
    let mut flows = (FLOW_PLACE..length).step_by(WORDS);
    if let Some(first) = flows.next() {
        let last = flows.last().unwrap_or(first);
        changes.extend([1, 500, 999].map(|over| uneven(first, over)));
        changes.extend([1, 500, 999].map(|over| uneven(last, over)));
        changes.push([uneven(first, 1), unlike(length - 1, 2)].concat());
        changes.push([unlike(0, 2), uneven(last, 1)].concat());
    }
    changes
}
