//! Flow that is no whole thousand, on 220 lines; alone, or large or out of its
//! format besides.

use super::changes::{bad_head, text_of};
use super::page::Page;
use super::recorder::FORMER_LIMIT;
use crate::layout::*;
use crate::random::Random;

/// The place of the 220 lines in `HOURLY`.
const BLOCK: usize = 3;

/// The last whole thousand above which others that are none were in range before
/// the limit was raised.
const LAST: u128 = 1_000 * (FORMER_LIMIT - 1);

/// A flow up to the former limit that is no whole thousand: just above 0, just
/// below that limit, or just above the given one.
pub fn uneven(random: &mut Random, turn: usize, flow: u128) -> u128 {
    let over = match turn % 5 {
        0 => 1,
        1 => 500,
        2 => 999,
        3 => random.pick(&[10, 100, 499, 501, 900, 990]),
        _ => random.between(1, 999),
    };
    let thousands = match turn / 5 % 8 {
        0 => 0,
        1 => LAST,
        _ => (flow - flow % 1_000).min(LAST),
    };
    thousands + over
}

/// A flow that is no whole thousand and beyond the former limit.
fn uneven_and_large(random: &mut Random, turn: usize) -> u128 {
    match turn % 5 {
        0 => 1_000 * FORMER_LIMIT + 1,
        1 => 1_000 * FORMER_LIMIT + 500,
        2 => 1_000 * FORMER_LIMIT + 999,
        3 => FLOW.largest(),
        _ => 1_000 * random.between(FORMER_LIMIT + 1, 9_999_999) + random.between(1, 999),
    }
}

/// The digits of a flow with one more byte among them, or another one.
fn broken_digits(random: &mut Random, turn: usize, flow: u128) -> String {
    let mut digits = flow.to_string();
    let thousands = digits.len().saturating_sub(3);
    match turn % 6 {
        0 => digits.insert(thousands, '.'),
        1 => digits.insert(thousands, ','),
        2 => digits.insert(thousands, ' '),
        3 => digits.push(' '),
        4 => digits.insert(0, '-'),
        _ => {
            let place = random.below(digits.len());
            digits.replace_range(place..=place, random.pick(&["O", "l", "x", "/", ":"]));
        }
    }
    digits
}

/// The index of any hour's 220 line.
pub fn any_line(random: &mut Random, page: &Page) -> usize {
    line_of_hour(page, random.below(page.hours))
}

/// The index of an hour's 220 line.
pub fn line_of_hour(page: &Page, rank: usize) -> usize {
    page.index(BLOCK, rank)
}

/// A flow that is no whole thousand in place of the one on a line.
fn uneven_there(random: &mut Random, turn: usize, page: &Page, index: usize) -> u128 {
    let flow = page.get(index, FLOW.columns).and_then(|text| read_number(&text, FLOW.decimals));
    uneven(random, turn, flow.unwrap_or(0))
}

/// Puts a flow on a line, with blanks or zeros before it.
pub fn put(random: &mut Random, page: &mut Page, index: usize, flow: u128) {
    let text = if random.once_in(3) { format!("{flow:010}").into_bytes() } else { text_of(&FLOW, flow) };
    page.set(index, FLOW.columns, &text);
}

/// No whole thousand in any hour.
pub fn uneven_flow(random: &mut Random, turn: usize, page: &mut Page) {
    if page.hours == 0 {
        return bad_head(random, turn, page);
    }
    let index = any_line(random, page);
    let flow = uneven_there(random, turn, page, index);
    put(random, page, index, flow);
}

/// No whole thousand on a given line, if it is a 220 line.
pub fn uneven_on(random: &mut Random, index: usize, page: &mut Page) {
    if page.record(index).kind == R220.kind {
        let turn = random.below(1_000);
        let flow = uneven_there(random, turn, page, index);
        put(random, page, index, flow);
    }
}

/// No whole thousand and beyond the former limit, in any hour.
pub fn large_flow(random: &mut Random, turn: usize, page: &mut Page) {
    let index = any_line(random, page);
    let flow = uneven_and_large(random, turn);
    put(random, page, index, flow);
}

/// No number in any hour; without the byte that breaks it, it would be no whole
/// thousand.
pub fn broken_flow(random: &mut Random, turn: usize, page: &mut Page) {
    let index = any_line(random, page);
    let flow = uneven_there(random, turn, page, index);
    let text = format!("{:>10}", broken_digits(random, turn, flow));
    page.set(index, FLOW.columns, text.as_bytes());
}
