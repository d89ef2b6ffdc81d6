//! Faults inside the lines, none of which changes a line's length: number
//! formats, ranges, dates, names and single bytes.
//!
//! Every change takes a turn number, which runs through its variants.

use super::flows::{uneven_flow, uneven_on};
use super::page::Page;
use super::recorder::FORMER_LIMIT;
use crate::calendar::{eight_digits, is_leap, moment_of};
use crate::layout::*;
use crate::random::Random;

/// A change to a page.
pub type Change = fn(&mut Random, usize, &mut Page);

/// All changes of this kind.
const CHANGES: [Change; 7] =
    [bad_format, bad_range, uneven_flow, bad_date, unlike_date, unlike_name, odd_byte];

/// Makes so many of them, whichever they are, with any turn from the given one on.
pub fn any_changes(random: &mut Random, count: usize, turn: usize, page: &mut Page) {
    for _ in 0..count {
        let change = random.pick(&CHANGES);
        let turn = turn + random.below(1_000);
        change(random, turn, page);
    }
}

/// A line with values, drawn so that every record type has its turn.
fn line_with_values(random: &mut Random, page: &Page) -> usize {
    let place = random.below(9);
    if place == 8 || page.hours == 0 {
        page.totals()
    } else {
        page.index(place, random.below(page.hours))
    }
}

/// Text of this width that is not in the format F.d or I, or only just is.
pub fn bad_text(random: &mut Random, turn: usize, width: usize, decimals: usize) -> Vec<u8> {
    let digit = |random: &mut Random| char::from(b'0' + random.below(10) as u8);
    let whole = digit(random);
    let fraction: String = (0..decimals).map(|_| digit(random)).collect();
    let sound = if decimals == 0 { format!("{whole}000") } else { format!("{whole}.{fraction}") };
    let text = match turn % 16 {
        0 => String::new(),
        1 => format!("-{sound}"),
        2 => format!("+{sound}"),
        3 => format!("{sound} "),
        4 if decimals > 0 => format!(".{fraction}"),
        5 if decimals > 0 => format!("{whole}{fraction}"),
        6 if decimals > 0 => format!("{whole}.{fraction}{whole}"),
        7 if decimals > 0 => format!("{whole}.{}", &fraction[1..]),
        8 => format!("{whole}..{fraction}"),
        9 => format!("{whole},{fraction}"),
        10 => format!("{whole} {sound}"),
        11 => format!("{}{sound}", random.pick(&["x", "O", "l", "e", "\\", "~"])),
        12 => format!("{whole}. {}", &fraction[fraction.len().min(1)..]),
        13 => format!("{whole}.{fraction}"),
        14 => return vec![random.printable(); width],
        _ => {
            // A sound number with one byte of it changed.
            let mut text = format!("{sound:>width$}").into_bytes();
            text.truncate(width);
            text[random.below(width)] = random.printable();
            return text;
        }
    };
    let mut text = format!("{text:>width$}").into_bytes();
    text.drain(..text.len() - width);
    text
}

/// A value out of its format.
pub fn bad_format(random: &mut Random, turn: usize, page: &mut Page) {
    let index = line_with_values(random, page);
    let value = random.pick(page.record(index).values);
    let text = bad_text(random, turn, value.columns.1, value.decimals);
    page.set(index, value.columns, &text);
}

/// Year, quarter or a value outside its range, or for flow outside its former one.
pub fn bad_range(random: &mut Random, turn: usize, page: &mut Page) {
    let blocks = [(2, 0), (3, 0), (4, 0), (6, 0)];
    let (block, place) = blocks[turn % 4];
    let value = &HOURLY[block].values[place];
    if page.hours == 0 || turn % 13 == 12 {
        return bad_head(random, turn, page);
    }
    let index = page.index(block, random.below(page.hours));
    let (low, high) = former_range(&HOURLY[block], value);
    let old = page.get(index, value.columns).and_then(|text| read_number(&text, value.decimals));
    let number = match turn / 4 % 5 {
        0 if low > 0 => low - 1,
        1 => high + value.unit,
        2 => random.between(high + 1, value.largest()),
        // The right value again, were it cut to 32 or 16 bits.
        3 => match old.unwrap_or(low) {
            old if old + (1 << 32) <= value.largest() => old + (1 << 32),
            old => (old + (1 << 16)).min(value.largest()),
        },
        _ => random.pick(&[0, value.largest()]).max(if low == 0 { high + 1 } else { 0 }),
    };
    page.set(index, value.columns, &text_of(value, number));
}

/// The ends of a value's range, that of flow with its former limit: flows beyond it
/// do not fit their figures, or are no whole thousands.
fn former_range(record: &Record, value: &Value) -> (u128, u128) {
    let (low, high) = value.range.unwrap_or((0, 0));
    (low, if record.kind == R220.kind { FORMER_LIMIT * value.unit } else { high })
}

/// A number in the columns of a value, with blanks before it.
pub fn text_of(value: &Value, number: u128) -> Vec<u8> {
    format!("{:>width$}", plain_number(number, value.decimals), width = value.columns.1).into_bytes()
}

/// A year or quarter that cannot be.
pub fn bad_head(random: &mut Random, turn: usize, page: &mut Page) {
    let years = [b"1994", b"2095", b"0000", b"9999", b"20O5", b" 205", b"-200", b"2005", b"1905", b"2.05"];
    let quarters = [b"0", b"5", b"9", b" ", b"A", b"/", b":"];
    if random.once_in(2) {
        page.set(0, YEAR, years[turn % years.len()]);
    } else {
        page.set(0, QUARTER, quarters[turn % quarters.len()]);
    }
}

/// A date text made wrong in one of many ways; `other` is another date of the
/// same page.
pub fn wrong_date(random: &mut Random, turn: usize, date: &[u8], other: &[u8], year: u32) -> Vec<u8> {
    let mut text = date.to_vec();
    let month = |text: &mut Vec<u8>, mm: &[u8]| text[2..4].copy_from_slice(mm);
    let day = |text: &mut Vec<u8>, dd: &[u8]| text[4..6].copy_from_slice(dd);
    match turn % 18 {
        0 => month(&mut text, b"13"),
        1 => month(&mut text, b"00"),
        2 => day(&mut text, b"00"),
        3 => day(&mut text, b"32"),
        4 => text[2..6].copy_from_slice(random.pick(&[b"0230", b"0431", b"0631", b"0931", b"1131"])),
        5 => text[2..6].copy_from_slice(if is_leap(year) { b"0230" } else { b"0229" }),
        6 => text[6..].copy_from_slice(b"24"),
        7 => text[6..].copy_from_slice(random.pick(&[b"25", b"60", b"99"])),
        8 => text[..2].copy_from_slice(format!("{:02}", (year + 1) % 100).as_bytes()),
        9 => text[..2].copy_from_slice(format!("{:02}", (year + 99) % 100).as_bytes()),
        10 => {
            let quarter = 1 + random.below(4) as u32;
            let next = eight_digits(year, moment_of(year, quarter, 0));
            text.copy_from_slice(next.as_bytes());
        }
        11 => text[random.below(8)] = b'A' + random.below(26) as u8,
        12 => text[random.below(8)] = b' ',
        13 => text[random.below(8)] = random.pick(b"/:.-+"),
        14 => text.copy_from_slice(other),
        15 => text[random.below(8)] = b'0' + random.below(10) as u8,
        16 => text.copy_from_slice(b"        "),
        _ => text.copy_from_slice(random.pick(&[b"00000000", b"99999999", b"01010100"])),
    }
    text
}

/// A date on a 200 line that is wrong, or not later than the one before. Half
/// the time all lines of that hour have the same wrong date.
pub fn bad_date(random: &mut Random, turn: usize, page: &mut Page) {
    if page.hours == 0 {
        return bad_head(random, turn, page);
    }
    let rank = random.below(page.hours);
    let other_rank = if rank > 0 { rank - 1 } else { page.hours - 1 };
    let index = page.index(0, rank);
    let date = page.get(index, DATE_200);
    let other = page.get(page.index(0, other_rank), DATE_200);
    let year = page.get(0, YEAR).and_then(|y| String::from_utf8_lossy(&y).parse().ok());
    if let (Some(date), Some(other), Some(year)) = (date, other, year) {
        let text = wrong_date(random, turn, &date, &other, year);
        page.set(index, DATE_200, &text);
        if random.once_in(2) {
            for (block, record) in HOURLY.iter().enumerate() {
                if let Some(columns) = record.date {
                    page.set(page.index(block, rank), columns, &text);
                }
            }
        }
    }
}

/// A date on another line that is unlike that of the 200 line.
pub fn unlike_date(random: &mut Random, turn: usize, page: &mut Page) {
    if page.hours == 0 {
        return unlike_name(random, turn, page);
    }
    let block = 1 + turn % 7;
    let rank = random.below(page.hours);
    let index = page.index(block, rank);
    let Some(columns) = HOURLY[block].date else { return };
    let Some(mut date) = page.get(index, columns) else { return };
    match turn / 7 % 4 {
        0 => {
            let place = random.below(8);
            date[place] = b'0' + (date[place].wrapping_sub(b'0') + 1 + random.below(9) as u8) % 10;
        }
        1 => date[random.below(8)] = random.printable(),
        2 => {
            let other = page.index(block, random.below(page.hours));
            date = page.get(other, columns).unwrap_or(date);
        }
        _ => date = vec![b' '; 8],
    }
    page.set(index, columns, &date);
}

/// A stack name that is blank, or unlike that of line 100.
pub fn unlike_name(random: &mut Random, turn: usize, page: &mut Page) {
    let index = page.any(random);
    let Some(mut name) = page.get(index, NAME) else { return };
    match turn % 6 {
        0 => name[random.below(6)] = random.printable(),
        1 => name = vec![b' '; 6],
        2 => name.rotate_right(1),
        3 => {
            let place = random.below(6);
            name[place] = if name[place].is_ascii_alphabetic() { name[place] ^ 0x20 } else { b'#' };
        }
        4 => name[5] = if name[5] == b' ' { b'0' } else { b' ' },
        _ => {
            // All names blank.
            (0..page.lines.len()).for_each(|index| page.set(index, NAME, b"      "));
            return;
        }
    }
    page.set(index, NAME, &name);
}

/// Bytes that text files have no use for.
pub const ODD_BYTES: [u8; 10] = [0, 1, 9, 13, 26, 31, 127, 128, 0xE9, 255];

/// A byte outside 32 to 126 anywhere, or any byte anywhere.
pub fn odd_byte(random: &mut Random, turn: usize, page: &mut Page) {
    let index = page.any(random);
    if let Some(line) = page.lines.get_mut(index).filter(|line| !line.is_empty()) {
        let place = if turn % 4 == 0 { random.below(line.len().min(9)) } else { random.below(line.len()) };
        line[place] = match turn % 3 {
            0 => random.printable(),
            _ => random.pick(&ODD_BYTES),
        };
    }
}

/// Faults on a given line, one for each of the numbers 43, 9, 8, 7 or 6, 5, 4, 2
/// and 3; the length comes last, as the others need whole lines.
pub const ON_LINE: [Change; 8] =
    [uneven_on, range_on, format_on, date_on, name_on, byte_on, type_on, length_on];

fn format_on(random: &mut Random, index: usize, page: &mut Page) {
    let values = page.record(index).values;
    if !values.is_empty() {
        let value = random.pick(values);
        page.set(index, value.columns, &vec![random.pick(b" .-x"); value.columns.1]);
    }
}

fn range_on(_: &mut Random, index: usize, page: &mut Page) {
    for value in page.record(index).values {
        if value.range.is_some() {
            page.set(index, value.columns, &text_of(value, value.largest()));
        }
    }
}

pub fn date_on(random: &mut Random, index: usize, page: &mut Page) {
    match page.record(index).date {
        Some(columns) => page.set(index, columns, random.pick(&[b"00000000", b"        ", b"99123123"])),
        None if index == 0 => {
            let turn = random.below(5);
            bad_head(random, turn, page);
        }
        None => {}
    }
}

pub fn name_on(random: &mut Random, index: usize, page: &mut Page) {
    let name = if index == 0 { b"      " } else { random.pick(&[b"      ", b"OTHER1", b"stk1  "]) };
    page.set(index, NAME, name);
}

pub fn byte_on(random: &mut Random, index: usize, page: &mut Page) {
    let length = page.lines[index].len();
    if length > 3 {
        page.lines[index][3 + random.below(length - 3)] = random.pick(&ODD_BYTES);
    }
}

fn type_on(random: &mut Random, index: usize, page: &mut Page) {
    page.set(index, Columns(1, 3), random.pick(&[b"101", b"203", b"   ", b"340"]));
}

pub fn length_on(random: &mut Random, index: usize, page: &mut Page) {
    if random.once_in(2) {
        page.lines[index].push(random.pick(b" \r0"));
    } else {
        page.lines[index].pop();
    }
}
