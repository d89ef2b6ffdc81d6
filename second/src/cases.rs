//! Test cases as bytes, and the answers to them as lines of text.
//!
//! Numbers are 32 bits, little end first. A case is one byte of kind and then:
//!
//! * `F`: a length and so many bytes: a file to check.
//! * `W`: year, quarter, six bytes of name, room, a count and so many words: a
//!   sheet to write into a buffer of `room` bytes, all of them 0xA5 before.
//! * `C`: the same, but the sheet is of the first form, and is converted before it
//!   is written.
//! * `P`: a count and so many pairs of an offset and one byte: changes to the last
//!   written report, which stay until the next one is written; the changed report
//!   is checked.
//!
//! The answers: for `F` and `P` what the check says; for `W` `written`, the
//! length and the Adler-32 sum of the whole buffer, and on a second line what
//! the check says of the report, or `refused`, the number and the sum. For `C`
//! there is a line before these: `words`, the number with which the conversion is
//! refused or 0, and the same sum of all words after it, each taken as one number.
//! After a refusal there it is the only line.

use crate::check::check;
use crate::conversion::convert;
use crate::write::{write, Order};

/// The byte with which a buffer is filled before the writer gets it.
pub const FILL: u8 = 0xA5;

/// One test case.
#[derive(Clone, Debug, PartialEq, Eq)]
pub enum Case {
    File(Vec<u8>),
    Write { order: Order, room: usize },
    Convert { order: Order, room: usize },
    Patch(Vec<(usize, u8)>),
}

fn put(number: usize, out: &mut Vec<u8>) {
    out.extend_from_slice(&(number as u32).to_le_bytes());
}

fn put_order(order: &Order, room: usize, out: &mut Vec<u8>) {
    put(order.year as usize, out);
    put(order.quarter as usize, out);
    out.extend_from_slice(&order.name);
    put(room, out);
    put(order.words.len(), out);
    order.words.iter().for_each(|&word| put(word as usize, out));
}

impl Case {
    /// Adds the bytes of the case.
    pub fn encode(&self, out: &mut Vec<u8>) {
        match self {
            Case::File(bytes) => {
                out.push(b'F');
                put(bytes.len(), out);
                out.extend_from_slice(bytes);
            }
            Case::Write { order, room } => {
                out.push(b'W');
                put_order(order, *room, out);
            }
            Case::Convert { order, room } => {
                out.push(b'C');
                put_order(order, *room, out);
            }
            Case::Patch(edits) => {
                out.push(b'P');
                put(edits.len(), out);
                for &(offset, byte) in edits {
                    put(offset, out);
                    out.push(byte);
                }
            }
        }
    }
}

/// Takes so many bytes from the front.
fn take<'a>(bytes: &mut &'a [u8], count: usize) -> Option<&'a [u8]> {
    let (front, rest) = bytes.split_at_checked(count)?;
    *bytes = rest;
    Some(front)
}

/// Takes a number from the front.
fn get(bytes: &mut &[u8]) -> Option<u32> {
    let four = take(bytes, 4)?;
    Some(u32::from_le_bytes(four.try_into().ok()?))
}

/// Takes what is asked of the writer and its room from the front.
fn get_order(bytes: &mut &[u8]) -> Option<(Order, usize)> {
    let year = get(bytes)?;
    let quarter = get(bytes)?;
    let name = take(bytes, 6)?.try_into().ok()?;
    let room = get(bytes)? as usize;
    let count = get(bytes)?;
    let words = (0..count).map(|_| get(bytes)).collect::<Option<Vec<u32>>>()?;
    Some((Order { year, quarter, name, words }, room))
}

/// Takes one case from the front.
fn decode_one(bytes: &mut &[u8]) -> Option<Case> {
    match take(bytes, 1)?[0] {
        b'F' => {
            let length = get(bytes)? as usize;
            Some(Case::File(take(bytes, length)?.to_vec()))
        }
        b'W' => {
            let (order, room) = get_order(bytes)?;
            Some(Case::Write { order, room })
        }
        b'C' => {
            let (order, room) = get_order(bytes)?;
            Some(Case::Convert { order, room })
        }
        b'P' => {
            let count = get(bytes)?;
            let edit = |bytes: &mut &[u8]| Some((get(bytes)? as usize, take(bytes, 1)?[0]));
            Some(Case::Patch((0..count).map(|_| edit(bytes)).collect::<Option<Vec<_>>>()?))
        }
        _ => None,
    }
}

/// All cases of a file, or nothing if it is not such a file.
pub fn decode(mut bytes: &[u8]) -> Option<Vec<Case>> {
    let mut cases = Vec::new();
    while !bytes.is_empty() {
        cases.push(decode_one(&mut bytes)?);
    }
    Some(cases)
}

/// The Adler-32 sum.
pub fn adler32(bytes: &[u8]) -> u32 {
    sum_of(bytes.iter().map(|&byte| byte.into()))
}

/// The same sum of words, each taken as one number.
pub fn sum_of_words(words: &[u32]) -> u32 {
    sum_of(words.iter().map(|&word| word.into()))
}

fn sum_of(numbers: impl Iterator<Item = u64>) -> u32 {
    let (mut a, mut b) = (1u64, 0u64);
    for number in numbers {
        a = (a + number) % 65_521;
        b = (b + a) % 65_521;
    }
    (b << 16 | a) as u32
}

/// Answers cases one after the other, remembering the last written report.
#[derive(Default)]
pub struct Answering {
    report: Vec<u8>,
}

impl Answering {
    /// The answer to the next case: one line, one more for a written report, and
    /// one more for a converted sheet.
    pub fn answer(&mut self, case: &Case) -> Vec<String> {
        match case {
            Case::File(bytes) => vec![check(bytes).to_string()],
            Case::Write { order, room } => self.written(order, *room),
            Case::Convert { order, room } => self.converted(order.clone(), *room),
            Case::Patch(edits) => {
                for &(offset, byte) in edits {
                    self.report[offset] = byte;
                }
                vec![check(&self.report).to_string()]
            }
        }
    }

    fn written(&mut self, order: &Order, room: usize) -> Vec<String> {
        let mut buffer = vec![FILL; room];
        let result = write(order, &mut buffer);
        let sum = adler32(&buffer);
        match result {
            Ok(length) => {
                buffer.truncate(length);
                self.report = buffer;
                vec![format!("written {length} {sum}"), check(&self.report).to_string()]
            }
            Err(number) => vec![format!("refused {number} {sum}")],
        }
    }

    fn converted(&mut self, mut order: Order, room: usize) -> Vec<String> {
        let result = convert(&mut order.words);
        let sum = sum_of_words(&order.words);
        match result {
            Ok(()) => {
                let mut lines = vec![format!("words 0 {sum}")];
                lines.append(&mut self.written(&order, room));
                lines
            }
            Err(number) => vec![format!("words {number} {sum}")],
        }
    }

    /// The last written report, with the changes made to it since.
    pub fn report(&self) -> &[u8] {
        &self.report
    }
}

#[cfg(test)]
mod tests {
    use super::*;
    use crate::write::word;

    #[test]
    fn known_sums() {
        assert_eq!(adler32(b""), 1);
        assert_eq!(adler32(b"Wikipedia"), 0x11E6_0398);
    }

    #[test]
    fn cases_are_read_back() {
        let order = Order { year: 2005, quarter: 3, name: *b"STACK1", words: vec![1, u32::MAX] };
        let cases = vec![
            Case::File(b"100\n".to_vec()),
            Case::Write { order: order.clone(), room: 77 },
            Case::Convert { order, room: 78 },
            Case::Patch(vec![(5, b'x'), (1_000_000, 10)]),
            Case::File(Vec::new()),
        ];
        let mut bytes = Vec::new();
        cases.iter().for_each(|case| case.encode(&mut bytes));
        assert_eq!(decode(&bytes), Some(cases));
        assert_eq!(decode(&bytes[..bytes.len() - 1]), None);
    }

    #[test]
    fn a_converted_sheet_is_answered_as_the_present_one() {
        let hour = |flow| [50, 2_500, 2_000, 120, flow, 18_000];
        let order = |flow| {
            let words = hour(flow).iter().zip(0..).map(|(&value, kind)| word(kind, value)).collect();
            Order { year: 2005, quarter: 3, name: *b"STACK1", words }
        };
        let answer = |case| Answering::default().answer(&case);
        let sum = sum_of_words(&order(20_000).words);
        let present = answer(Case::Write { order: order(20_000), room: 400 });
        assert_eq!(present[1], "accepted 1 2 684 6667 358 1");
        let first = answer(Case::Convert { order: order(20_000_000), room: 400 });
        assert_eq!(first, [vec![format!("words 0 {sum}")], present].concat());
        let short = answer(Case::Convert { order: order(20_000_000), room: 392 });
        assert_eq!(short[0], first[0]);
        assert!(short[1].starts_with("refused 34 ") && short.len() == 2);
        let uneven = sum_of_words(&order(20_000_500).words);
        let refused = answer(Case::Convert { order: order(20_000_500), room: 400 });
        assert_eq!(refused, [format!("words 50 {uneven}")]);
    }
}
