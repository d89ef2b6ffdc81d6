//! Damage to whole files: cuts, flips, and lines lost, doubled, swapped,
//! foreign, too long, too short, blank or too many.

use super::changes::ODD_BYTES;
use super::page::{two_below, Page};
use super::recorder;
use crate::layout::HOURLY;
use crate::random::Random;

/// How many kinds of damage there are.
pub const KINDS: usize = 28;

/// The file with damage of the kind that the turn names. The page has at least
/// the lines 100 and 301.
pub fn damaged(random: &mut Random, turn: usize, mut page: Page) -> Vec<u8> {
    match turn % KINDS {
        0..=8 => by_line(random, turn % KINDS, &mut page),
        9..=16 => by_shape(random, turn % KINDS, &mut page),
        kind => return by_byte(random, kind, page.bytes()),
    }
    page.bytes()
}

/// Lines lost, doubled, moved or foreign.
fn by_line(random: &mut Random, kind: usize, page: &mut Page) {
    let index = page.any(random);
    let count = page.lines.len();
    match kind {
        0 => drop(page.lines.remove(index)),
        1 => page.lines.insert(index, page.lines[index].clone()),
        2 => {
            if let Some((a, b)) = two_below(random, count) {
                page.lines.swap(a, b);
            }
        }
        3 => {
            let next = (index + 1) % count;
            page.lines.swap(index, next);
        }
        4 => {
            // A line of another report.
            let hours = random.below(3);
            let report = recorder::report(random, hours);
            let mut other = Page::of(&recorder::bytes(random, &report));
            let place = other.any(random);
            page.lines.insert(random.below(count + 1), other.lines.swap_remove(place));
        }
        5 => {
            // Another type on a line that stays otherwise.
            let kinds = [b"100", b"200", b"201", b"202", b"220", b"300", b"301", b"310", b"320", b"330"];
            let odd = [b"101", b"000", b"   ", b"2OO", b"999", b"20 ", b" 20"];
            let kind = if random.once_in(2) { random.pick(&kinds) } else { random.pick(&odd) };
            if page.lines[index].len() >= 3 {
                page.lines[index][..3].copy_from_slice(kind);
            }
        }
        6 => {
            let last = page.lines[count - 1].clone();
            page.lines.push(last);
        }
        7 => page.lines.truncate(random.below(count).max(1)),
        _ => {
            // One hour's line lost from a block, or all its lines but one.
            if page.hours > 0 {
                let rank = random.below(page.hours);
                let kept = random.below(HOURLY.len());
                let mut lost: Vec<usize> =
                    (0..8).filter(|&b| b != kept).map(|b| page.index(b, rank)).collect();
                lost.sort_unstable_by(|a, b| b.cmp(a));
                lost.into_iter().filter(|&i| i < count).for_each(|i| drop(page.lines.remove(i)));
            }
        }
    }
}

/// Lines of a wrong shape, or added ones.
fn by_shape(random: &mut Random, kind: usize, page: &mut Page) {
    let index = page.any(random);
    let count = page.lines.len();
    match kind {
        9 => {
            // Too long, a little or a lot.
            let more = random.pick(&[1, 1, 2, 40, 300]);
            let byte = random.pick(b" 0x~\r");
            page.lines[index].extend(vec![byte; more]);
        }
        10 => {
            let length = page.lines[index].len();
            page.lines[index].truncate(random.below(length.max(1)));
        }
        11 => drop(page.lines[index].pop()),
        12 => page.lines.insert(random.below(count + 1), Vec::new()),
        13 => page.lines.iter_mut().for_each(|line| line.push(b'\r')),
        14 => page.lines[index].push(b'\r'),
        15 => {
            let extra: [&[u8]; 7] = [b"", b" ", b"999", b"301", b"330", b"100STK1  20053", b"End of file"];
            page.lines.push(random.pick(&extra).to_vec());
        }
        _ => {
            // A line split in two.
            let length = page.lines[index].len();
            let rest = page.lines[index].split_off(random.below(length + 1));
            page.lines.insert(index + 1, rest);
        }
    }
}

/// Damage to the bytes without regard to lines.
fn by_byte(random: &mut Random, kind: usize, mut bytes: Vec<u8>) -> Vec<u8> {
    let place = random.below(bytes.len());
    match kind {
        17 | 18 => bytes.truncate(place),
        19 => {
            bytes.truncate(place);
            bytes.push(b'\n');
        }
        20 | 21 => bytes[place] ^= 1 << random.below(8),
        22 => bytes[place] = random.pick(&ODD_BYTES),
        23 => bytes[place] = b'\n',
        24 => drop(bytes.remove(place)),
        25 => bytes.insert(place, random.printable()),
        26 => {
            // No end on the last line, or something behind it.
            bytes.pop();
            let behind: [&[u8]; 6] = [b"", b"\r", b"\0", b"\n ", b"\n\x1a", b"\x0b"];
            bytes.extend_from_slice(random.pick(&behind));
        }
        _ => {
            let whole: [&[u8]; 12] = [
                b"",
                b"\n",
                b"\r\n",
                b"\n\n",
                b" \n",
                b"100",
                b"100\n",
                b"10\n",
                b"\xEF\xBB\xBF",
                b"100STK1  20053",
                b"100STK1  20053\n",
                b"100STK1  20053\n301STK1",
            ];
            match random.below(4) {
                0 => bytes = [b"\xEF\xBB\xBF", bytes.as_slice()].concat(),
                1 => bytes = [bytes.as_slice(), bytes.as_slice()].concat(),
                _ => bytes = random.pick(&whole).to_vec(),
            }
        }
    }
    bytes
}
