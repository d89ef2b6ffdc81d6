//! A report as lines that can be changed one by one.

use crate::layout::*;
use crate::random::Random;
use std::ops::Range;

/// All record types.
const RECORDS: &[Record] = &[R100, R200, R201, R202, R220, R300, R301, R310, R320, R330];

/// The lines of a report without their ends. `hours` is the number of
/// operating hours before anything was changed.
#[derive(Clone, Debug)]
pub struct Page {
    pub lines: Vec<Vec<u8>>,
    pub hours: usize,
    /// The record type of each line of the unchanged page.
    records: Vec<&'static Record>,
    /// The lines of the operating hours on the unchanged page, for each block of
    /// `HOURLY`.
    operating: [Vec<usize>; 8],
}

/// Whether a line is that of an idle hour, in a sound report.
pub fn is_idle(line: &[u8]) -> bool {
    line.starts_with(R300.kind) && TIME.columns.of(line) == b"0.00"
}

impl Page {
    /// The page of a sound report.
    pub fn of(bytes: &[u8]) -> Self {
        let text = &bytes[..bytes.len() - 1];
        let lines: Vec<Vec<u8>> = text.split(|&byte| byte == b'\n').map(<[u8]>::to_vec).collect();
        let record_of = |line: &[u8]| RECORDS.iter().find(|record| line.starts_with(record.kind));
        let records = lines.iter().map(|line| record_of(line).expect("a line of a report")).collect();
        let operating = HOURLY.map(|record| -> Vec<usize> {
            let belongs = |line: &[u8]| line.starts_with(record.kind) && !is_idle(line);
            (0..lines.len()).filter(|&index| belongs(&lines[index])).collect()
        });
        Page { hours: operating[0].len(), lines, records, operating }
    }

    /// The lines with their ends.
    pub fn bytes(&self) -> Vec<u8> {
        let mut bytes = Vec::new();
        for line in &self.lines {
            bytes.extend_from_slice(line);
            bytes.push(b'\n');
        }
        bytes
    }

    /// The index of an operating hour's line in a block of `HOURLY`.
    pub fn index(&self, block: usize, rank: usize) -> usize {
        self.operating[block][rank]
    }

    /// The index of line 301.
    pub fn totals(&self) -> usize {
        self.indices(&R301).start
    }

    /// The indices of the lines of one record type.
    pub fn indices(&self, record: &Record) -> Range<usize> {
        let start = self.records.partition_point(|other| other.kind < record.kind);
        let end = self.records.partition_point(|other| other.kind <= record.kind);
        start..end
    }

    /// The record type that belongs at an index of the unchanged page.
    pub fn record(&self, index: usize) -> &'static Record {
        self.records.get(index).copied().unwrap_or(&R330)
    }

    /// Puts text into columns; does nothing where the line does not reach.
    pub fn set(&mut self, index: usize, columns: Columns, text: &[u8]) {
        if let Some(line) = self.lines.get_mut(index) {
            if line.len() >= columns.0 - 1 + columns.1 && text.len() == columns.1 {
                columns.of_mut(line).copy_from_slice(text);
            }
        }
    }

    /// The text in columns, if the line reaches that far.
    pub fn get(&self, index: usize, columns: Columns) -> Option<Vec<u8>> {
        let line = self.lines.get(index)?;
        (line.len() >= columns.0 - 1 + columns.1).then(|| columns.of(line).to_vec())
    }

    /// Any index of a line.
    pub fn any(&self, random: &mut Random) -> usize {
        random.below(self.lines.len().max(1))
    }
}

/// Two places of which neither is the other, if there are two.
pub fn two_below(random: &mut Random, count: usize) -> Option<(usize, usize)> {
    if count < 2 {
        return None;
    }
    let first = random.below(count);
    let second = (first + 1 + random.below(count - 1)) % count;
    Some((first, second))
}
