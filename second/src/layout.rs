//! Where everything stands on a line: record types, lengths, columns, number
//! formats and ranges, and reading and writing one number in its columns.

/// A run of columns, counted from 1: the paper's "18+7" is `Columns(18, 7)`.
#[derive(Clone, Copy, Debug, PartialEq, Eq)]
pub struct Columns(pub usize, pub usize);

impl Columns {
    /// These columns of a line that is long enough.
    pub fn of(self, line: &[u8]) -> &[u8] {
        &line[self.0 - 1..self.0 - 1 + self.1]
    }

    /// The same, to be changed.
    pub fn of_mut(self, line: &mut [u8]) -> &mut [u8] {
        &mut line[self.0 - 1..self.0 - 1 + self.1]
    }
}

/// One value on a line: its columns, its decimals (0 for the paper's I), its
/// range, if it has one, and the unit in which it is recorded. A number as it
/// stands in the columns, and with it range and unit, counts the last decimal.
#[derive(Clone, Copy, Debug)]
pub struct Value {
    pub columns: Columns,
    pub decimals: usize,
    pub range: Option<(u128, u128)>,
    pub unit: u128,
}

impl Value {
    /// The largest number that the columns hold.
    pub fn largest(&self) -> u128 {
        let digits = self.columns.1 - usize::from(self.decimals > 0);
        10u128.pow(digits as u32) - 1
    }

    /// The ends of the range, or, where there is none, of what the columns hold.
    pub fn limits(&self) -> (u128, u128) {
        self.range.unwrap_or((0, self.largest()))
    }

    /// Whether a number is within the limits.
    pub fn in_range(&self, number: u128) -> bool {
        let (low, high) = self.limits();
        (low..=high).contains(&number)
    }

    /// A number as a count of the recorded unit, or nothing if it is no whole
    /// multiple of it.
    pub fn recorded(&self, number: u128) -> Option<u128> {
        number.is_multiple_of(self.unit).then_some(number / self.unit)
    }
}

/// One record type.
#[derive(Clone, Copy, Debug)]
pub struct Record {
    pub kind: &'static [u8; 3],
    pub length: usize,
    pub date: Option<Columns>,
    pub values: &'static [Value],
}

/// The stack name stands here on every line.
pub const NAME: Columns = Columns(4, 6);
/// The year on line 100.
pub const YEAR: Columns = Columns(10, 4);
/// The quarter on line 100.
pub const QUARTER: Columns = Columns(14, 1);

/// The date and hour on a 200 line.
pub const DATE_200: Columns = Columns(16, 8);
/// The date and hour on a 300 line.
pub const DATE_300: Columns = Columns(10, 8);

/// A value that may be anything its columns hold.
const fn free(start: usize, width: usize, decimals: usize) -> Value {
    Value { columns: Columns(start, width), decimals, range: None, unit: 1 }
}

/// A value with a range.
const fn ranged(start: usize, width: usize, decimals: usize, low: u128, high: u128) -> Value {
    Value { range: Some((low, high)), ..free(start, width, decimals) }
}

/// SO2 of a monitor. For a gas hour its columns are blank.
pub const SO2: Value = free(35, 6, 1);

/// Where the word of a gas hour stands on its 310 line.
pub const GAS_COLUMNS: Columns = Columns(32, 3);
/// The word itself.
pub const GAS_WORD: &[u8; 3] = b"GAS";

/// Flow in scfh, recorded to the nearest thousand.
pub const FLOW: Value = Value { unit: 1_000, ..ranged(39, 10, 0, 0, 9_999_999_000) };

/// The time of an operating hour. That of an idle hour is 0.
pub const TIME: Value = ranged(18, 4, 2, 1, 100);

/// Heat input of an operating hour. For an idle hour its columns are blank.
pub const HEAT: Value = free(36, 7, 1);

const fn record(
    kind: &'static [u8; 3],
    length: usize,
    date: Option<Columns>,
    values: &'static [Value],
) -> Record {
    Record { kind, length, date, values }
}

pub const R100: Record = record(b"100", 14, None, &[]);
pub const R200: Record = record(b"200", 40, Some(DATE_200), &[SO2]);
pub const R201: Record = record(b"201", 34, Some(Columns(16, 8)), &[free(29, 6, 1)]);
pub const R202: Record = record(b"202", 34, Some(Columns(16, 8)), &[ranged(29, 6, 1, 1, 1000)]);
pub const R220: Record = record(b"220", 48, Some(Columns(16, 8)), &[FLOW]);
pub const R300: Record = record(b"300", 42, Some(DATE_300), &[TIME, HEAT]);
pub const R301: Record = record(
    b"301",
    59,
    None,
    &[free(10, 11, 1), free(21, 11, 1), free(32, 11, 1), free(43, 6, 3), free(49, 11, 1)],
);
pub const R310: Record = record(b"310", 34, Some(Columns(10, 8)), &[free(25, 7, 1)]);
pub const R320: Record =
    record(b"320", 54, Some(Columns(13, 8)), &[ranged(26, 10, 1, 5_000, 30_000), free(36, 6, 3)]);
pub const R330: Record = record(b"330", 24, Some(Columns(10, 8)), &[free(18, 7, 1)]);

/// The eight record types of an operating hour, in file order.
pub const HOURLY: [Record; 8] = [R200, R201, R202, R220, R300, R310, R320, R330];

/// The bytes of a report with so many operating hours and no idle ones.
pub fn report_length(hours: usize) -> usize {
    75 + 318 * hours
}

/// Whether a 310 line is that of a gas hour.
pub fn says_gas(line: &[u8]) -> bool {
    GAS_COLUMNS.of(line) == GAS_WORD
}

/// Whether a field has nothing but blanks.
pub fn is_blank(field: &[u8]) -> bool {
    field.iter().all(|&byte| byte == b' ')
}

/// The number in a field, or nothing if it is not in the format: blanks or
/// none, at least one digit, and with decimals a point and exactly so many
/// digits, to the end of the field.
pub fn read_number(field: &[u8], decimals: usize) -> Option<u128> {
    let blanks = field.iter().take_while(|&&b| b == b' ').count();
    let text = &field[blanks..];
    let (whole, fraction): (&[u8], &[u8]) = if decimals == 0 {
        (text, &[])
    } else {
        let point = text.len().checked_sub(decimals + 1)?;
        if text[point] != b'.' {
            return None;
        }
        (&text[..point], &text[point + 1..])
    };
    if whole.is_empty() {
        return None;
    }
    let mut number = 0;
    for &byte in whole.iter().chain(fraction) {
        if !byte.is_ascii_digit() {
            return None;
        }
        number = 10 * number + u128::from(byte - b'0');
    }
    Some(number)
}

/// The number as text, with at least one digit before the point and no
/// needless zero.
pub fn plain_number(number: u128, decimals: usize) -> String {
    if decimals == 0 {
        return number.to_string();
    }
    let digits = format!("{number:0width$}", width = decimals + 1);
    let (whole, fraction) = digits.split_at(digits.len() - decimals);
    format!("{whole}.{fraction}")
}

#[cfg(test)]
mod tests {
    use super::*;

    #[test]
    fn an_hour_takes_318_bytes() {
        let hour: usize = HOURLY.iter().map(|r| r.length + 1).sum();
        assert_eq!(hour, 318);
        assert_eq!(R100.length + 1 + R301.length + 1, 75);
        assert_eq!(report_length(2_208), 702_219);
    }

    #[test]
    fn numbers_in_and_out_of_format() {
        for (text, number) in [("   0.0", 0), ("9999.9", 99_999), ("0012.3", 123), ("  12.3", 123)] {
            assert_eq!(read_number(text.as_bytes(), 1), Some(number));
        }
        for text in
            ["      ", "    .5", "  12. ", " 12.3 ", " 1 2.3", " -12.3", "+12.3", "  1.23", "  1..3", "  123"]
        {
            assert_eq!(read_number(text.as_bytes(), 1), None, "{text}");
        }
        assert_eq!(read_number(b"0000000000", 0), Some(0));
        assert_eq!(read_number(b"         7", 0), Some(7));
        assert_eq!(read_number(b"          ", 0), None);
        assert_eq!(read_number(b"       7.0", 0), None);
        for time in [" .00", "0.0 ", " 0.0", "0000", "   0", "00.0", ".000", "-.00", "0,00"] {
            assert_eq!(read_number(time.as_bytes(), TIME.decimals), None, "{time}");
        }
        assert_eq!(read_number(b"0.00", TIME.decimals), Some(0));
    }

    #[test]
    fn a_gas_hour_has_its_word_in_capitals_at_the_end_of_line_310() {
        let line = |word: &str| format!("310STACK105070100           0.8{word}").into_bytes();
        assert_eq!(line("GAS").len(), R310.length);
        assert!(says_gas(&line("GAS")));
        for word in ["   ", "gas", "Gas", "GAs", "GA ", " GA", "AS ", " AS", "GAX", "XAS", "SAG", "GGG"] {
            assert!(!says_gas(&line(word)), "{word}");
        }
    }

    #[test]
    fn blank_is_blanks_alone() {
        assert!(is_blank(b"       "));
        for text in ["0      ", "      0", "   .   ", "    0.0", "\t\t\t\t\t\t\t", "\0\0\0\0\0\0\0"] {
            assert!(!is_blank(text.as_bytes()), "{text}");
        }
    }

    #[test]
    fn written_numbers_are_read_back() {
        for decimals in 0..4 {
            for number in (0..3000).chain([99_999, 123_456_789]) {
                let text = plain_number(number, decimals);
                assert_eq!(read_number(text.as_bytes(), decimals), Some(number));
            }
        }
        assert_eq!(plain_number(5, 3), "0.005");
    }

    #[test]
    fn flow_is_recorded_in_thousands() {
        for (number, recorded) in [(0, Some(0)), (1, None), (500, None), (999, None), (1_000, Some(1))] {
            assert_eq!(FLOW.recorded(number), recorded);
        }
        assert_eq!(FLOW.recorded(9_999_999_000), Some(9_999_999));
        assert!(FLOW.in_range(500_000_001) && FLOW.in_range(9_999_999_000) && !FLOW.in_range(9_999_999_001));
        assert_eq!(R200.values[0].recorded(2_501), Some(2_501));
    }
}
