//! The proved check and writer of quarterly stack reports, the year to date, hours from a recorder, and sheets kept from before, for safe
//! Rust. All take any input and never panic.

use std::fmt;

#[link(name = "edr_c", kind = "static")]
extern "C" {
    /// The call behind [`check`], for an answer of any room: see include/edr.h. The tests lend it too little.
    pub fn edr_check(file: *const u8, length: usize, answer: *mut u64, room: usize) -> u64;

    fn edr_write(
        year: u64,
        quarter: u64,
        name: *const u8,
        name_length: usize,
        sheet: *const u32,
        words: usize,
        buffer: *mut u8,
        room: usize,
    ) -> u64;

    /// The call behind [`join`], for slices of any length: see include/edr.h. `compare/` looks at every element that it lends.
    pub fn edr_year_to_date(
        previous: *const u64,
        previous_length: usize,
        answer: *const u64,
        answer_length: usize,
        year: u64,
        quarter: u64,
        record: *mut u64,
        room: usize,
    ) -> u64;

    /// The call behind [`recorder_words`], for any states and slices of any length: see include/edr.h. `compare/` looks at every element
    /// that it lends.
    pub fn edr_recorder_words(
        states: *const u8,
        states_length: usize,
        readings: *const f64,
        readings_length: usize,
        answer: *mut u32,
        room: usize,
    ) -> u64;

    /// The call behind [`convert`]: see include/edr.h. `compare/` looks at every word about what it lends.
    pub fn edr_convert(sheet: *mut u32, words: usize) -> u64;
}

/// The numbers of an answer, and the code with which `edr_check` returns an acceptance.
const ANSWER_LENGTH: usize = 6;
const ACCEPTED: u64 = 1;

/// The numbers of a record of the year to date, and the code with which `edr_year_to_date` returns one.
const YEAR_LENGTH: usize = 7;
const JOINED: u64 = 1;

/// The numbers of the answer to an hour from a recorder, and the code with which `edr_recorder_words` returns its words.
const RECORDER_ANSWER_LENGTH: usize = RECORDER_READINGS + 1;
const WORDS: u64 = 1;

/// What the check says of a report.
#[derive(Clone, Copy, Debug, PartialEq, Eq)]
pub enum Answer {
    /// The quarter's totals.
    Accepted(Quarter),
    /// The refusal's number and its line, counted from 1 (0 for the whole file).
    Refused { number: u64, line: u64 },
}

/// An accepted quarter: its operating hours; SO2 tons, CO2 tons and heat input (mmBtu) in tenths; the mean NOx rate (lb/mmBtu) in
/// thousandths; NOx tons in tenths.
#[derive(Clone, Copy, Debug, PartialEq, Eq)]
pub struct Quarter {
    pub hours: u64,
    pub so2: u64,
    pub co2: u64,
    pub heat: u64,
    pub nox: u64,
    pub nox_tons: u64,
}

/// What the writer did.
#[derive(Clone, Copy, Debug, PartialEq, Eq)]
pub enum Written {
    /// The report has so many bytes, at the front of the buffer; the bytes behind it are unchanged.
    Length(usize),
    /// The refusal's number, 31 to 34; no byte of the buffer is changed.
    Refused(u64),
}

/// The year to date after a quarter: year and quarter; operating hours; SO2 tons, CO2 tons, heat input (mmBtu) and NOx tons in tenths.
#[derive(Clone, Copy, Debug, PartialEq, Eq)]
pub struct YearToDate {
    pub year: u64,
    pub quarter: u64,
    pub hours: u64,
    pub so2: u64,
    pub co2: u64,
    pub heat: u64,
    pub nox_tons: u64,
}

impl YearToDate {
    /// Quarter 0 of a year, all zeros, which quarter 1 is joined to.
    pub const fn none(year: u64) -> YearToDate {
        YearToDate { year, quarter: 0, hours: 0, so2: 0, co2: 0, heat: 0, nox_tons: 0 }
    }
}

/// What joining a quarter to the year to date gave.
#[derive(Clone, Copy, Debug, PartialEq, Eq)]
pub enum Joined {
    /// The record with the quarter added.
    Record(YearToDate),
    /// The refusal's number, 41 or 42.
    Refused(u64),
}

/// A reading as a recorder hands it over.
#[derive(Clone, Copy, Debug, PartialEq)]
pub enum Reading {
    Measured(f64),
    Substituted(f64),
    Absent,
}

impl Reading {
    /// Its state for C, and its float, which is not looked at if it is absent.
    const fn parts(self) -> (u8, f64) {
        match self {
            Reading::Measured(float) => (0, float),
            Reading::Substituted(float) => (1, float),
            Reading::Absent => (2, 0.0),
        }
    }
}

/// An hour as a recorder hands it over: SO2 and NOx in ppm, CO2 in percent, flow in scfh.
#[derive(Clone, Copy, Debug, PartialEq)]
pub struct RecorderHour {
    pub so2: Reading,
    pub nox: Reading,
    pub co2: Reading,
    pub flow: Reading,
}

/// What an hour from a recorder gave.
#[derive(Clone, Copy, Debug, PartialEq, Eq)]
pub enum Recorded {
    /// The words of SO2, NOx, CO2 and flow, which stand so in a sheet between those of hour and Fc, and how many readings are
    /// substituted.
    Words { words: [u32; RECORDER_READINGS], substituted: u32 },
    /// The refusal's number, 44 to 46.
    Refused(u64),
}

/// What became of a sheet kept from before.
#[derive(Clone, Copy, Debug, PartialEq, Eq)]
pub enum Converted {
    /// It is one for [`write`](crate::write()).
    Done,
    /// The refusal's number, 31 or 50; no word is changed.
    Refused(u64),
}

/// The operating hours of the longest quarter.
pub const MOST_HOURS: usize = 2208;

/// The words of a sheet for an operating hour.
pub const HOUR_WORDS: usize = 6;

/// The readings of an hour from a recorder.
pub const RECORDER_READINGS: usize = 4;

/// The bytes of a report of so many operating hours and no idle ones. No accepted report has more than that of [`MOST_HOURS`].
pub const fn report_length(hours: usize) -> usize {
    75 + 318 * hours
}

/// The kinds of a sheet's words, in the order in which an hour's words stand, and what their values count.
#[derive(Clone, Copy, Debug, PartialEq, Eq)]
pub enum Kind {
    /// Hour of the quarter, 0 first, and operating time: see [`hour_word`].
    Hour = 0,
    /// Tenths of ppm.
    So2 = 1,
    /// Tenths of ppm.
    Nox = 2,
    /// Tenths of percent.
    Co2 = 3,
    /// Volumetric flow, thousands of scfh; in a sheet kept from before, scfh: see [`convert`].
    Flow = 4,
    /// Carbon-based F-factor, tenths of scf/mmBtu.
    Fc = 5,
}

/// A word has its value in the low bits and its kind above them.
const VALUE_BITS: u32 = 29;
const MOST_VALUE: u32 = (1 << VALUE_BITS) - 1;

/// A word of a sheet. A value too large for its bits becomes the largest, which the writer refuses in every kind.
pub const fn word(kind: Kind, value: u32) -> u32 {
    (kind as u32) << VALUE_BITS | at_most(MOST_VALUE, value)
}

/// The word of an hour of the quarter with its operating time in hundredths of an hour, 1 to 100: idle hours have no words. An hour or a
/// time too large for its bits becomes the largest, which the writer refuses.
pub const fn hour_word(hour: u32, time: u32) -> u32 {
    word(Kind::Hour, at_most(MOST_VALUE >> 7, hour) * 128 + at_most(127, time))
}

/// The value of a word, without its kind.
pub const fn value(word: u32) -> u32 {
    word & MOST_VALUE
}

const fn at_most(most: u32, value: u32) -> u32 {
    if value < most {
        value
    } else {
        most
    }
}

/// What the refusal of a number means.
pub const fn meaning(number: u64) -> &'static str {
    match number {
        1 => "the file is empty, or does not end with a newline (byte 10)",
        2 => "the line is not of the type that is due there, or follows the last line",
        3 => "the line has another length than its type",
        4 => "the line has a byte that is not printable ASCII",
        5 => "the stack name is blank (line 100) or unlike that of line 100",
        6 => "year, quarter, date or hour is not digits, no real date, outside the quarter, or not later than the one before",
        7 => "date and hour differ from the 200 line of the same rank, or no 200 line has that rank",
        8 => "a value is not in its format",
        9 => "a value is outside its range",
        10 => "lines are missing at the end",
        11 => "no unrounded readings give this hour's heat input rate",
        12 => "no unrounded readings give this hour's SO2 mass emission rate",
        13 => "no unrounded readings give this hour's NOx emission rate",
        14 => "no unrounded readings give this hour's CO2 mass emission rate",
        21 => "line 301's SO2 differs from the total formed",
        22 => "line 301's CO2 differs from the total formed",
        23 => "line 301's heat input differs from the total formed",
        24 => "line 301's mean NOx emission rate differs from the one formed",
        31 => "year, quarter, name, word count or a kind of the sheet is wrong, or its hours do not rise or are not in the quarter",
        32 => "a value of the sheet is outside its range",
        33 => "a figure of the sheet's hours is too large for its columns",
        34 => "the buffer is shorter than the report",
        41 => "the quarter is not 1 to 4 or not next in the previous record's year, a quarter 0 is not all zeros, or hours pass 2,208 a quarter",
        42 => "a sum of the year passes 9,999,999,999 tenths",
        43 => "the flow is not a whole thousand of scfh",
        44 => "a reading of the recorder's hour is absent",
        45 => "a reading of the recorder's hour is negative or not finite",
        46 => "a reading of the recorder's hour, once rounded, is outside its range or its columns",
        47 => "the time is 0.00 and the heat input is not blank",
        48 => "line 301's NOx tons differ from the total formed",
        49 => "GAS on the 310 line and a blank SO2 reading on the 200 line of the same rank do not go together",
        50 => "a flow word of the kept sheet, which has scfh, is not a whole thousand",
        _ => "no refusal has this number",
    }
}

/// Checks a report.
pub fn check(file: &[u8]) -> Answer {
    let mut answer = [0; ANSWER_LENGTH];
    // SAFETY: each pointer and length are those of a slice that is borrowed for the call.
    let code = unsafe { edr_check(file.as_ptr(), file.len(), answer.as_mut_ptr(), answer.len()) };
    let [hours, so2, co2, heat, nox, nox_tons] = answer;
    match code {
        ACCEPTED => Answer::Accepted(Quarter { hours, so2, co2, heat, nox, nox_tons }),
        _ => Answer::Refused { number: answer[0], line: answer[1] },
    }
}

/// Writes the report of a sheet, [`HOUR_WORDS`] words to an operating hour, to the front of the buffer.
pub fn write(year: u64, quarter: u64, name: &[u8], sheet: &[u32], buffer: &mut [u8]) -> Written {
    // SAFETY: each pointer and length are those of a slice that is borrowed for the call.
    let code = unsafe {
        edr_write(
            year,
            quarter,
            name.as_ptr(),
            name.len(),
            sheet.as_ptr(),
            sheet.len(),
            buffer.as_mut_ptr(),
            buffer.len(),
        )
    };
    if code < report_length(0) as u64 {
        Written::Refused(code)
    } else {
        Written::Length(code as usize)
    }
}

/// Adds an accepted quarter of a year to the year to date, which is [`YearToDate::none`] before quarter 1.
pub fn join(previous: YearToDate, year: u64, quarter: u64, answer: Quarter) -> Joined {
    let previous = [
        previous.year,
        previous.quarter,
        previous.hours,
        previous.so2,
        previous.co2,
        previous.heat,
        previous.nox_tons,
    ];
    let answer = [answer.hours, answer.so2, answer.co2, answer.heat, answer.nox, answer.nox_tons];
    let mut record = [0; YEAR_LENGTH];
    // SAFETY: each pointer and length are those of an array that is borrowed for the call.
    let code = unsafe {
        edr_year_to_date(
            previous.as_ptr(),
            previous.len(),
            answer.as_ptr(),
            answer.len(),
            year,
            quarter,
            record.as_mut_ptr(),
            record.len(),
        )
    };
    let [year, quarter, hours, so2, co2, heat, nox_tons] = record;
    match code {
        JOINED => Joined::Record(YearToDate { year, quarter, hours, so2, co2, heat, nox_tons }),
        _ => Joined::Refused(record[0]),
    }
}

/// Makes the words of an hour from a recorder: SO2, NOx and CO2 in tenths, flow in thousands of scfh. The exact binary value of
/// each float is rounded half up: the float 0.15 lies below 0.15 and is recorded as 0.1.
pub fn recorder_words(hour: RecorderHour) -> Recorded {
    let parts = [hour.so2, hour.nox, hour.co2, hour.flow].map(Reading::parts);
    let states = parts.map(|(state, _)| state);
    let readings = parts.map(|(_, float)| float);
    let mut answer = [0; RECORDER_ANSWER_LENGTH];
    // SAFETY: each pointer and length are those of an array that is borrowed for the call.
    let code = unsafe {
        edr_recorder_words(
            states.as_ptr(),
            states.len(),
            readings.as_ptr(),
            readings.len(),
            answer.as_mut_ptr(),
            answer.len(),
        )
    };
    let [so2, nox, co2, flow, substituted] = answer;
    match code {
        WORDS => Recorded::Words { words: [so2, nox, co2, flow], substituted },
        _ => Recorded::Refused(answer[0].into()),
    }
}

/// Makes a sheet kept from before, whose flow words have scfh, into one for [`write`](crate::write()): flow words count thousands, all
/// other words stay. With flows of at most 500,000,000 scfh its report is the former one, byte for byte. Convert a sheet only once, and
/// keep the original: converted words pass for kept ones, 20,000,000 becomes 20,000 and then 20.
pub fn convert(sheet: &mut [u32]) -> Converted {
    // SAFETY: pointer and length are those of a slice that is borrowed for the call.
    match unsafe { edr_convert(sheet.as_mut_ptr(), sheet.len()) } {
        0 => Converted::Done,
        number => Converted::Refused(number),
    }
}

impl fmt::Display for Answer {
    fn fmt(&self, out: &mut fmt::Formatter) -> fmt::Result {
        match self {
            Answer::Accepted(Quarter { hours, so2, co2, heat, nox, nox_tons }) => {
                write!(out, "accepted {hours} {so2} {co2} {heat} {nox} {nox_tons}")
            }
            Answer::Refused { number, line } => write!(out, "refused {number} {line}"),
        }
    }
}

impl fmt::Display for Written {
    fn fmt(&self, out: &mut fmt::Formatter) -> fmt::Result {
        match self {
            Written::Length(length) => write!(out, "written {length}"),
            Written::Refused(number) => write!(out, "refused {number}"),
        }
    }
}

impl fmt::Display for YearToDate {
    fn fmt(&self, out: &mut fmt::Formatter) -> fmt::Result {
        let YearToDate { year, quarter, hours, so2, co2, heat, nox_tons } = self;
        write!(out, "year to date {year} {quarter} {hours} {so2} {co2} {heat} {nox_tons}")
    }
}

impl fmt::Display for Joined {
    fn fmt(&self, out: &mut fmt::Formatter) -> fmt::Result {
        match self {
            Joined::Record(record) => write!(out, "{record}"),
            Joined::Refused(number) => write!(out, "refused {number}"),
        }
    }
}

/// The values of the words, SO2, NOx and CO2 in tenths and flow in thousands of scfh, and how many readings are substituted.
impl fmt::Display for Recorded {
    fn fmt(&self, out: &mut fmt::Formatter) -> fmt::Result {
        match self {
            Recorded::Words { words, substituted } => {
                let [so2, nox, co2, flow] = words.map(value);
                write!(out, "recorded {so2} {nox} {co2} {flow} {substituted}")
            }
            Recorded::Refused(number) => write!(out, "refused {number}"),
        }
    }
}

impl fmt::Display for Converted {
    fn fmt(&self, out: &mut fmt::Formatter) -> fmt::Result {
        match self {
            Converted::Done => write!(out, "converted"),
            Converted::Refused(number) => write!(out, "refused {number}"),
        }
    }
}
