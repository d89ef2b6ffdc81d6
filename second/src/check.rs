//! The check of a report file, place by place.

use crate::calendar::{exists, Moment};
use crate::figures::{Gas, Monitor, Readings, FIGURES};
use crate::layout::*;
use crate::report::{totals_of, Totals, TOTALS};
use std::fmt;

/// What the check says of a file.
#[derive(Clone, Debug, PartialEq, Eq)]
pub enum Answer {
    /// The operating hours and the totals.
    Accepted { hours: usize, totals: Totals },
    /// The number of the cause, and the line counted from 1 (0: whole file).
    Refused(Fault),
}

/// A cause of refusal and its line.
#[derive(Clone, Copy, Debug, PartialEq, Eq)]
pub struct Fault {
    pub number: u32,
    pub line: usize,
}

impl fmt::Display for Answer {
    fn fmt(&self, out: &mut fmt::Formatter<'_>) -> fmt::Result {
        match self {
            Answer::Accepted { hours, totals: [so2, co2, heat, mean, nox_tons] } => {
                write!(out, "accepted {hours} {so2} {co2} {heat} {mean} {nox_tons}")
            }
            Answer::Refused(Fault { number, line }) => write!(out, "refused {number} {line}"),
        }
    }
}

fn fault<T>(number: u32, line: usize) -> Result<T, Fault> {
    Err(Fault { number, line })
}

/// Checks a whole file.
pub fn check(file: &[u8]) -> Answer {
    match read(file).and_then(|contents| judge(&contents)) {
        Ok(answer) => answer,
        Err(fault) => Answer::Refused(fault),
    }
}

/// What the lines of a file say.
#[derive(Default)]
struct Contents {
    times: Vec<u128>,
    readings: Vec<Readings>,
    figures: Vec<[u128; 4]>,
    /// The lines of the heat figures: idle hours may stand between them.
    heat_lines: Vec<usize>,
    totals: Totals,
    totals_line: usize,
}

impl Contents {
    /// The line of an hour's figure. The lines 310, 320 and 330 follow on the
    /// totals, and have no idle hours among them.
    fn line_of_figure(&self, index: usize, rank: usize) -> usize {
        match index {
            0 => self.heat_lines[rank],
            _ => self.totals_line + (index - 1) * self.heat_lines.len() + rank + 1,
        }
    }
}

/// What the 300 line of an operating hour says, and where it stands.
struct OperatingHour {
    line: usize,
    time: u128,
    heat: u128,
}

/// The dates of one record type: hours of the quarter, each later than the one
/// before.
struct RisingDates {
    year: u32,
    quarter: u32,
    last: Option<Moment>,
}

impl RisingDates {
    fn of_quarter(year: u32, quarter: u32) -> Self {
        RisingDates { year, quarter, last: None }
    }

    /// Whether the next date is as it must be.
    fn take(&mut self, date: &[u8]) -> bool {
        let before = self.last;
        self.last = moment(date, self.year, self.quarter);
        // Nothing is less than any date, so a wrong date is not later either.
        self.last > before
    }
}

/// The lines of a file without their ends, and how far they have been read.
struct Lines<'a> {
    lines: Vec<&'a [u8]>,
    read: usize,
    name: &'a [u8],
}

impl<'a> Lines<'a> {
    /// Splits the file into lines; every line has an end.
    fn split(file: &'a [u8]) -> Result<Self, Fault> {
        let Some((b'\n', text)) = file.split_last() else {
            return fault(1, 0);
        };
        let lines = text.split(|&byte| byte == b'\n').collect();
        Ok(Lines { lines, read: 0, name: b"" })
    }

    /// Whether the next line is there and begins with this type.
    fn next_is(&self, record: &Record) -> bool {
        self.lines.get(self.read).is_some_and(|line| line.starts_with(record.kind))
    }

    /// The next line, which must be of this type, of its length, printable and
    /// of the right stack. Its number becomes `self.read`.
    fn next(&mut self, record: &Record) -> Result<&'a [u8], Fault> {
        let number = self.read + 1;
        let Some(&line) = self.lines.get(self.read) else {
            return fault(10, number);
        };
        if !line.starts_with(record.kind) {
            return fault(2, number);
        }
        if line.len() != record.length {
            return fault(3, number);
        }
        if line.iter().any(|byte| !(32..=126).contains(byte)) {
            return fault(4, number);
        }
        let name = NAME.of(line);
        if record.kind == b"100" {
            self.name = name;
            if is_blank(name) {
                return fault(5, number);
            }
        } else if name != self.name {
            return fault(5, number);
        }
        self.read = number;
        Ok(line)
    }

    /// The next line of a record type whose dates rise, and its date.
    fn next_rising(
        &mut self,
        record: &Record,
        date: Columns,
        dates: &mut RisingDates,
    ) -> Result<(&'a [u8], &'a [u8]), Fault> {
        let line = self.next(record)?;
        let date = date.of(line);
        if dates.take(date) {
            Ok((line, date))
        } else {
            fault(6, self.read)
        }
    }

    /// The next line of an operating hour, 200 and 300 lines apart: its date is
    /// that of the 200 line of the same rank.
    fn next_dated(&mut self, record: &Record, date: &[u8]) -> Result<&'a [u8], Fault> {
        let line = self.next(record)?;
        match record.date {
            Some(columns) if columns.of(line) != date => fault(7, self.read),
            _ => Ok(line),
        }
    }

    /// Value number `index` of the line just read, in its recorded unit.
    fn value(&self, line: &[u8], record: &Record, index: usize) -> Result<u128, Fault> {
        let value = &record.values[index];
        let Some(number) = read_number(value.columns.of(line), value.decimals) else {
            return fault(8, self.read);
        };
        if !value.in_range(number) {
            return fault(9, self.read);
        }
        match value.recorded(number) {
            Some(recorded) => Ok(recorded),
            None => fault(43, self.read),
        }
    }

    /// The time on the 300 line just read, or nothing if its hour is idle.
    fn time(&self, line: &[u8]) -> Result<Option<u128>, Fault> {
        match read_number(TIME.columns.of(line), TIME.decimals) {
            Some(0) => Ok(None),
            _ => self.value(line, &R300, 0).map(Some),
        }
    }

    /// The SO2 reading on the 200 line just read, or nothing if it is blank, as
    /// that of a gas hour should be.
    fn so2_reading(&self, line: &[u8]) -> Result<Option<u128>, Fault> {
        if is_blank(SO2.columns.of(line)) {
            Ok(None)
        } else {
            self.value(line, &R200, 0).map(Some)
        }
    }

    /// The 300 lines: those of the operating hours, one for each date, and idle
    /// hours before, between and behind them.
    fn listed_hours(
        &mut self,
        dates: &[&[u8]],
        mut rising: RisingDates,
    ) -> Result<Vec<OperatingHour>, Fault> {
        let mut operating: Vec<OperatingHour> = Vec::with_capacity(dates.len());
        while operating.len() < dates.len() || self.next_is(&R300) {
            let (line, date) = self.next_rising(&R300, DATE_300, &mut rising)?;
            let Some(time) = self.time(line)? else {
                if !is_blank(HEAT.columns.of(line)) {
                    return fault(47, self.read);
                }
                continue;
            };
            if dates.get(operating.len()) != Some(&date) {
                return fault(7, self.read);
            }
            operating.push(OperatingHour { line: self.read, time, heat: self.value(line, &R300, 1)? });
        }
        Ok(operating)
    }

    /// The block of a record type with a single value, one line for each date.
    fn block(&mut self, record: &Record, dates: &[&[u8]]) -> Result<Vec<u128>, Fault> {
        let mut numbers = Vec::with_capacity(dates.len());
        for date in dates {
            let line = self.next_dated(record, date)?;
            numbers.push(self.value(line, record, 0)?);
        }
        Ok(numbers)
    }

    /// The same for a record type with two values.
    fn double_block(&mut self, record: &Record, dates: &[&[u8]]) -> Result<Vec<[u128; 2]>, Fault> {
        let mut numbers = Vec::with_capacity(dates.len());
        for date in dates {
            let line = self.next_dated(record, date)?;
            numbers.push([self.value(line, record, 0)?, self.value(line, record, 1)?]);
        }
        Ok(numbers)
    }

    /// The 310 lines, one for each date. Those of hours without an SO2 reading
    /// say GAS, and no others do.
    fn so2_rates(&mut self, dates: &[&[u8]], so2: &[Option<u128>]) -> Result<Vec<u128>, Fault> {
        let mut rates = Vec::with_capacity(dates.len());
        for (date, reading) in dates.iter().zip(so2) {
            let line = self.next_dated(&R310, date)?;
            if says_gas(line) != reading.is_none() {
                return fault(49, self.read);
            }
            rates.push(self.value(line, &R310, 0)?);
        }
        Ok(rates)
    }
}

/// The number that some digits make, or nothing if one is no digit.
fn digits(field: &[u8]) -> Option<u32> {
    field
        .iter()
        .try_fold(0, |number, byte| byte.is_ascii_digit().then(|| 10 * number + u32::from(byte - b'0')))
}

/// Year and quarter of line 100.
fn year_and_quarter(line: &[u8]) -> Option<(u32, u32)> {
    let year = digits(YEAR.of(line))?;
    let quarter = digits(QUARTER.of(line))?;
    ((1995..=2094).contains(&year) && (1..=4).contains(&quarter)).then_some((year, quarter))
}

/// The moment that eight digits tell, if it is one of the quarter.
fn moment(date: &[u8], year: u32, quarter: u32) -> Option<Moment> {
    let two_digits: Option<Vec<u32>> = date.chunks(2).map(digits).collect();
    let &[yy, month, day, hour] = two_digits?.as_slice() else {
        return None;
    };
    let moment = Moment { month, day, hour };
    (yy == year % 100 && exists(year, quarter, moment)).then_some(moment)
}

/// Reads all lines in file order, up to the first fault.
fn read(file: &[u8]) -> Result<Contents, Fault> {
    let mut lines = Lines::split(file)?;
    let first = lines.next(&R100)?;
    let Some((year, quarter)) = year_and_quarter(first) else {
        return fault(6, lines.read);
    };

    let mut rising = RisingDates::of_quarter(year, quarter);
    let mut dates: Vec<&[u8]> = Vec::new();
    let mut so2 = Vec::new();
    while lines.next_is(&R200) {
        let (line, date) = lines.next_rising(&R200, DATE_200, &mut rising)?;
        dates.push(date);
        so2.push(lines.so2_reading(line)?);
    }

    let nox = lines.block(&R201, &dates)?;
    let co2 = lines.block(&R202, &dates)?;
    let flow = lines.block(&R220, &dates)?;
    let operating = lines.listed_hours(&dates, RisingDates::of_quarter(year, quarter))?;
    let line = lines.next(&R301)?;
    let mut contents = Contents { totals_line: lines.read, ..Contents::default() };
    for (index, total) in contents.totals.iter_mut().enumerate() {
        *total = lines.value(line, &R301, index)?;
    }
    let so2_rate = lines.so2_rates(&dates, &so2)?;
    let fc_nox = lines.double_block(&R320, &dates)?;
    let co2_rate = lines.block(&R330, &dates)?;
    if lines.read < lines.lines.len() {
        return fault(2, lines.read + 1);
    }

    for (i, OperatingHour { line, time, heat }) in operating.into_iter().enumerate() {
        let [fc, nox_rate] = fc_nox[i];
        contents.heat_lines.push(line);
        contents.times.push(time);
        let so2 = so2[i].map_or(Gas(heat), Monitor);
        contents.readings.push(Readings { so2, nox: nox[i], co2: co2[i], flow: flow[i], fc });
        contents.figures.push([heat, so2_rate[i], nox_rate, co2_rate[i]]);
    }
    Ok(contents)
}

/// The refusals of the totals, in their order on line 301.
const WRONG_TOTAL: [u32; TOTALS] = [21, 22, 23, 24, 48];

/// Judges the hours in order, and then the totals.
fn judge(contents: &Contents) -> Result<Answer, Fault> {
    let hours = contents.readings.len();
    for (rank, (readings, figures)) in contents.readings.iter().zip(&contents.figures).enumerate() {
        for (index, figure) in FIGURES.iter().enumerate() {
            if !figure.possible(readings, figures[index]) {
                return fault(11 + index as u32, contents.line_of_figure(index, rank));
            }
        }
    }
    let formed = totals_of(contents.times.iter().copied().zip(&contents.figures));
    for (index, number) in WRONG_TOTAL.into_iter().enumerate() {
        if contents.totals[index] != formed[index] {
            return fault(number, contents.totals_line);
        }
    }
    Ok(Answer::Accepted { hours, totals: formed })
}

#[cfg(test)]
mod tests {
    use super::*;
    use crate::generate::page::Page;
    use crate::report::{Hour, PlainPen, Report};

    /// A report with the paper's hour at these hours of the quarter, and with
    /// these idle hours.
    fn report(operating: &[u32], idle: impl IntoIterator<Item = u32>) -> Page {
        let readings = Readings { so2: Monitor(2_500), nox: 2_000, co2: 120, flow: 20_000, fc: 18_000 };
        let figures = FIGURES.map(|figure| figure.of_recorded(&readings));
        let hour = |&hour_of_quarter: &u32| Hour { hour_of_quarter, time: 50, readings, figures };
        let (name, hours) = (*b"STACK1", operating.iter().map(hour).collect());
        let idle_hours = idle.into_iter().collect();
        let mut report = Report { year: 2005, quarter: 3, name, hours, idle_hours, ..Report::default() };
        report.add_up();
        Page::of(&report.bytes(&mut PlainPen))
    }

    fn answer(page: &Page) -> String {
        check(&page.bytes()).to_string()
    }

    /// The answer to the paper's hour with this text in the columns of flow.
    fn answer_to(flow: &str) -> String {
        let mut page = report(&[0], []);
        page.set(4, FLOW.columns, flow.as_bytes());
        answer(&page)
    }

    #[test]
    fn flow_is_a_number_then_in_range_then_a_whole_thousand() {
        assert_eq!(answer_to("0020000000"), "accepted 1 2 684 6667 358 1");
        for flow in ["20,000,500", " 20000.500", "  2000050x", "500000001 "] {
            assert_eq!(answer_to(flow), "refused 8 5", "{flow}");
        }
        for flow in ["9999999001", "9999999500", "9999999999"] {
            assert_eq!(answer_to(flow), "refused 9 5", "{flow}");
        }
        for flow in
            ["  20000500", "0020000001", "       999", " 499999999", " 500000001", "9999998001", "9999998999"]
        {
            assert_eq!(answer_to(flow), "refused 43 5", "{flow}");
        }
        for flow in [" 500000000", " 500001000", "9999999000"] {
            assert_eq!(answer_to(flow), "refused 11 6", "{flow}");
        }
    }

    /// Operating hours 1 and 3 on lines 11 and 13, idle hours 0, 2 and 4 on lines
    /// 10, 12 and 14, and the totals on line 15.
    fn listed() -> Page {
        report(&[1, 3], [0, 2, 4])
    }

    /// The answer to these changes of text on lines of `listed`.
    fn answer_with(changes: &[(usize, Columns, &str)]) -> String {
        let mut page = listed();
        for (line, columns, text) in changes {
            page.set(line - 1, *columns, text.as_bytes());
        }
        answer(&page)
    }

    const HEAT_COLUMNS: Columns = HEAT.columns;
    const TIME_COLUMNS: Columns = TIME.columns;

    #[test]
    fn idle_hours_add_nothing() {
        for idle in [0..0, 1..2, 1..2_208] {
            assert_eq!(answer(&report(&[0], idle)), "accepted 1 2 684 6667 358 1");
        }
        for idle in [0..0, 7..8, 0..2_208] {
            assert_eq!(answer(&report(&[], idle)), "accepted 0 0 0 0 0 0");
        }
        assert_eq!(answer(&report(&[2_207], 0..2_207)), "accepted 1 2 684 6667 358 1");
        assert_eq!(answer(&listed()), "accepted 2 4 1368 13333 358 2");
    }

    #[test]
    fn heat_of_an_idle_hour_is_blank() {
        for heat in ["    0.0", " 1333.3", "0      ", "      0", "   .   ", "-------"] {
            for line in [10, 12, 14] {
                let answer = answer_with(&[(line, HEAT_COLUMNS, heat)]);
                assert_eq!(answer, format!("refused 47 {line}"), "{heat}");
            }
        }
        assert_eq!(answer_with(&[(11, TIME_COLUMNS, "0.00")]), "refused 47 11");
        assert_eq!(answer_with(&[(11, HEAT_COLUMNS, "       ")]), "refused 8 11");
    }

    #[test]
    fn time_is_a_number_up_to_a_whole_hour() {
        for time in ["    ", " .00", "0.0 ", "0000", "-.00"] {
            for (line, heat) in [(10, "       "), (10, "    0.0"), (13, "       "), (13, " 1333.3")] {
                let answer = answer_with(&[(line, TIME_COLUMNS, time), (line, HEAT_COLUMNS, heat)]);
                assert_eq!(answer, format!("refused 8 {line}"), "{time}");
            }
        }
        for line in 10..15 {
            assert_eq!(answer_with(&[(line, TIME_COLUMNS, "1.01")]), format!("refused 9 {line}"));
        }
    }

    #[test]
    fn dates_of_listed_hours_rise() {
        for date in ["05063023", "05100100", "0507010x", "05070124", "04070102", "05070101", "05070100"] {
            for (time, heat) in [("0.00", "       "), ("0.00", "    0.0"), ("x.xx", "       ")] {
                let changes = [(12, DATE_300, date), (12, TIME_COLUMNS, time), (12, HEAT_COLUMNS, heat)];
                assert_eq!(answer_with(&changes), "refused 6 12", "{date}");
            }
        }
        assert_eq!(answer_with(&[(12, DATE_300, "05070103")]), "refused 6 13");
        assert_eq!(answer_with(&[(12, DATE_300, "05093023")]), "refused 6 13");
        assert_eq!(answer_with(&[(14, DATE_300, "05093023")]), "accepted 2 4 1368 13333 358 2");
    }

    #[test]
    fn operating_hours_have_ranks_among_themselves() {
        for (line, date) in [(11, "05070102"), (13, "05070104"), (13, "05070105")] {
            for heat in [" 1333.3", "       ", "xxxxxxx"] {
                let changes = [(line, DATE_300, date), (line, HEAT_COLUMNS, heat)];
                assert_eq!(answer_with(&changes), format!("refused 7 {line}"), "{date}");
            }
        }
        for line in [10, 12, 14] {
            assert_eq!(answer_with(&[(line, TIME_COLUMNS, "0.50")]), format!("refused 7 {line}"));
        }
        let idle = |line| [(line, TIME_COLUMNS, "0.00"), (line, HEAT_COLUMNS, "       ")];
        assert_eq!(answer_with(&idle(11)), "refused 7 13");
        assert_eq!(answer_with(&idle(13)), "refused 2 15");
        let mut alone = report(&[], 0..3);
        alone.set(2, TIME_COLUMNS, b"1.00");
        assert_eq!(answer(&alone), "refused 7 3");
    }

    #[test]
    fn listed_hours_end_with_the_totals() {
        for (kept, number) in [(9, 10), (11, 10), (13, 10), (14, 10)] {
            let mut page = listed();
            page.lines.truncate(kept);
            assert_eq!(answer(&page), format!("refused {number} {}", kept + 1));
        }
        for index in 9..14 {
            let mut page = listed();
            page.lines.insert(index + 1, page.lines[1].clone());
            assert_eq!(answer(&page), format!("refused 2 {}", index + 2));
        }
        let mut page = listed();
        page.lines.remove(14);
        assert_eq!(answer(&page), "refused 2 15");
        page = listed();
        page.lines.swap(13, 14);
        assert_eq!(answer(&page), "refused 2 15");
        page = listed();
        page.lines.swap(12, 14);
        assert_eq!(answer(&page), "refused 2 13");
        page = report(&[], [5]);
        page.lines.swap(1, 2);
        assert_eq!(answer(&page), "refused 2 3");
        page = report(&[], [5]);
        page.lines.insert(2, listed().lines.swap_remove(1));
        assert_eq!(answer(&page), "refused 2 3");
    }

    #[test]
    fn figures_and_totals_stand_behind_idle_hours() {
        assert_eq!(answer_with(&[(11, HEAT_COLUMNS, " 1327.6")]), "refused 11 11");
        assert_eq!(answer_with(&[(13, HEAT_COLUMNS, " 1327.6")]), "refused 11 13");
        for (line, record, value, text, number) in [
            (17, &R310, 0, "  830.3", 12),
            (19, &R320, 1, " 0.361", 13),
            (21, &R330, 0, "  136.1", 14),
            (15, &R301, 0, "        0.5", 21),
            (15, &R301, 1, "      136.9", 22),
            (15, &R301, 2, "     1333.4", 23),
            (15, &R301, 3, " 0.143", 24),
            (15, &R301, 4, "        0.3", 48),
        ] {
            let answer = answer_with(&[(line, record.values[value].columns, text)]);
            assert_eq!(answer, format!("refused {number} {line}"));
        }
    }

    /// The right totals of `listed`, and others in their formats.
    const RIGHT: [&str; 5] = ["        0.4", "      136.8", "     1333.3", " 0.358", "        0.2"];
    const OTHER: [&str; 5] = ["        0.0", "999999999.9", "000000000.0", "99.999", "999999999.9"];

    /// The answer to `listed` with these texts on its line 301.
    fn answer_to_totals(texts: [&str; 5]) -> String {
        let changes: Vec<(usize, Columns, &str)> =
            R301.values.iter().zip(texts).map(|(value, text)| (15, value.columns, text)).collect();
        answer_with(&changes)
    }

    #[test]
    fn the_first_total_that_differs_is_named() {
        assert_eq!(answer_to_totals(RIGHT), "accepted 2 4 1368 13333 358 2");
        for wrong in 1..32 {
            let texts = [0, 1, 2, 3, 4].map(|index| [RIGHT, OTHER][wrong >> index & 1][index]);
            let first = WRONG_TOTAL[wrong.trailing_zeros() as usize];
            assert_eq!(answer_to_totals(texts), format!("refused {first} 15"), "{texts:?}");
        }
    }

    #[test]
    fn nox_tons_are_the_last_number_of_line_301() {
        for tons in ["           ", "        0,2", "       0.20", "         .2", "        2  ", "       -0.2"]
        {
            for mean in [RIGHT[3], OTHER[3], "      ", "0.358 "] {
                let texts = [OTHER[0], RIGHT[1], RIGHT[2], mean, tons];
                assert_eq!(answer_to_totals(texts), "refused 8 15", "{mean} {tons}");
            }
        }
        for (tons, expected) in
            [("000000000.2", "accepted 2 4 1368 13333 358 2"), ("0000000.358", "refused 8 15")]
        {
            assert_eq!(answer_to_totals([RIGHT[0], RIGHT[1], RIGHT[2], RIGHT[3], tons]), expected);
        }
        for length in [48, 58, 60] {
            let mut page = listed();
            page.lines[14].resize(length, b' ');
            assert_eq!(answer(&page), "refused 3 15");
        }
    }
}
