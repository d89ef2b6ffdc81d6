//! The writer: from a sheet of words to the bytes of a report.

use crate::calendar::hours_in_quarter;
use crate::figures::{Monitor, Readings, FIGURES};
use crate::layout::{report_length, FLOW, R200, R201, R202, R300, R310, R320, R330};
use crate::report::{Hour, PlainPen, Report};

/// Words of the sheet to an hour.
pub const WORDS: usize = 6;

/// The place of flow among an hour's words, which is its kind too.
pub const FLOW_PLACE: usize = 4;

/// The largest value of a word.
pub const LARGEST_VALUE: u32 = 0x1FFF_FFFF;

/// What is asked of the writer, apart from the buffer.
#[derive(Clone, Debug, PartialEq, Eq)]
pub struct Order {
    pub year: u32,
    pub quarter: u32,
    pub name: [u8; 6],
    pub words: Vec<u32>,
}

/// A word with its kind in the top three bits and its value below.
pub fn word(kind: u32, value: u32) -> u32 {
    kind << 29 | value
}

fn kind_of(word: u32) -> u32 {
    word >> 29
}

/// The value of a word.
pub fn value_of(word: u32) -> u32 {
    word & LARGEST_VALUE
}

/// The forms of sheets. They differ in their flow words alone.
#[derive(Clone, Copy, Debug, PartialEq, Eq)]
pub enum Form {
    /// Flow counts scfh, and has the limit that it had then.
    First,
    /// Flow counts thousands of scfh, and has the limit of 220 lines.
    Present,
}

impl Form {
    /// What a flow word counts, in scfh.
    pub fn flow_unit(self) -> u128 {
        match self {
            Form::First => 1,
            Form::Present => FLOW.unit,
        }
    }

    /// The largest flow, in scfh.
    pub fn flow_limit(self) -> u128 {
        match self {
            Form::First => 500_000_000,
            Form::Present => FLOW.limits().1,
        }
    }

    /// The recorded flow of a flow word, or nothing if it is past the limit or no
    /// whole thousand.
    fn recorded_flow(self, word: u32) -> Option<u128> {
        let scfh = u128::from(value_of(word)) * self.flow_unit();
        FLOW.recorded(scfh).filter(|_| scfh <= self.flow_limit())
    }
}

/// Writes the report at the start of the buffer and returns its length, or
/// returns the number of the refusal and leaves the buffer alone.
pub fn write(order: &Order, buffer: &mut [u8]) -> Result<usize, u32> {
    write_from(Form::Present, order, buffer)
}

/// The same for a sheet of any form.
pub(crate) fn write_from(form: Form, order: &Order, buffer: &mut [u8]) -> Result<usize, u32> {
    if !order_is_sound(order) {
        return Err(31);
    }
    let sound_hours = order.words.chunks(WORDS).map(|words| hour_of(form, words));
    let Some(hours) = sound_hours.collect::<Option<Vec<Hour>>>() else {
        return Err(32);
    };
    if !hours.iter().all(figures_fit) {
        return Err(33);
    }
    let length = report_length(hours.len());
    if buffer.len() < length {
        return Err(34);
    }
    let report = report_of(order, hours);
    buffer[..length].copy_from_slice(&report.bytes(&mut PlainPen));
    Ok(length)
}

/// The report that belongs to an order whose sheet is sound, as numbers.
pub fn report_of(order: &Order, hours: Vec<Hour>) -> Report {
    let Order { year, quarter, name, .. } = *order;
    let mut report = Report { year, quarter, name, hours, ..Report::default() };
    report.add_up();
    report
}

/// Everything that is refused with 31.
fn order_is_sound(order: &Order) -> bool {
    if !(1995..=2094).contains(&order.year) || !(1..=4).contains(&order.quarter) {
        return false;
    }
    if order.name.iter().any(|byte| !(32..=126).contains(byte)) || order.name == [b' '; 6] {
        return false;
    }
    if !are_whole_hours(&order.words) {
        return false;
    }
    let hours: Vec<u32> = order.words.chunks(WORDS).map(|words| hour_and_time(words[0]).0).collect();
    let count = hours_in_quarter(order.year, order.quarter);
    hours.iter().all(|&hour| hour < count) && hours.windows(2).all(|pair| pair[0] < pair[1])
}

/// Whether words are those of whole hours, each of the kind that its place asks for.
pub(crate) fn are_whole_hours(words: &[u32]) -> bool {
    let mut kinds = words.iter().zip((0..WORDS as u32).cycle());
    words.len().is_multiple_of(WORDS) && kinds.all(|(&word, kind)| kind_of(word) == kind)
}

/// The hour of the quarter and the time in an hour's first word.
fn hour_and_time(word: u32) -> (u32, u32) {
    (value_of(word) / 128, value_of(word) % 128)
}

/// One hour of a sheet, with the figures of its recorded readings; or nothing if
/// a value is outside its range, or, where there is none, does not fit into its
/// columns.
pub fn hour_of(form: Form, words: &[u32]) -> Option<Hour> {
    let (hour_of_quarter, time) = hour_and_time(words[0]);
    let value = |place: usize| u128::from(value_of(words[place]));
    let [time, so2, nox, co2, fc] = [time.into(), value(1), value(2), value(3), value(5)];
    let numbers = [(&R300, time), (&R200, so2), (&R201, nox), (&R202, co2), (&R320, fc)];
    if !numbers.iter().all(|(record, number)| record.values[0].in_range(*number)) {
        return None;
    }
    let flow = form.recorded_flow(words[FLOW_PLACE])?;
    let readings = Readings { so2: Monitor(so2), nox, co2, flow, fc };
    let figures = FIGURES.map(|figure| figure.of_recorded(&readings));
    Some(Hour { hour_of_quarter, time, readings, figures })
}

/// Whether all figures of the hour fit into their columns.
fn figures_fit(hour: &Hour) -> bool {
    let columns = [&R300.values[1], &R310.values[0], &R320.values[1], &R330.values[0]];
    hour.figures.iter().zip(columns).all(|(&figure, value)| figure <= value.largest())
}

#[cfg(test)]
mod tests {
    use super::*;
    use crate::check::check;

    fn example() -> Order {
        let words = [50, 2_500, 2_000, 120, 20_000, 18_000];
        Order {
            year: 2005,
            quarter: 3,
            name: *b"STACK1",
            words: (0..6).map(|k| word(k, words[k as usize])).collect(),
        }
    }

    #[test]
    fn the_hour_of_the_paper() {
        let mut buffer = [0xA5; 400];
        assert_eq!(write(&example(), &mut buffer), Ok(393));
        assert_eq!(check(&buffer[..393]).to_string(), "accepted 1 2 684 6667 358 1");
        assert_eq!(buffer[393..], [0xA5; 7]);
        let totals = buffer.split(|&byte| byte == b'\n').find(|line| line.starts_with(b"301"));
        assert!(totals.is_some_and(|line| line.ends_with(b" 0.358        0.1")));
    }

    #[test]
    fn no_hours_at_all() {
        let order = Order { words: Vec::new(), ..example() };
        let mut buffer = [0; 75];
        assert_eq!(write(&order, &mut buffer), Ok(75));
        assert_eq!(check(&buffer).to_string(), "accepted 0 0 0 0 0 0");
        assert_eq!(write(&order, &mut buffer[..74]), Err(34));
    }

    #[test]
    fn refusals_come_in_order() {
        let mut order = example();
        order.words[3] = word(3, 0);
        order.words[4] = word(4, 9_999_999);
        assert_eq!(write(&order, &mut []), Err(32));
        order.words[3] = word(3, 1_000);
        order.words[5] = word(5, 5_000);
        assert_eq!(write(&order, &mut []), Err(33));
        order.words[4] = word(4, 10_000_000);
        assert_eq!(write(&order, &mut []), Err(32));
        order.words[0] = word(1, 50);
        assert_eq!(write(&order, &mut []), Err(31));
    }

    #[test]
    fn flow_is_taken_in_thousands_up_to_its_limit() {
        let mut buffer = [0; 393];
        for flow in [0, 1, 20_500, 499_999, 500_000, 500_001, 536_870, 536_871, 9_999_998, 9_999_999] {
            let mut order = example();
            order.words[1] = word(1, 10);
            order.words[3] = word(3, 1);
            order.words[4] = word(4, flow);
            assert_eq!(write(&order, &mut buffer), Ok(393), "{flow}");
            let line = buffer.split(|&byte| byte == b'\n').find(|line| line.starts_with(b"220"));
            let text = format!("{:>10}", u64::from(flow) * 1_000);
            assert!(line.is_some_and(|line| line.ends_with(text.as_bytes())), "{flow}");
            assert!(check(&buffer).to_string().starts_with("accepted 1 "), "{flow}");
        }
        for flow in [10_000_000, 20_000_000, 500_000_000, LARGEST_VALUE] {
            let mut order = example();
            order.words[4] = word(4, flow);
            assert_eq!(write(&order, &mut buffer), Err(32), "{flow}");
        }
    }
}
