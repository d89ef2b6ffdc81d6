//! Readings straight from a recorder: an hour of four floats made into the four
//! words of a sheet.
//!
//! A reading is the pattern of its float's 64 bits, and nothing is calculated
//! in floats. From 0 up, the greater of two floats has the greater pattern. So
//! a reading lies at or above a half-way point between two recorded numbers just
//! if its pattern is not less than that of the least float there, and that
//! pattern is formed from the point, in whole numbers.
//!
//! What the paper leaves open is as it was settled with the request: slices,
//! states and returned numbers are those of the C call `edr_recorder_words`.

use crate::layout::{Value, FLOW, R200, R201, R202};
use crate::rounding::span;
use crate::write::word;

/// The readings of an hour.
pub const READINGS: usize = 4;

/// The numbers of an answer.
pub const ANSWER: usize = 5;

/// The states of a reading.
pub const MEASURED: u8 = 0;
pub const SUBSTITUTED: u8 = 1;
pub const ABSENT: u8 = 2;

/// SO2, NOx, CO2 and flow, as they stand on their lines. Their kinds in a sheet
/// are 1 to 4.
pub const CHANNELS: [Value; READINGS] = [R200.values[0], R201.values[0], R202.values[0], FLOW];

/// The bits of a pattern that are below its exponent.
pub const FRACTION: u32 = 52;

/// The pattern of infinity.
pub const INFINITY: u64 = 0x7FF << FRACTION;

/// The pattern of minus zero, the sign alone.
pub const MINUS_ZERO: u64 = 1 << 63;

/// What the call returns, and what it then has written.
#[derive(Clone, Copy, Debug, PartialEq, Eq)]
pub enum Outcome {
    /// The number of the refusal, in the first place of the answer.
    Refused = 0,
    /// The four words and the number of substituted readings, in the first five
    /// places.
    Recorded = 1,
    /// Nothing, as a state is none of the three, there are not four states and
    /// four readings, or the answer is too short.
    Unfit = 2,
}

/// Makes the words of an hour. Places of the answer that the outcome does not
/// name keep their values.
pub fn record(states: &[u8], readings: &[u64], answer: &mut [u32]) -> Outcome {
    let (Ok(states), Ok(readings), Some(answer)) =
        (states.try_into(), readings.try_into(), answer.first_chunk_mut::<ANSWER>())
    else {
        return Outcome::Unfit;
    };
    if !states_are_known(states) {
        return Outcome::Unfit;
    }
    match words(states, readings) {
        Ok([so2, nox, co2, flow]) => {
            *answer = [so2, nox, co2, flow, substituted(states)];
            Outcome::Recorded
        }
        Err(number) => {
            answer[0] = number;
            Outcome::Refused
        }
    }
}

fn states_are_known(states: &[u8; READINGS]) -> bool {
    states.iter().all(|state| [MEASURED, SUBSTITUTED, ABSENT].contains(state))
}

fn substituted(states: &[u8; READINGS]) -> u32 {
    states.iter().map(|&state| u32::from(state == SUBSTITUTED)).sum()
}

/// The four words, or the number of the first refusal.
fn words(states: &[u8; READINGS], readings: &[u64; READINGS]) -> Result<[u32; READINGS], u32> {
    let mut words = [0; READINGS];
    for (place, channel) in CHANNELS.iter().enumerate() {
        let units = recorded(channel, states[place], readings[place])?;
        words[place] = word(place as u32 + 1, units as u32);
    }
    Ok(words)
}

/// The units that a reading records as, or the number of its refusal.
fn recorded(channel: &Value, state: u8, pattern: u64) -> Result<u128, u32> {
    if state == ABSENT {
        return Err(44);
    }
    let Some(pattern) = from_zero_up(pattern) else {
        return Err(45);
    };
    let units = units(channel, pattern);
    if channel.in_range(units * channel.unit) {
        Ok(units)
    } else {
        Err(46)
    }
}

/// The pattern with minus zero taken as 0, or nothing if its float is negative
/// or not finite: patterns past infinity's are NaN's, and then all with a sign.
fn from_zero_up(pattern: u64) -> Option<u64> {
    match pattern {
        MINUS_ZERO => Some(0),
        0..INFINITY => Some(pattern),
        _ => None,
    }
}

/// The most units whose span the float is not below, which is the one it lies
/// in; or for any float past the limit, one unit more than that.
fn units(channel: &Value, pattern: u64) -> u128 {
    let (_, limit) = channel.limits();
    let (mut reached, mut missed) = (0, limit / channel.unit + 2);
    while missed - reached > 1 {
        let middle = (reached + missed) / 2;
        if pattern >= least_of(channel, middle) {
            reached = middle;
        } else {
            missed = middle;
        }
    }
    reached
}

/// The pattern of the least float that records as so many units, at least 1.
fn least_of(channel: &Value, units: u128) -> u64 {
    let half_units = span(units).low;
    least_from(half_units * channel.unit, 2 * 10u128.pow(channel.decimals as u32))
}

/// The pattern of the least float that is not below `top / bottom`, a fraction
/// from 2^-12 up; `top` is less than 2^64.
fn least_from(top: u128, bottom: u128) -> u64 {
    const SCALE: u32 = 64;
    const BIAS: u32 = 1023;
    let top = top << SCALE;
    // The fraction lies from 2^power to twice that, in parts of 2^SCALE. Floats
    // there divide 2^power into 2^52 steps. The next one is 2^(power + 1): its
    // pattern, too, is one more than the last.
    let power = (top / bottom).ilog2();
    let steps = top.div_ceil(bottom << (power - FRACTION)) - (1 << FRACTION);
    (u64::from(power + BIAS - SCALE) << FRACTION) + steps as u64
}

#[cfg(test)]
mod tests {
    use super::*;
    use crate::check::check;
    use crate::write::{write, Order};

    const CO2: usize = 2;
    const FLOW: usize = 3;

    /// What an answer of seven places holds before the call.
    const LENT: [u32; 7] = [90, 91, 92, 93, 94, 95, 96];

    /// The pattern of the float nearest to a number.
    fn float(number: &str) -> u64 {
        number.parse::<f64>().unwrap().to_bits()
    }

    /// The readings of the paper's hour.
    fn plain() -> [u64; READINGS] {
        ["250.0", "200.0", "12.0", "20000000"].map(float)
    }

    /// The numbers of an answer, or the number of the refusal.
    fn answer_to(states: [u8; READINGS], readings: [u64; READINGS]) -> Result<Vec<u32>, u32> {
        let mut answer = LENT;
        match record(&states, &readings, &mut answer) {
            Outcome::Recorded => {
                assert_eq!(answer[ANSWER..], LENT[ANSWER..]);
                Ok(answer[..ANSWER].to_vec())
            }
            Outcome::Refused => {
                assert_eq!(answer[1..], LENT[1..]);
                Err(answer[0])
            }
            Outcome::Unfit => panic!("the call is fit"),
        }
    }

    /// What one reading of the paper's hour records as, if it is this one.
    fn value_of(place: usize, pattern: u64) -> Result<u32, u32> {
        let mut readings = plain();
        readings[place] = pattern;
        let answer = answer_to([MEASURED; READINGS], readings)?;
        assert_eq!(answer[place] >> 29, place as u32 + 1);
        Ok(answer[place] % (1 << 29))
    }

    #[test]
    fn words_have_kinds_and_the_substituted_are_counted() {
        let words = [word(1, 2_500), word(2, 2_000), word(3, 120), word(4, 20_000)];
        for mask in 0..16u32 {
            let states = [0, 1, 2, 3].map(|place| (mask >> place & 1) as u8);
            let expected = [&words[..], &[mask.count_ones()]].concat();
            assert_eq!(answer_to(states, plain()), Ok(expected));
        }
    }

    #[test]
    fn tenths_go_by_the_exact_value() {
        // Each float, what it records as, and the one above it.
        for (number, value, above) in [
            ("0.05", 1, 1),
            ("0.15", 1, 2),
            ("0.25", 3, 3),
            ("0.35", 3, 4),
            ("0.75", 8, 8),
            ("12.25", 123, 123),
            ("99.95", 1_000, 1_000),
        ] {
            let pattern = float(number);
            for place in 0..3 {
                assert_eq!(value_of(place, pattern), Ok(value), "{number}");
                assert_eq!(value_of(place, pattern + 1), Ok(above), "{number}");
            }
        }
        // Multiplied in floats, these would be half-way points and go up.
        assert_eq!((0.15 * 10.0, 100.05 * 10.0), (1.5, 1_000.5));
    }

    #[test]
    fn ppm_ends_with_its_columns() {
        for place in [0, 1] {
            assert_eq!(value_of(place, float("9999.95") - 1), Ok(99_999));
            assert_eq!(value_of(place, float("9999.95")), Err(46));
            assert_eq!(value_of(place, float("10000")), Err(46));
            assert_eq!(value_of(place, float("0.05") - 1), Ok(0));
        }
    }

    #[test]
    fn co2_is_recorded_from_a_tenth_to_a_hundred() {
        assert_eq!(value_of(CO2, float("0.05") - 1), Err(46));
        assert_eq!(value_of(CO2, float("0.05")), Ok(1));
        assert_eq!(value_of(CO2, float("100.05")), Ok(1_000));
        assert_eq!(value_of(CO2, float("100.05") + 1), Err(46));
        for number in ["0", "-0", "0.04", "100.1", "1e300"] {
            assert_eq!(value_of(CO2, float(number)), Err(46), "{number}");
        }
    }

    #[test]
    fn flow_is_recorded_in_thousands() {
        for (number, value, below) in [
            ("500", 1, 0),
            ("1500", 2, 1),
            ("12345499.9", 12_345, 12_345),
            ("12345500", 12_346, 12_345),
            ("499999500", 500_000, 499_999),
            ("500000499.9", 500_000, 500_000),
            ("500000500", 500_001, 500_000),
            ("536870912", 536_871, 536_871),
            ("4294967296", 4_294_967, 4_294_967),
            ("9999998500", 9_999_999, 9_999_998),
            ("9999999499.9", 9_999_999, 9_999_999),
        ] {
            assert_eq!(value_of(FLOW, float(number)), Ok(value), "{number}");
            assert_eq!(value_of(FLOW, float(number) - 1), Ok(below), "{number}");
        }
        assert_eq!(value_of(FLOW, float("9999999500") - 1), Ok(9_999_999));
        for number in ["9999999500", "9999999999", "536870912000"] {
            assert_eq!(value_of(FLOW, float(number)), Err(46), "{number}");
        }
    }

    #[test]
    fn floats_of_all_sizes() {
        let largest = INFINITY - 1;
        assert_eq!(f64::from_bits(largest), f64::MAX);
        for place in [0, 1, 3] {
            for pattern in [0, MINUS_ZERO, 1, (1 << FRACTION) - 1, 1 << FRACTION] {
                assert_eq!(value_of(place, pattern), Ok(0), "{pattern:#x}");
            }
        }
        for place in 0..READINGS {
            for number in ["1e10", "1e19", "1e38", "1e39"] {
                assert_eq!(value_of(place, float(number)), Err(46), "{number}");
            }
            assert_eq!(value_of(place, largest), Err(46));
        }
    }

    #[test]
    fn negative_or_not_finite() {
        const QUIET: u64 = 1 << (FRACTION - 1);
        for place in 0..READINGS {
            for pattern in [INFINITY, INFINITY + 1, INFINITY + QUIET, INFINITY + QUIET + 77, MINUS_ZERO - 1] {
                assert_eq!(value_of(place, pattern), Err(45), "{pattern:#x}");
                assert_eq!(value_of(place, MINUS_ZERO + pattern), Err(45), "{pattern:#x}");
            }
            for pattern in [1, 1 << FRACTION, float("0.04"), float("12"), INFINITY - 1] {
                assert_eq!(value_of(place, MINUS_ZERO + pattern), Err(45), "{pattern:#x}");
            }
        }
    }

    #[test]
    fn readings_are_refused_in_turn() {
        let faults = [(ABSENT, INFINITY, 44), (MEASURED, float("-1"), 45), (SUBSTITUTED, float("1e10"), 46)];
        for first in 0..READINGS {
            for later in first..READINGS {
                for (state, pattern, number) in faults {
                    for (later_state, later_pattern, _) in faults {
                        let (mut states, mut readings) = ([MEASURED; READINGS], plain());
                        (states[later], readings[later]) = (later_state, later_pattern);
                        (states[first], readings[first]) = (state, pattern);
                        assert_eq!(answer_to(states, readings), Err(number));
                    }
                }
            }
        }
    }

    #[test]
    fn the_float_of_an_absent_reading_is_not_looked_at() {
        for pattern in [0, float("12"), float("-12"), float("1e300"), INFINITY, u64::MAX] {
            let readings = [pattern; READINGS];
            assert_eq!(answer_to([ABSENT; READINGS], readings), Err(44));
            let states = [MEASURED, MEASURED, MEASURED, ABSENT];
            let [so2, nox, co2, _] = plain();
            assert_eq!(answer_to(states, [so2, nox, co2, pattern]), Err(44));
        }
    }

    #[test]
    fn calls_that_are_unfit_write_nothing() {
        let (states, readings) = ([MEASURED; 6], [plain(), plain()].concat());
        for (state_count, reading_count, room) in [
            (3, 4, 7),
            (5, 4, 7),
            (0, 4, 7),
            (4, 3, 7),
            (4, 5, 7),
            (4, 0, 7),
            (4, 4, 4),
            (4, 4, 0),
            (0, 0, 0),
        ] {
            let mut answer = LENT;
            let outcome = record(&states[..state_count], &readings[..reading_count], &mut answer[..room]);
            assert_eq!((outcome, answer), (Outcome::Unfit, LENT));
        }
        for place in 0..READINGS {
            for state in [3, 4, 128, 255] {
                // Not even a refusal that would come first.
                for other in [MEASURED, ABSENT] {
                    let (mut answer, mut states) = (LENT, [other; READINGS]);
                    states[place] = state;
                    let outcome = record(&states, &readings[..READINGS], &mut answer);
                    assert_eq!((outcome, answer), (Outcome::Unfit, LENT));
                }
            }
        }
    }

    #[test]
    fn an_answer_of_five_is_enough() {
        let mut answer = [0; ANSWER];
        assert_eq!(record(&[SUBSTITUTED; READINGS], &plain(), &mut answer), Outcome::Recorded);
        assert_eq!(answer[4], 4);
    }

    /// Floats are printed exactly, to the last of their digits.
    #[test]
    fn the_least_float_of_a_span_is_not_below_it_and_the_next_one_down_is() {
        let exactly = |pattern| format!("{:080.60}", f64::from_bits(pattern));
        for channel in &CHANNELS {
            let (_, limit) = channel.limits();
            let beyond = limit / channel.unit + 1;
            for units in (1..2_000).chain(beyond.saturating_sub(2_000).max(1)..=beyond) {
                let hundredths = (2 * units - 1) * channel.unit * 50 / 10u128.pow(channel.decimals as u32);
                let point = format!("{:019}.{:02}{:058}", hundredths / 100, hundredths % 100, 0);
                let least = least_of(channel, units);
                assert!(exactly(least) >= point && exactly(least - 1) < point, "{units} {point}");
            }
        }
    }

    /// The check's answer to the report of one hour with these readings.
    fn checked(readings: [u64; READINGS]) -> String {
        let recorded = answer_to([MEASURED; READINGS], readings).unwrap();
        let words = [&[word(0, 50)], &recorded[..READINGS], &[word(5, 18_000)]].concat();
        let order = Order { year: 2005, quarter: 3, name: *b"STACK1", words };
        let mut report = [0; 393];
        assert_eq!(write(&order, &mut report), Ok(393));
        check(&report).to_string()
    }

    #[test]
    fn recorded_hours_are_written_and_accepted() {
        let within = [float("249.95") + 1, float("200.05") - 1, float("11.95") + 1, float("20000499.9")];
        for readings in [plain(), within] {
            assert_eq!(checked(readings), "accepted 1 2 684 6667 358 1");
        }
        for ends in [
            ["0", "-0", "0.05", "0"],
            ["9999.9", "9999.9", "100.05", "1499.9"],
            ["0.05", "1e-300", "12", "500000499.9"],
            ["0.05", "0.1", "0.05", "9999999499.9"],
        ] {
            let answer = checked(ends.map(float));
            assert!(answer.starts_with("accepted 1 "), "{answer}");
        }
    }
}
