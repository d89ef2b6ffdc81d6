//! What a recorder's hours of a seed contain: half-way points, limits and the
//! floats beside them, floats of every sort, each fault before each other, all
//! states, and slices of all lengths. Answers are formed here anew, from the
//! decimal digits of each float, which are printed to the last one.

use second::generate::{float_hours, FloatHour};
use second::recorder_words::Outcome;
use std::collections::BTreeSet;

const COUNT: usize = 3_000;
const SEEDS: [u64; 3] = [1, 2, 3];

const INFINITY: u64 = 0x7FF0_0000_0000_0000;
const SIGN: u64 = 0x8000_0000_0000_0000;
const QUIET: u64 = 0x0008_0000_0000_0000;

/// The least and the most units of SO2, NOx, CO2 and flow.
const LIMITS: [(u128, u128); 4] = [(0, 99_999), (0, 99_999), (1, 1_000), (0, 9_999_999)];

/// The decimal digits of a float from 0 up: those of its whole units, and all
/// the others.
fn digits(place: usize, pattern: u64) -> (String, String) {
    let text = format!("{:.1074}", f64::from_bits(pattern));
    let (whole, part) = text.split_once('.').unwrap();
    let all = format!("0000{whole}{part}");
    let point = 4 + whole.len();
    let (kept, dropped) = all.split_at(if place == 3 { point - 3 } else { point + 1 });
    (kept.into(), dropped.into())
}

/// The units that a float from 0 up is rounded to.
fn rounded(place: usize, pattern: u64) -> u128 {
    let (kept, dropped) = digits(place, pattern);
    match kept.parse::<u128>() {
        Ok(units) => units + u128::from(dropped.as_bytes()[0] >= b'5'),
        Err(_) => u128::MAX,
    }
}

/// The word of one reading, or the number of its refusal.
fn word(place: usize, state: u8, pattern: u64) -> Result<u32, u32> {
    let reading = f64::from_bits(pattern);
    if state == 2 {
        return Err(44);
    }
    if !reading.is_finite() || reading < 0.0 {
        return Err(45);
    }
    let units = rounded(place, pattern & !SIGN);
    let (low, high) = LIMITS[place];
    if units < low || units > high {
        return Err(46);
    }
    Ok((place as u32 + 1) * 0x2000_0000 + units as u32)
}

/// What the call should return, and the answer after it.
fn expected(hour: &FloatHour) -> (u64, Vec<u32>) {
    let FloatHour { states, readings, answer } = hour;
    let mut answer = answer.clone();
    if states.len() != 4 || readings.len() != 4 || answer.len() < 5 || states.iter().any(|&state| state > 2) {
        return (2, answer);
    }
    let words: Result<Vec<u32>, u32> =
        (0..4).map(|place| word(place, states[place], readings[place])).collect();
    match words {
        Ok(words) => {
            answer[..4].copy_from_slice(&words);
            answer[4] = states.iter().filter(|&&state| state == 1).count() as u32;
            (1, answer)
        }
        Err(number) => {
            answer[0] = number;
            (0, answer)
        }
    }
}

#[test]
fn answers_follow_from_the_digits() {
    for seed in SEEDS {
        for hour in float_hours(seed, COUNT) {
            let (outcome, answer) = hour.outcome();
            assert_eq!((outcome as u64, answer), expected(&hour), "{hour:?}");
        }
    }
}

/// The number of the refusal, if the hour is refused.
fn refusal(hour: &FloatHour) -> Option<u32> {
    match hour.outcome() {
        (Outcome::Refused, answer) => Some(answer[0]),
        _ => None,
    }
}

/// The hours of each seed that not all seeds have.
struct Drawn(Vec<Vec<FloatHour>>);

impl Drawn {
    fn new() -> Self {
        let named = float_hours(1, 0).len();
        Drawn(SEEDS.map(|seed| float_hours(seed, COUNT).split_off(named)).into())
    }

    /// Each seed must have such an hour.
    #[track_caller]
    fn have(&self, is_so: impl Fn(&FloatHour) -> bool) {
        for hours in &self.0 {
            assert!(hours.iter().any(&is_so));
        }
    }

    /// Each seed must have so many such readings, in this place of recorded
    /// hours.
    #[track_caller]
    fn record(&self, least: usize, place: usize, is_so: impl Fn(u64) -> bool) {
        for hours in &self.0 {
            let recorded = hours.iter().filter(|hour| hour.outcome().0 == Outcome::Recorded);
            let times = recorded.filter(|hour| is_so(hour.readings[place])).count();
            assert!(times >= least, "{place}: {times}");
        }
    }

    /// Each seed must have such a reading in each place, refused with this
    /// number for it alone.
    #[track_caller]
    fn refuse(&self, number: u32, is_so: impl Fn(u64) -> bool) {
        for place in 0..4 {
            self.have(|hour| {
                refusal(hour) == Some(number) && alone(hour, place) && is_so(hour.readings[place])
            });
        }
    }
}

/// Whether no other reading would be refused.
fn alone(hour: &FloatHour, place: usize) -> bool {
    (0..4).all(|other| other == place || word(other, hour.states[other], hour.readings[other]).is_ok())
}

/// Whether a float is a half-way point.
fn is_half_way(place: usize, pattern: u64) -> bool {
    pattern < INFINITY && {
        let (_, dropped) = digits(place, pattern);
        dropped.strip_prefix('5').is_some_and(|rest| rest.bytes().all(|digit| digit == b'0'))
    }
}

/// Whether a float of tenths is none, but the nearest one to a half-way point.
fn is_nearly_half_way(place: usize, pattern: u64) -> bool {
    pattern < INFINITY && !is_half_way(place, pattern) && {
        let (kept, _) = digits(place, pattern);
        let (whole, tenths) = kept.split_at(kept.len() - 1);
        format!("{whole}.{tenths}5").parse::<f64>().unwrap().to_bits() == pattern
    }
}

#[test]
fn half_way_points_and_the_floats_beside_them() {
    let drawn = Drawn::new();
    for steps in [-1, 0, 1] {
        for place in 0..4 {
            drawn.record(50, place, |pattern| is_half_way(place, pattern.wrapping_add_signed(steps)));
        }
        for place in 0..3 {
            for above in [false, true] {
                drawn.record(10, place, |pattern| {
                    let nearest = pattern.wrapping_add_signed(steps);
                    is_nearly_half_way(place, nearest) && digits(place, nearest).1.starts_with('5') == above
                });
            }
        }
    }
}

/// Readings for which one multiplication in floats gives another number.
#[test]
fn readings_that_floats_round_wrongly() {
    let drawn = Drawn::new();
    for place in 0..4 {
        let in_floats = |pattern: u64| {
            let reading = f64::from_bits(pattern);
            let units = if place == 3 { reading / 1_000.0 } else { reading * 10.0 };
            (units + 0.5).floor() as u128
        };
        let differs = |pattern: u64| pattern < INFINITY && in_floats(pattern) != rounded(place, pattern);
        drawn.record(if place == 3 { 1 } else { 20 }, place, differs);
    }
}

#[test]
fn limits_and_the_floats_beside_them() {
    let drawn = Drawn::new();
    let float = |number: &str| number.parse::<f64>().unwrap().to_bits();
    let (ppm, co2, flow) = (float("9999.95"), float("100.05") + 1, float("9999999500"));
    for (place, first_past) in [(0, ppm), (1, ppm), (2, co2), (3, flow)] {
        drawn.have(|hour| {
            refusal(hour) == Some(46) && alone(hour, place) && hour.readings[place] == first_past
        });
        drawn.record(1, place, |pattern| pattern == first_past - 1);
    }
    drawn.record(1, 2, |pattern| pattern == float("0.05"));
    drawn.have(|hour| refusal(hour) == Some(46) && alone(hour, 2) && hour.readings[2] == float("0.05") - 1);
    for place in [0, 1, 3] {
        drawn.record(1, place, |pattern| pattern < SIGN && rounded(place, pattern) == LIMITS[place].1);
        drawn.record(1, place, |pattern| pattern < SIGN && pattern > 0 && rounded(place, pattern) == 0);
    }
}

#[test]
fn floats_of_every_sort() {
    let drawn = Drawn::new();
    let is_nan = |pattern: u64| pattern & !SIGN > INFINITY;
    for sign in [0, SIGN] {
        drawn.refuse(45, |pattern| pattern == sign | INFINITY);
        for quiet in [0, QUIET] {
            drawn.refuse(45, |pattern| {
                is_nan(pattern)
                    && pattern & (SIGN | QUIET) == sign | quiet
                    && pattern & !(SIGN | QUIET | INFINITY) > 0
            });
        }
    }
    let is_subnormal = |pattern: u64| f64::from_bits(pattern).is_subnormal();
    drawn.refuse(45, |pattern| pattern > SIGN && is_subnormal(pattern));
    drawn.refuse(45, |pattern| pattern > SIGN && f64::from_bits(pattern).is_normal());
    drawn.refuse(46, |pattern| f64::from_bits(pattern) > 1e100);
    for place in [0, 1, 3] {
        drawn.record(5, place, is_subnormal);
    }
    drawn.have(|hour| refusal(hour) == Some(46) && alone(hour, 2) && is_subnormal(hour.readings[2]));
}

/// What is wrong with each reading of a fit call: 44, 45, 46, or 0.
fn faults(hour: &FloatHour) -> [u32; 4] {
    [0, 1, 2, 3].map(|place| word(place, hour.states[place], hour.readings[place]).err().unwrap_or(0))
}

#[test]
fn states_and_faults_in_all_combinations() {
    for hours in Drawn::new().0 {
        let fit = || hours.iter().filter(|hour| hour.outcome().0 != Outcome::Unfit);
        let states: BTreeSet<&[u8]> = fit().map(|hour| &hour.states[..]).collect();
        assert_eq!(states.len(), 81);
        let faults: BTreeSet<[u32; 4]> = fit().map(faults).collect();
        assert_eq!(faults.len(), 256);
        for place in 0..4 {
            // Floats of absent readings that would be refused, or recorded.
            let under_absent = |hour: &&FloatHour| hour.states[place] == 2 && alone(hour, place);
            for number in [0, 45, 46] {
                let told = |hour: &FloatHour| word(place, 0, hour.readings[place]).err().unwrap_or(0);
                assert!(fit().filter(under_absent).any(|hour| told(hour) == number), "{place} {number}");
            }
        }
    }
}

#[test]
fn slices_of_all_lengths_and_states_that_are_none() {
    let drawn = Drawn::new();
    let lengths = |hour: &FloatHour| [hour.states.len(), hour.readings.len(), hour.answer.len()];
    for short in [0, 1, 2, 3, 5] {
        drawn.have(|hour| lengths(hour)[..2] == [short, 4] && hour.answer.len() >= 5);
        drawn.have(|hour| lengths(hour)[..2] == [4, short] && hour.answer.len() >= 5);
    }
    for room in 0..=8 {
        drawn.have(|hour| lengths(hour) == [4, 4, room] && hour.states.iter().all(|&state| state <= 2));
    }
    drawn.have(|hour| lengths(hour) == [0; 3]);
    for hours in &drawn.0 {
        // Too short, long enough or longer, each slice by itself.
        let against_whole = |hour| [0, 1, 2].map(|slice| lengths(hour)[slice].cmp(&[4, 4, 5][slice]));
        assert_eq!(hours.iter().map(against_whole).collect::<BTreeSet<_>>().len(), 27);
    }
    for place in 0..4 {
        for state in [3, 4, 5, 6, 128, 129, 130, 255] {
            let only = |hour: &FloatHour| hour.states.iter().filter(|&&state| state > 2).count() == 1;
            drawn.have(|hour| {
                hour.states.get(place) == Some(&state) && only(hour) && hour.readings.len() == 4
            });
        }
    }
}

#[test]
fn lent_places_keep_their_values_but_for_those_named() {
    for hour in float_hours(1, COUNT) {
        let (outcome, answer) = hour.outcome();
        let written = match outcome {
            Outcome::Recorded => 5,
            Outcome::Refused => 1,
            Outcome::Unfit => 0,
        };
        assert_eq!(answer[written..], hour.answer[written..]);
        let mut lent = hour.answer;
        lent.sort_unstable();
        assert!(lent.windows(2).all(|pair| pair[0] < pair[1]));
    }
}

#[test]
fn every_outcome_occurs_often() {
    for hours in Drawn::new().0 {
        for number in [44, 45, 46] {
            assert!(hours.iter().filter(|hour| refusal(hour) == Some(number)).count() >= 200);
        }
        for outcome in [Outcome::Recorded, Outcome::Unfit] {
            assert!(hours.iter().filter(|hour| hour.outcome().0 == outcome).count() >= 200);
        }
        for substituted in 0..=4 {
            let counted = |hour: &&FloatHour| {
                let (outcome, answer) = hour.outcome();
                outcome == Outcome::Recorded && answer[4] == substituted
            };
            assert!(hours.iter().filter(counted).count() >= 20);
        }
    }
}

#[test]
fn cases_follow_from_the_seed_alone() {
    let named = float_hours(1, 0);
    let all = float_hours(1, COUNT);
    assert_eq!(all.len(), named.len() + COUNT);
    assert_eq!(all, float_hours(1, COUNT));
    assert_eq!(all[..named.len() + 100], float_hours(1, 100));
    let another = float_hours(2, 100);
    assert_eq!(another[..named.len()], named);
    assert_ne!(another[named.len()..], all[named.len()..named.len() + 100]);
}
