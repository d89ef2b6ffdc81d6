//! Hours as a recorder hands them over, four states and four floats: sound
//! ones, half-way points and limits with the floats beside them, floats of every
//! sort, faults in all orders, and slices of all lengths.
//!
//! Floats are patterns of 64 bits. One that is to be near a decimal number is
//! read from that number's text.

use super::{distinct, family_of, Family};
use crate::layout::Value;
use crate::random::Random;
use crate::recorder_words::{record, Outcome};
use crate::recorder_words::{ABSENT, MEASURED, SUBSTITUTED};
use crate::recorder_words::{ANSWER, CHANNELS, FRACTION, INFINITY, MINUS_ZERO, READINGS};

/// An hour of a recorder, with the slices of the call as they are lent.
#[derive(Clone, Debug, PartialEq, Eq)]
pub struct FloatHour {
    pub states: Vec<u8>,
    pub readings: Vec<u64>,
    pub answer: Vec<u32>,
}

impl FloatHour {
    /// What the call returns, and the lent answer after it.
    pub fn outcome(&self) -> (Outcome, Vec<u32>) {
        let mut answer = self.answer.clone();
        let outcome = record(&self.states, &self.readings, &mut answer);
        (outcome, answer)
    }
}

/// The families and their shares.
const FAMILIES: [(Family<FloatHour>, usize); 10] = [
    (|random, _| sound(random), 5),
    (half_way_everywhere, 12),
    (at_limit, 8),
    (wild, 10),
    (faulty, 8),
    (of_states, 4),
    (of_lengths, 7),
    (of_no_state, 3),
    (of_any_bits, 6),
    (mutated, 5),
];

/// The hour with this number among those of a seed.
pub fn hour(random: &mut Random, number: usize) -> FloatHour {
    let (family, turn) = family_of(&FAMILIES, number);
    family(random, turn)
}

/// The bit that a quiet NaN has and a signalling one has not.
const QUIET: u64 = 1 << (FRACTION - 1);

/// The largest fraction; also the largest subnormal float.
const FULL: u64 = (1 << FRACTION) - 1;

/// The float nearest to a number.
fn float(text: &str) -> u64 {
    text.parse::<f64>().expect("a number").to_bits()
}

/// The float nearest to a number with so many decimals.
fn decimal(number: u128, decimals: usize) -> u64 {
    float(&format!("{number}e-{decimals}"))
}

/// The float so many steps above another, or below it, on the same side of 0.
fn beside(pattern: u64, steps: i64) -> u64 {
    pattern.wrapping_add_signed(steps)
}

/// The float nearest to the point half-way from so many units to one more.
fn half_way(channel: &Value, units: u128) -> u64 {
    decimal((2 * units + 1) * 5 * channel.unit, channel.decimals + 1)
}

/// The least and the most units that are recorded.
fn unit_limits(channel: &Value) -> (u128, u128) {
    let (low, high) = channel.limits();
    (low / channel.unit, high / channel.unit)
}

/// A float from one to another, both included.
fn between(random: &mut Random, low: u64, high: u64) -> u64 {
    random.between(low.into(), high.into()) as u64
}

fn either_sign(random: &mut Random) -> u64 {
    random.pick(&[0, MINUS_ZERO])
}

/// A float that is recorded, from a number of any size with any decimals.
fn sound_reading(random: &mut Random, channel: &Value) -> u64 {
    let (low, high) = channel.limits();
    let number = low + random.spread(high - low - 1);
    let further = random.below(12);
    let parts = 10u128.pow(further as u32);
    decimal(number * parts + random.between(0, parts - 1), channel.decimals + further)
}

/// A float at a half-way point within the limits, or next to one: any point, or
/// one that is itself a float.
fn near_half_way(random: &mut Random, channel: &Value, is_float: bool) -> u64 {
    let (low, high) = unit_limits(channel);
    let drawn = low + random.spread(high - low - 1);
    // Of the points between tenths, .25 and .75 are floats.
    let units = if is_float { drawn / 5 * 5 + 2 } else { drawn };
    beside(half_way(channel, units), random.pick(&[-1, 0, 1]))
}

/// NaN of either sign, quiet or signalling, with any payload.
fn nan(random: &mut Random) -> u64 {
    let payload = 1 + random.spread(u128::from(FULL) - 1) as u64;
    either_sign(random) | INFINITY | random.pick(&[0, QUIET]) | payload
}

/// A float that is negative or not finite.
fn unreal(random: &mut Random, channel: &Value) -> u64 {
    match random.below(5) {
        0 => nan(random),
        1 => either_sign(random) | INFINITY,
        2 => MINUS_ZERO | (1 + random.spread(u128::from(FULL) - 1) as u64),
        3 => MINUS_ZERO | sound_reading(random, channel).max(1),
        _ => MINUS_ZERO | between(random, 1, INFINITY - 1),
    }
}

/// A finite float from 0 up that is not recorded.
fn out_of_range(random: &mut Random, channel: &Value) -> u64 {
    let (low, high) = unit_limits(channel);
    let past = half_way(channel, high) + 1;
    match random.below(4) {
        0 if low > 0 => between(random, 0, half_way(channel, low - 1) - 1),
        0 | 1 => past + random.spread(1 << FRACTION) as u64,
        2 => past_bits(random, channel),
        _ => between(random, past, INFINITY - 1),
    }
}

/// A number whose units are past the limit, but not if they are cut to so many bits.
fn past_bits(random: &mut Random, channel: &Value) -> u64 {
    let (low, high) = unit_limits(channel);
    let bits = random.pick(&[29, 32, 33, 53, 63, 64, 96]);
    decimal(((1 << bits) + random.between(low, high)) * channel.unit, channel.decimals)
}

/// The hour of these states and readings. Its answer is long enough, and often
/// longer.
fn lent(random: &mut Random, states: [u8; READINGS], readings: [u64; READINGS]) -> FloatHour {
    let room = ANSWER + random.below(4);
    FloatHour { states: states.into(), readings: readings.into(), answer: answer_of(random, room) }
}

/// An answer to lend, no two of its numbers alike.
fn answer_of(random: &mut Random, room: usize) -> Vec<u32> {
    distinct(random, room).iter().map(|&number| number as u32).collect()
}

fn states(random: &mut Random) -> [u8; READINGS] {
    [(); READINGS].map(|()| random.pick(&[MEASURED, SUBSTITUTED]))
}

/// An hour that is recorded.
fn sound(random: &mut Random) -> FloatHour {
    let states = states(random);
    let readings = CHANNELS.map(|channel| sound_reading(random, &channel));
    lent(random, states, readings)
}

/// A recorded hour with one reading replaced.
fn sound_but(random: &mut Random, place: usize, pattern: u64) -> FloatHour {
    let mut hour = sound(random);
    hour.readings[place] = pattern;
    hour
}

/// Every reading at a half-way point or beside it.
fn half_way_everywhere(random: &mut Random, turn: usize) -> FloatHour {
    let states = states(random);
    let readings = CHANNELS.map(|channel| near_half_way(random, &channel, turn % 2 == 0));
    lent(random, states, readings)
}

/// One reading at the first or last number that is recorded, or where the
/// numbers next to these begin, and up to two floats beside.
fn at_limit(random: &mut Random, turn: usize) -> FloatHour {
    let (place, way, steps) = (turn % 4, turn / 4 % 4, (turn / 16 % 5) as i64 - 2);
    let channel = &CHANNELS[place];
    let (low, high) = unit_limits(channel);
    let before = low.saturating_sub(1);
    let pattern = match way {
        0 => half_way(channel, high),
        1 => half_way(channel, before),
        2 => decimal(high * channel.unit, channel.decimals),
        _ => decimal((before + 1) * channel.unit, channel.decimals),
    };
    sound_but(random, place, beside(pattern, steps))
}

/// One float of a sort that recorders rarely have.
fn wild(random: &mut Random, turn: usize) -> FloatHour {
    let place = turn % 4;
    let pattern = wild_reading(random, place, turn / 4);
    sound_but(random, place, pattern)
}

fn wild_reading(random: &mut Random, place: usize, way: usize) -> u64 {
    let least_recorded = half_way(&CHANNELS[place], 0);
    match way % 7 {
        0 => nan(random),
        1 => either_sign(random) | INFINITY,
        2 => either_sign(random) | random.spread(FULL.into()) as u64,
        3 => either_sign(random) | between(random, 1 << FRACTION, least_recorded),
        4 => past_bits(random, &CHANNELS[place]),
        5 => between(random, 0, INFINITY - 1),
        // A power of two, and the floats beside it.
        _ => beside(between(random, 1, 0x7FE) << FRACTION, random.pick(&[-1, 0, 1])),
    }
}

/// Each reading is sound, absent, negative or not finite, or out of range: all
/// combinations in turn.
fn faulty(random: &mut Random, turn: usize) -> FloatHour {
    let (mut states, mut readings) = (states(random), [0; READINGS]);
    for (place, channel) in CHANNELS.iter().enumerate() {
        readings[place] = match turn >> (2 * place) & 3 {
            0 => sound_reading(random, channel),
            1 => {
                states[place] = ABSENT;
                any_reading(random, channel)
            }
            2 => unreal(random, channel),
            _ => out_of_range(random, channel),
        };
    }
    lent(random, states, readings)
}

fn any_reading(random: &mut Random, channel: &Value) -> u64 {
    match random.below(4) {
        0 => sound_reading(random, channel),
        1 => unreal(random, channel),
        2 => out_of_range(random, channel),
        _ => random.bits(),
    }
}

/// All states in turn. The float of an absent reading is any, the others are
/// recorded.
fn of_states(random: &mut Random, turn: usize) -> FloatHour {
    let states = [1, 3, 9, 27].map(|divisor| (turn / divisor % 3) as u8);
    let mut readings = [0; READINGS];
    for (place, channel) in CHANNELS.iter().enumerate() {
        readings[place] = match states[place] {
            ABSENT => any_reading(random, channel),
            _ => sound_reading(random, channel),
        };
    }
    lent(random, states, readings)
}

/// A recorded hour, or one with any faults.
fn any_hour(random: &mut Random) -> FloatHour {
    match random.below(3) {
        0 => {
            let turn = random.below(256);
            faulty(random, turn)
        }
        _ => sound(random),
    }
}

/// One slice of any length, or all three in all combinations of too short, long
/// enough and longer.
fn of_lengths(random: &mut Random, turn: usize) -> FloatHour {
    let mut lengths = [READINGS, READINGS, ANSWER];
    let way = turn / 2;
    if turn % 2 == 0 {
        lengths[way % 3] = way / 3 % 9;
    } else {
        lengths = [(way, READINGS), (way / 5, READINGS), (way / 25, ANSWER)]
            .map(|(way, whole)| length(random, way, whole));
    }
    resized(random, lengths)
}

/// Any hour with slices of these lengths.
fn resized(random: &mut Random, [states, readings, room]: [usize; 3]) -> FloatHour {
    let mut hour = any_hour(random);
    hour.states.resize_with(states, || random.pick(&[MEASURED, SUBSTITUTED, ABSENT]));
    hour.readings.resize_with(readings, || sound_reading(random, &CHANNELS[0]));
    FloatHour { answer: answer_of(random, room), ..hour }
}

/// As long as is needed, one less, more, nothing, or far too little.
fn length(random: &mut Random, way: usize, whole: usize) -> usize {
    match way % 5 {
        0 => whole,
        1 => whole - 1,
        2 => whole + 1 + random.below(3),
        3 => 0,
        _ => 1 + random.below(whole - 2),
    }
}

/// A state that is none of the three; many would be, were they cut to fewer
/// bits.
fn of_no_state(random: &mut Random, turn: usize) -> FloatHour {
    const NONE: [u8; 8] = [3, 4, 5, 6, 128, 129, 130, 255];
    let mut hour = any_hour(random);
    let drawn = 3 + random.below(253) as u8;
    hour.states[turn % 4] = NONE.get(turn / 4 % 9).copied().unwrap_or(drawn);
    hour
}

/// Readings of any bits, or of any bits among those of about the right size.
fn of_any_bits(random: &mut Random, turn: usize) -> FloatHour {
    let states = states(random);
    let readings = CHANNELS.map(|channel| match turn % 4 {
        0 => random.bits(),
        _ => of_right_size(random, &channel),
    });
    lent(random, states, readings)
}

/// A float from 1/16 to about the limit, with many bits or few.
fn of_right_size(random: &mut Random, channel: &Value) -> u64 {
    let limit = decimal(channel.limits().1, channel.decimals);
    let exponent = between(random, float("0.0625") >> FRACTION, limit >> FRACTION);
    let bits = random.bits() & FULL;
    let few = (bits >> random.below(53)) << random.below(53) & FULL;
    exponent << FRACTION | random.pick(&[0, 1, FULL, bits, few, few])
}

/// A recorded hour with one to three bits changed, or one reading in another's
/// place.
fn mutated(random: &mut Random, turn: usize) -> FloatHour {
    let mut hour = sound(random);
    let [from, to] = [(); 2].map(|()| random.below(READINGS));
    if turn % 4 == 0 {
        hour.readings[to] = hour.readings[from];
        return hour;
    }
    for _ in 0..1 + random.below(3) {
        hour.readings[random.below(READINGS)] ^= 1 << random.below(64);
    }
    hour
}

/// What the answer of a named hour holds before the call.
const LENT: [u32; 7] = [90, 91, 92, 93, 94, 95, 96];

/// Numbers to try in every place, each with the floats beside it: the papers'
/// examples, half-way points and limits, former ones too; and 2^29, 2^32 and 2^64
/// units of any channel.
const NUMBERS: [&str; 51] = [
    "0.05",
    "0.1",
    "0.15",
    "0.25",
    "0.35",
    "0.45",
    "0.5",
    "0.75",
    "0.95",
    "1",
    "12.25",
    "99.95",
    "100",
    "100.05",
    "100.1",
    "499.9",
    "500",
    "999.5",
    "1000",
    "1500",
    "2500",
    "9999.85",
    "9999.9",
    "9999.95",
    "10000",
    "53687091.2",
    "429496729.6",
    "499999500",
    "500000000",
    "500000499.9",
    "500000500",
    "500001000",
    "536870499.9",
    "536870500",
    "536870911",
    "536870912",
    "1000000000",
    "2147483648",
    "4294967295.9",
    "4294967296",
    "4294967500",
    "8589934592",
    "9999998500",
    "9999999000",
    "9999999499.9",
    "9999999500",
    "10000000000",
    "536870912000",
    "4294967296000",
    "1844674407370955161.6",
    "18446744073709551616000",
];

/// Patterns to try in every place, with and without a sign.
const PATTERNS: [u64; 11] = [
    0,
    1,
    FULL,
    FULL + 1,
    INFINITY - 1,
    INFINITY,
    INFINITY + 1,
    INFINITY + QUIET - 1,
    INFINITY + QUIET,
    INFINITY + QUIET + 0xBAD,
    INFINITY + FULL,
];

fn named_readings() -> Vec<u64> {
    let numbers = NUMBERS.iter().flat_map(|text| [-1, 0, 1].map(|steps| beside(float(text), steps)));
    let small_negatives = ["-0.04", "-0.05", "-12", "-500"].map(float);
    let patterns = PATTERNS.iter().flat_map(|&pattern| [pattern, MINUS_ZERO | pattern]);
    numbers.chain(small_negatives).chain(patterns).collect()
}

/// The paper's hour, measured.
fn plain() -> FloatHour {
    let readings = ["250.0", "200.0", "12.0", "20000000"].map(float);
    FloatHour { states: vec![MEASURED; READINGS], readings: readings.into(), answer: LENT.into() }
}

/// The hours that every seed has.
pub fn named() -> Vec<FloatHour> {
    [vec![plain()], with_named_readings(), with_two_faults(), unfit()].concat()
}

/// Each named reading in each place, substituted.
fn with_named_readings() -> Vec<FloatHour> {
    let mut hours = Vec::new();
    for place in 0..READINGS {
        for pattern in named_readings() {
            let mut hour = plain();
            hour.states[place] = SUBSTITUTED;
            hour.readings[place] = pattern;
            hours.push(hour);
        }
    }
    hours
}

/// Any fault in any place, and any in a later one.
fn with_two_faults() -> Vec<FloatHour> {
    let faults = [(ABSENT, INFINITY), (MEASURED, float("-1")), (SUBSTITUTED, float("1e10"))];
    let mut hours = Vec::new();
    for (first, later) in [(0, 1), (0, 2), (0, 3), (1, 2), (1, 3), (2, 3)] {
        for fault in faults {
            for later_fault in faults {
                let mut hour = plain();
                (hour.states[first], hour.readings[first]) = fault;
                (hour.states[later], hour.readings[later]) = later_fault;
                hours.push(hour);
            }
        }
    }
    hours
}

/// States or readings that are not four, answers of any room, and states that
/// are none of the three.
fn unfit() -> Vec<FloatHour> {
    let mut hours = Vec::new();
    for length in 0..=6 {
        let [mut states, mut readings, mut answer] = [(); 3].map(|()| plain());
        states.states.resize(length, MEASURED);
        readings.readings.resize(length, float("12"));
        answer.answer.truncate(length);
        hours.extend([states, readings, answer]);
    }
    for place in 0..READINGS {
        for state in [3, 255] {
            let mut hour = plain();
            hour.states[place] = state;
            hours.push(hour);
        }
    }
    hours
}
