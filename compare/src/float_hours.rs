//! A recorder's hours made into words by both sides.

use edr::Reading;
use second::generate::FloatHour;
use second::recorder_words::{Outcome, ABSENT, ANSWER, MEASURED, READINGS};

use crate::Answers;

/// Both calls, with every number of their lent answers; and if the call is of the right form, the wrapper's form of it besides.
pub fn recorded(hour: &FloatHour) -> Answers {
    let readings = floats(&hour.readings);
    let mut answer = hour.answer.clone();
    let code = proved(&hour.states, &readings, &mut answer);
    let (outcome, expected) = hour.outcome();
    let mut answers =
        Answers { proved: with_answer(code, &answer), second: with_answer(outcome as u64, &expected) };
    if let Some(more) = wrapped(&hour.states, &readings, outcome, &expected) {
        answers.add(more);
    }
    answers
}

/// Only moved, so that a NaN keeps its sign and all of its bits.
fn floats(patterns: &[u64]) -> Vec<f64> {
    patterns.iter().map(|&pattern| f64::from_bits(pattern)).collect()
}

/// The library's call on the slices as they are lent, which the wrapper makes on whole ones only.
fn proved(states: &[u8], readings: &[f64], answer: &mut [u32]) -> u64 {
    // SAFETY: each pointer and length are those of a slice that is borrowed for the call.
    unsafe {
        edr::edr_recorder_words(
            states.as_ptr(),
            states.len(),
            readings.as_ptr(),
            readings.len(),
            answer.as_mut_ptr(),
            answer.len(),
        )
    }
}

/// What the wrapper says, and what it should, given the second implementation's outcome and answer.
fn wrapped(states: &[u8], readings: &[f64], outcome: Outcome, expected: &[u32]) -> Option<Answers> {
    let second = match outcome {
        Outcome::Recorded => format!("wrapped words {:?}", expected.first_chunk::<ANSWER>()?),
        Outcome::Refused => format!("wrapped refusal {}", expected[0]),
        Outcome::Unfit => return None,
    };
    let states: &[u8; READINGS] = states.try_into().ok()?;
    let readings: &[f64; READINGS] = readings.try_into().ok()?;
    let [so2, nox, co2, flow] = std::array::from_fn(|place| reading(states[place], readings[place]));
    let proved = match edr::recorder_words(edr::RecorderHour { so2, nox, co2, flow }) {
        edr::Recorded::Words { words: [so2, nox, co2, flow], substituted } => {
            format!("wrapped words {:?}", [so2, nox, co2, flow, substituted])
        }
        edr::Recorded::Refused(number) => format!("wrapped refusal {number}"),
    };
    Some(Answers { proved, second })
}

fn reading(state: u8, float: f64) -> Reading {
    match state {
        MEASURED => Reading::Measured(float),
        ABSENT => Reading::Absent,
        _ => Reading::Substituted(float),
    }
}

fn with_answer(code: u64, answer: &[u32]) -> String {
    format!("{code} with answer {answer:?}")
}
