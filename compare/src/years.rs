//! Quarters joined to their year by both sides.

use second::generate::Joining;
use second::year_to_date::{Outcome, RECORD};

use crate::Answers;

/// Both calls, with every number of their lent records; and if no slice was too short, the wrapper's form of the call besides.
pub fn joined(joining: &Joining) -> Answers {
    let mut record = joining.record.clone();
    let code = proved(joining, &mut record);
    let (outcome, expected) = joining.outcome();
    let mut answers =
        Answers { proved: with_record(code, &record), second: with_record(outcome as u64, &expected) };
    if let Some(more) = wrapped(joining, outcome, &expected) {
        answers.add(more);
    }
    answers
}

/// The library's call on the slices as they are lent, which the wrapper makes on whole ones only.
fn proved(joining: &Joining, record: &mut [u64]) -> u64 {
    let Joining { previous, answer, year, quarter, .. } = joining;
    // SAFETY: each pointer and length are those of a slice that is borrowed for the call.
    unsafe {
        edr::edr_year_to_date(
            previous.as_ptr(),
            previous.len(),
            answer.as_ptr(),
            answer.len(),
            *year,
            *quarter,
            record.as_mut_ptr(),
            record.len(),
        )
    }
}

/// What the wrapper says, and what it should, given the second implementation's outcome and record.
fn wrapped(joining: &Joining, outcome: Outcome, expected: &[u64]) -> Option<Answers> {
    let second = match outcome {
        Outcome::Joined => format!("wrapped record {:?}", expected.first_chunk::<RECORD>()?),
        Outcome::Refused => format!("wrapped refusal {}", expected[0]),
        Outcome::TooShort => return None,
    };
    let &[year, quarter, hours, so2, co2, heat, nox_tons] = joining.previous.first_chunk()?;
    let previous = edr::YearToDate { year, quarter, hours, so2, co2, heat, nox_tons };
    let &[hours, so2, co2, heat, nox, nox_tons] = joining.answer.first_chunk()?;
    let answer = edr::Quarter { hours, so2, co2, heat, nox, nox_tons };
    let proved = match edr::join(previous, joining.year, joining.quarter, answer) {
        edr::Joined::Record(edr::YearToDate { year, quarter, hours, so2, co2, heat, nox_tons }) => {
            format!("wrapped record {:?}", [year, quarter, hours, so2, co2, heat, nox_tons])
        }
        edr::Joined::Refused(number) => format!("wrapped refusal {number}"),
    };
    Some(Answers { proved, second })
}

fn with_record(code: u64, record: &[u64]) -> String {
    format!("{code} with record {record:?}")
}
