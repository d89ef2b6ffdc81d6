//! The year to date: an accepted quarter joined to the record of the quarters
//! before it.
//!
//! A record has seven numbers: year, quarter, hours, SO2, CO2, heat, NOx tons. An
//! accepted answer has six: hours, SO2, CO2, heat, the mean NOx rate, which is not
//! carried on, and NOx tons. The sums SO2, CO2, heat and NOx tons are in tenths.
//!
//! What the papers leave open is as it was settled with the request: slices and
//! returned numbers are those of the C call `edr_year_to_date`; either side has
//! at most 2,208 hours for each of its quarters, by itself; hours are none of
//! the sums that the limit is for.

use crate::calendar::MOST_HOURS;

/// The numbers of a record.
pub const RECORD: usize = 7;

/// The numbers of an accepted answer.
pub const ANSWER: usize = 6;

/// The largest sum, in tenths.
pub const MOST_SUM: u64 = 9_999_999_999;

/// What the call returns, and what it then has written.
#[derive(Clone, Copy, Debug, PartialEq, Eq)]
pub enum Outcome {
    /// The number of the refusal, in the first place of the lent record.
    Refused = 0,
    /// The new record, in the first seven places.
    Joined = 1,
    /// Nothing, as one of the slices is too short.
    TooShort = 2,
}

/// One quarter, or all quarters of a year up to it.
struct Quarters {
    year: u128,
    quarter: u128,
    hours: u128,
    sums: [u128; 4],
}

impl Quarters {
    fn of(numbers: [u64; RECORD]) -> Self {
        let [year, quarter, hours, sums @ ..] = numbers.map(u128::from);
        Quarters { year, quarter, hours, sums }
    }

    /// The numbers, all of which are below 2^64.
    fn numbers(&self) -> [u64; RECORD] {
        let [so2, co2, heat, nox_tons] = self.sums;
        [self.year, self.quarter, self.hours, so2, co2, heat, nox_tons].map(|number| number as u64)
    }
}

/// Joins the answer of a quarter to the previous record. Places of the lent
/// record that the outcome does not name keep their values.
pub fn join(previous: &[u64], answer: &[u64], year: u64, quarter: u64, record: &mut [u64]) -> Outcome {
    let (Some(&previous), Some(&[hours, so2, co2, heat, _, nox_tons]), Some(record)) =
        (previous.first_chunk(), answer.first_chunk::<ANSWER>(), record.first_chunk_mut::<RECORD>())
    else {
        return Outcome::TooShort;
    };
    let own = Quarters::of([year, quarter, hours, so2, co2, heat, nox_tons]);
    match joined(&Quarters::of(previous), own) {
        Ok(quarters) => {
            *record = quarters.numbers();
            Outcome::Joined
        }
        Err(number) => {
            record[0] = number;
            Outcome::Refused
        }
    }
}

/// The previous quarters and one more, or the number of the refusal.
fn joined(previous: &Quarters, own: Quarters) -> Result<Quarters, u64> {
    if !can_follow(previous, &own) {
        return Err(41);
    }
    let sums = [0, 1, 2, 3].map(|index| previous.sums[index] + own.sums[index]);
    if sums.iter().any(|&sum| sum > MOST_SUM.into()) {
        return Err(42);
    }
    Ok(Quarters { hours: previous.hours + own.hours, sums, ..own })
}

/// Everything that is refused with 41. The quarter before the first is the
/// same year's quarter 0, not the last one of the year before.
fn can_follow(previous: &Quarters, own: &Quarters) -> bool {
    let most_hours = u128::from(MOST_HOURS);
    let nothing = previous.hours == 0 && previous.sums == [0; 4];
    (1..=4).contains(&own.quarter)
        && previous.year == own.year
        && previous.quarter + 1 == own.quarter
        && (previous.quarter > 0 || nothing)
        && own.hours <= most_hours
        && previous.hours <= most_hours * previous.quarter
}

#[cfg(test)]
mod tests {
    use super::*;
    use crate::layout::R301;

    const FIRST: [u64; RECORD] = [2005, 1, 2_160, 11, 222, 3_333, 44_444];
    const ANSWERED: [u64; ANSWER] = [1, 2, 684, 6_667, 358, 1];

    /// What a lent record of nine places holds before the call.
    const LENT: [u64; 9] = [90, 91, 92, 93, 94, 95, 96, 97, 98];

    fn record_of(previous: &[u64], answer: &[u64], year: u64, quarter: u64) -> Result<Vec<u64>, u64> {
        let mut record = LENT;
        match join(previous, answer, year, quarter, &mut record) {
            Outcome::Joined => {
                assert_eq!(record[RECORD..], LENT[RECORD..]);
                Ok(record[..RECORD].to_vec())
            }
            Outcome::Refused => {
                assert_eq!(record[1..], LENT[1..]);
                Err(record[0])
            }
            Outcome::TooShort => panic!("the slices are long enough"),
        }
    }

    /// The second quarter's answer joined to a previous record.
    fn second_after(previous: [u64; RECORD]) -> Result<Vec<u64>, u64> {
        record_of(&previous, &ANSWERED, 2005, 2)
    }

    #[test]
    fn the_first_quarter_is_the_year_to_date() {
        let joined = record_of(&[2005, 0, 0, 0, 0, 0, 0], &ANSWERED, 2005, 1);
        assert_eq!(joined, Ok(vec![2005, 1, 1, 2, 684, 6_667, 1]));
    }

    #[test]
    fn later_quarters_are_added() {
        assert_eq!(second_after(FIRST), Ok(vec![2005, 2, 2_161, 13, 906, 10_000, 44_445]));
    }

    #[test]
    fn the_year_has_no_range() {
        for year in [0, 1994, 2095, u64::MAX] {
            let joined = record_of(&[year, 0, 0, 0, 0, 0, 0], &[0; ANSWER], year, 1);
            assert_eq!(joined, Ok(vec![year, 1, 0, 0, 0, 0, 0]));
        }
    }

    #[test]
    fn the_previous_record_is_of_the_quarter_just_before() {
        for (year, quarter) in [(2004, 1), (2006, 1), (2005, 2), (2005, 3), (2005, u64::MAX)] {
            let mut previous = FIRST;
            previous[..2].copy_from_slice(&[year, quarter]);
            assert_eq!(second_after(previous), Err(41), "{year} {quarter}");
        }
        assert_eq!(second_after([2005, 0, 0, 0, 0, 0, 0]), Err(41));
        assert_eq!(record_of(&[2004, 4, 8_784, 1, 1, 1, 1], &ANSWERED, 2005, 1), Err(41));
        assert_eq!(record_of(&[2004, 0, 0, 0, 0, 0, 0], &ANSWERED, 2005, 1), Err(41));
    }

    #[test]
    fn quarters_are_one_to_four() {
        for (previous, quarter) in [(0, 0), (u64::MAX, 0), (4, 5), (u64::MAX - 1, u64::MAX)] {
            let joined = record_of(&[2005, previous, 0, 0, 0, 0, 0], &ANSWERED, 2005, quarter);
            assert_eq!(joined, Err(41), "{previous} {quarter}");
        }
    }

    #[test]
    fn a_quarter_0_is_all_zeros() {
        for place in 2..RECORD {
            let mut previous = [2005, 0, 0, 0, 0, 0, 0];
            previous[place] = 1;
            assert_eq!(record_of(&previous, &ANSWERED, 2005, 1), Err(41), "{place}");
        }
    }

    #[test]
    fn neither_side_has_more_hours_than_its_quarters() {
        for quarter in 1..=4 {
            let most = MOST_HOURS * (quarter - 1);
            let hours = |previous, answer| {
                record_of(&[2005, quarter - 1, previous, 0, 0, 0, 0], &[answer, 0, 0, 0, 0, 0], 2005, quarter)
            };
            assert_eq!(hours(most, MOST_HOURS), Ok(vec![2005, quarter, MOST_HOURS * quarter, 0, 0, 0, 0]));
            assert_eq!(hours(most + 1, 0), Err(41));
            assert_eq!(hours(0, MOST_HOURS + 1), Err(41));
            assert_eq!(hours(0, u64::MAX), Err(41));
        }
    }

    #[test]
    fn no_sum_passes_what_line_301_holds() {
        // The places of the sums in an answer; line 301 has no hours before them.
        for (sum, place) in [1, 2, 3, 5].into_iter().enumerate() {
            assert_eq!(u128::from(MOST_SUM), R301.values[place - 1].largest());
            let added = |previous, answer| {
                let (mut record, mut quarter) = (FIRST, ANSWERED);
                (record[3 + sum], quarter[place]) = (previous, answer);
                record_of(&record, &quarter, 2005, 2).map(|record| record[3 + sum])
            };
            for part in [0, 1, 4_000_000_000, MOST_SUM] {
                assert_eq!(added(part, MOST_SUM - part), Ok(MOST_SUM));
                assert_eq!(added(part, MOST_SUM - part + 1), Err(42));
                // Cut to 64 bits, these sums would be within the limit.
                assert_eq!(added(u64::MAX, part + 1), Err(42));
                assert_eq!(added(part + 1, u64::MAX), Err(42));
            }
            assert_eq!(added(1 << 63, 1 << 63), Err(42));
            assert_eq!(added(MOST_SUM + 1, 0), Err(42));
            assert_eq!(added(0, u64::MAX), Err(42));
        }
    }

    #[test]
    fn every_41_comes_before_42() {
        let over = [0, u64::MAX, MOST_SUM + 1, u64::MAX, 0, u64::MAX];
        assert_eq!(record_of(&FIRST, &over, 2005, 2), Err(42));
        assert_eq!(record_of(&FIRST, &over, 2006, 2), Err(41));
        assert_eq!(record_of(&FIRST, &over, 2005, 3), Err(41));
        assert_eq!(record_of(&[2005, 4, 0, 0, 0, 0, 0], &over, 2005, 5), Err(41));
        assert_eq!(record_of(&[2005, 0, 0, 0, 0, 0, 1], &over, 2005, 1), Err(41));
        assert_eq!(record_of(&[2005, 1, MOST_HOURS + 1, 0, 0, 0, 0], &over, 2005, 2), Err(41));
        assert_eq!(record_of(&FIRST, &[MOST_HOURS + 1, u64::MAX, 0, 0, 0, 0], 2005, 2), Err(41));
    }

    #[test]
    fn slices_that_are_too_short() {
        for (previous, answer, room) in [(6, 6, 7), (7, 5, 7), (7, 6, 6), (0, 6, 7), (7, 0, 7), (7, 6, 0)] {
            // The year fits only in every other call: nothing is written either way.
            for year in [2005, 2006] {
                let mut record = LENT;
                let outcome = join(&FIRST[..previous], &ANSWERED[..answer], year, 2, &mut record[..room]);
                assert_eq!((outcome, record), (Outcome::TooShort, LENT));
            }
        }
    }

    #[test]
    fn what_is_behind_a_record_or_answer_is_unread() {
        let previous = [&FIRST[..], &[u64::MAX]].concat();
        let answer = [&ANSWERED[..], &[u64::MAX, 1]].concat();
        assert_eq!(record_of(&previous, &answer, 2005, 2), second_after(FIRST));
        let another_mean = [1, 2, 684, 6_667, u64::MAX, 1];
        assert_eq!(record_of(&FIRST, &another_mean, 2005, 2), second_after(FIRST));
    }
}
