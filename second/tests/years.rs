//! What the quarters to join of a seed contain: each cause of refusal alone and
//! beside others, each limit exactly and one beyond, sums that 64 bits do not
//! hold, whole and broken years, and slices of all lengths. Causes and sums are
//! formed here anew.

use second::generate::{years, Joining};
use second::year_to_date::Outcome;

const COUNT: usize = 3_000;
const SEEDS: [u64; 3] = [1, 2, 3];

const MOST_HOURS: u128 = 2_208;
const MOST_SUM: u128 = 9_999_999_999;
const MOST: u128 = u64::MAX as u128;

/// A call with slices that are long enough.
#[derive(Debug)]
struct Call {
    year: u128,
    quarter: u128,
    previous_year: u128,
    previous_quarter: u128,
    /// Hours, SO2, CO2, heat, NOx tons.
    previous: [u128; 5],
    answer: [u128; 5],
    /// The number of the refusal, if there is one.
    refusal: Option<u64>,
}

/// A cause of 41, by a name.
type Cause = (&'static str, fn(&Call) -> bool);

const CAUSES: [Cause; 6] = [
    ("quarter", |c| c.quarter < 1 || c.quarter > 4),
    ("year", |c| c.previous_year != c.year),
    ("quarter before", |c| c.quarter == 0 || c.previous_quarter != c.quarter - 1),
    ("zeros", |c| c.previous_quarter == 0 && c.previous != [0; 5]),
    ("hours", |c| c.answer[0] > MOST_HOURS),
    ("hours before", |c| c.previous[0] > MOST_HOURS * c.previous_quarter),
];

impl Call {
    /// The call of a case, unless a slice is too short.
    fn of(joining: &Joining) -> Option<Call> {
        let (outcome, record) = joining.outcome();
        let [previous_year, previous_quarter, previous @ ..] =
            joining.previous.first_chunk::<7>()?.map(u128::from);
        let [hours, so2, co2, heat, _, tons] = joining.answer.first_chunk::<6>()?.map(u128::from);
        record.get(6)?;
        Some(Call {
            year: joining.year.into(),
            quarter: joining.quarter.into(),
            previous_year,
            previous_quarter,
            previous,
            answer: [hours, so2, co2, heat, tons],
            refusal: (outcome == Outcome::Refused).then(|| record[0]),
        })
    }

    fn causes(&self) -> Vec<&str> {
        CAUSES.iter().filter(|(_, holds)| holds(self)).map(|&(name, _)| name).collect()
    }

    fn sum(&self, sum: usize) -> u128 {
        self.previous[sum] + self.answer[sum]
    }

    /// The sums that are too large.
    fn over(&self) -> Vec<usize> {
        (1..5).filter(|&sum| self.sum(sum) > MOST_SUM).collect()
    }

    fn joined(&self) -> bool {
        self.refusal.is_none()
    }
}

/// The calls of some seeds.
struct Calls(Vec<Vec<Call>>);

impl Calls {
    fn new() -> Self {
        Calls(SEEDS.map(|seed| years(seed, COUNT).iter().filter_map(Call::of).collect()).into())
    }

    /// Each seed must have such a call.
    #[track_caller]
    fn have(&self, is_so: impl Fn(&Call) -> bool) {
        for calls in &self.0 {
            assert!(calls.iter().any(&is_so));
        }
    }
}

#[test]
fn the_outcome_follows_from_the_causes() {
    for call in Calls::new().0.iter().flatten() {
        let expected = match (call.causes().is_empty(), call.over().is_empty()) {
            (false, _) => Some(41),
            (true, false) => Some(42),
            (true, true) => None,
        };
        assert_eq!(call.refusal, expected, "{call:?}");
    }
}

#[test]
fn every_cause_occurs_alone_and_beside_too_large_a_sum() {
    let calls = Calls::new();
    for (name, _) in CAUSES {
        for over in [false, true] {
            calls.have(|c| c.causes() == [name] && c.over().is_empty() != over);
        }
    }
    for amount in 0..5 {
        let only_one = |c: &Call| (0..5).all(|other| (c.previous[other] != 0) == (other == amount));
        for over in [false, true] {
            calls.have(|c| {
                c.quarter == 1 && c.previous_quarter == 0 && only_one(c) && c.over().is_empty() != over
            });
        }
    }
}

#[test]
fn quarters_and_years_of_all_sizes() {
    let calls = Calls::new();
    for quarter in 1..=4 {
        calls.have(|c| c.joined() && c.quarter == quarter);
        for before in (0..=5).filter(|&before| before != quarter - 1) {
            calls.have(|c| {
                c.causes() == ["quarter before"] && c.quarter == quarter && c.previous_quarter == before
            });
        }
    }
    for quarter in [5, 1 << 63, MOST] {
        calls.have(|c| c.causes() == ["quarter"] && c.quarter == quarter);
    }
    calls.have(|c| c.quarter == 0 && c.previous_quarter == 0 && c.previous == [0; 5]);
    calls.have(|c| c.quarter == 0 && c.previous_quarter == MOST);
    calls.have(|c| c.quarter == 1 && c.previous_quarter == MOST);
    calls.have(|c| c.previous_quarter < MOST && c.previous_quarter * MOST_HOURS > MOST);
    for year in [0, MOST] {
        calls.have(|c| c.joined() && c.year == year);
        calls.have(|c| c.causes() == ["year"] && c.year == year && c.previous_year == MOST - year);
    }
    for years in [0, 1] {
        for idle in [false, true] {
            calls.have(|c| {
                c.quarter == 1
                    && c.previous_quarter == 4
                    && c.previous_year + years == c.year
                    && (c.previous == [0; 5]) == idle
            });
        }
    }
}

/// Right quarters and years, were they cut to 32 bits.
#[test]
fn numbers_that_32_bits_do_not_hold() {
    let calls = Calls::new();
    let cut = |number: u128| number % (1 << 32);
    for quarter in 1..=4 {
        calls.have(|c| {
            c.causes() == ["quarter"] && cut(c.quarter) == quarter && cut(c.previous_quarter) + 1 == quarter
        });
        calls.have(|c| {
            c.causes() == ["quarter before"] && c.quarter == quarter && cut(c.previous_quarter) + 1 == quarter
        });
        calls.have(|c| c.causes() == ["year"] && c.quarter == quarter && cut(c.previous_year) == cut(c.year));
    }
    calls.have(|c| c.causes() == ["hours"] && cut(c.answer[0]) <= MOST_HOURS);
    calls.have(|c| c.causes() == ["hours before"] && cut(c.previous[0]) <= MOST_HOURS);
}

#[test]
fn hours_at_their_limits_and_one_beyond() {
    let calls = Calls::new();
    for quarter in 1..=4 {
        let before = MOST_HOURS * (quarter - 1);
        calls.have(|c| c.joined() && c.quarter == quarter && c.previous[0] == before);
        calls.have(|c| c.joined() && c.quarter == quarter && c.answer[0] == MOST_HOURS);
        calls.have(|c| c.joined() && c.quarter == quarter && c.sum(0) == MOST_HOURS * quarter);
        calls.have(|c| c.causes() == ["hours"] && c.quarter == quarter && c.answer[0] == MOST_HOURS + 1);
        let cause = if quarter == 1 { &["zeros", "hours before"][..] } else { &["hours before"] };
        calls.have(|c| c.causes() == cause && c.quarter == quarter && c.previous[0] == before + 1);
        // Neither side makes good for the other.
        if quarter > 1 {
            calls.have(|c| {
                c.causes() == ["hours"] && c.quarter == quarter && c.sum(0) <= MOST_HOURS * quarter
            });
            calls.have(|c| {
                c.causes() == ["hours before"] && c.quarter == quarter && c.sum(0) <= MOST_HOURS * quarter
            });
        }
    }
    for cause in ["hours", "hours before"] {
        calls.have(|c| c.causes() == [cause] && c.sum(0) == MOST + 1);
    }
}

#[test]
fn sums_at_their_limit_and_beyond() {
    let calls = Calls::new();
    for sum in 1..5 {
        for quarter in 1..=4 {
            calls.have(|c| c.joined() && c.quarter == quarter && c.sum(sum) == MOST_SUM);
            calls.have(|c| c.refusal == Some(42) && c.quarter == quarter && c.over() == [sum]);
        }
        calls.have(|c| c.joined() && c.previous[sum] == MOST_SUM);
        calls.have(|c| c.joined() && c.answer[sum] == MOST_SUM);
        calls.have(|c| c.joined() && c.sum(sum) == MOST_SUM && c.previous[sum] > 0 && c.answer[sum] > 0);
        let over = |c: &Call| c.refusal == Some(42) && c.over() == [sum];
        let past = |c: &Call| (c.previous[sum] > MOST_SUM, c.answer[sum] > MOST_SUM);
        calls.have(|c| over(c) && c.sum(sum) == MOST_SUM + 1 && past(c) == (false, false));
        calls.have(|c| over(c) && c.sum(sum) == MOST_SUM + 1 && past(c) == (true, false));
        calls.have(|c| over(c) && c.sum(sum) == MOST_SUM + 1 && past(c) == (false, true));
        for sides in [(true, false), (false, true), (true, true)] {
            let cut = |c: &Call| c.sum(sum) % (MOST + 1);
            calls.have(|c| over(c) && past(c) == sides && c.sum(sum) <= MOST);
            calls.have(|c| over(c) && past(c) == sides && c.sum(sum) > MOST && cut(c) <= MOST_SUM);
        }
        calls.have(|c| over(c) && c.sum(sum) == 2 * MOST);
    }
    calls.have(|c| c.joined() && (1..5).all(|sum| c.sum(sum) == MOST_SUM));
    calls.have(|c| c.refusal == Some(42) && c.over() == [1, 2, 3, 4]);
}

/// Whether the second call takes the record that the first made or, if that was
/// refused, the one that it took itself.
fn follows(first: &Joining, second: &Joining) -> bool {
    let held = match first.outcome() {
        (Outcome::Joined, record) => record,
        _ => first.previous.clone(),
    };
    held.get(..7).is_some_and(|held| second.previous.get(..7) == Some(held))
}

/// Rows of calls, each with the record held by then, from a quarter 0 on.
fn rows(seed: u64) -> Vec<Vec<Joining>> {
    let mut rows: Vec<Vec<Joining>> = Vec::new();
    for joining in years(seed, COUNT) {
        match rows.last_mut() {
            Some(row) if follows(&row[row.len() - 1], &joining) => row.push(joining),
            _ => rows.push(vec![joining]),
        }
    }
    rows.retain(|row| row.len() > 1 && row[0].previous[1..7] == [0; 6]);
    rows
}

#[test]
fn years_are_joined_quarter_by_quarter() {
    for seed in SEEDS {
        // Years from that of the quarter 0 on, quarters, whether they joined.
        let told: Vec<Vec<(u64, u64, bool)>> = rows(seed)
            .iter()
            .map(|row| {
                let first = row[0].previous[0];
                let step =
                    |j: &Joining| (j.year.wrapping_sub(first), j.quarter, j.outcome().0 == Outcome::Joined);
                row.iter().map(step).collect()
            })
            .collect();
        let has = |row: &[(u64, u64, bool)]| assert!(told.iter().any(|t| t == row), "seed {seed}: {row:?}");
        let year = [(0, 1, true), (0, 2, true), (0, 3, true), (0, 4, true)];
        has(&year);
        // A quarter left out, doubled, too many, and one of another year.
        has(&[(0, 2, false), (0, 3, false)]);
        has(&[(0, 1, true), (0, 3, false), (0, 4, false)]);
        has(&[(0, 1, true), (0, 2, true), (0, 4, false)]);
        has(&[(0, 1, true), (0, 2, true), (0, 2, false), (0, 3, true), (0, 4, true)]);
        has(&[&year[..], &[(0, 5, false)]].concat());
        has(&[&year[..], &[(1, 1, false)]].concat());
        has(&[(0, 1, true), (0, 2, true), (1, 3, false), (0, 3, true), (0, 4, true)]);
        has(&[&[(1, 1, false)], &year[..]].concat());
        // A sum that passes the limit in the course of the year.
        has(&[(0, 1, true), (0, 2, true), (0, 3, true), (0, 4, false)]);
    }
}

#[test]
fn slices_of_all_lengths() {
    const WHOLE: [usize; 3] = [7, 6, 7];
    for seed in SEEDS {
        let all = years(seed, COUNT);
        let lengths = |j: &Joining| [j.previous.len(), j.answer.len(), j.record.len()];
        for short in 0..8 {
            let wanted = [0, 1, 2].map(|slice| WHOLE[slice] - (short >> slice & 1));
            assert!(all.iter().any(|j| lengths(j) == wanted), "seed {seed}: {wanted:?}");
        }
        for (slice, whole) in WHOLE.into_iter().enumerate() {
            for length in 0..=9 {
                assert!(all.iter().any(|j| lengths(j)[slice] == length), "seed {seed}: {slice} {length}");
            }
            let others_whole =
                |j: &Joining| (0..3).all(|other| other == slice || lengths(j)[other] >= WHOLE[other]);
            assert!(all.iter().any(|j| lengths(j)[slice] == 0 && others_whole(j)), "seed {seed}: {slice}");
            for outcome in [Outcome::Joined, Outcome::Refused] {
                let longer = |j: &Joining| lengths(j)[slice] > whole && j.outcome().0 == outcome;
                assert!(all.iter().any(longer), "seed {seed}: {slice} {outcome:?}");
            }
        }
        assert!(all.iter().any(|j| lengths(j) == [0; 3]), "seed {seed}");
        assert!(all.iter().all(|j| j.record.len() < 11));
    }
}

#[test]
fn lent_places_keep_their_values_but_for_those_named() {
    for joining in years(1, COUNT) {
        let (outcome, record) = joining.outcome();
        let written = match outcome {
            Outcome::Joined => 7,
            Outcome::Refused => 1,
            Outcome::TooShort => 0,
        };
        assert_eq!(record[written..], joining.record[written..]);
        let mut lent = joining.record;
        lent.sort_unstable();
        assert!(lent.windows(2).all(|pair| pair[0] < pair[1]));
    }
}

#[test]
fn every_outcome_occurs_often() {
    for seed in SEEDS {
        let mut times = [0; 4];
        for joining in years(seed, COUNT) {
            let (outcome, record) = joining.outcome();
            times[match (outcome, record.first()) {
                (Outcome::Joined, _) => 0,
                (Outcome::Refused, Some(41)) => 1,
                (Outcome::Refused, _) => 2,
                (Outcome::TooShort, _) => 3,
            }] += 1;
        }
        assert!(times.iter().all(|&times| times >= 200), "seed {seed}: {times:?}");
    }
}

#[test]
fn cases_follow_from_the_seed_alone() {
    let all = years(1, COUNT);
    assert_eq!(all.len(), COUNT);
    assert_eq!(all, years(1, COUNT));
    assert_eq!(all[..100], years(1, 100));
    assert_ne!(all[..100], years(2, 100));
}
