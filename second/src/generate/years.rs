//! Quarters to join to their year: sound ones, every limit and every cause of
//! refusal, whole years in a row, and slices of all lengths.
//!
//! Hours and the four sums are the amounts of a quarter: a record has them behind
//! its year and quarter, an answer around its mean.

use super::{distinct, family_of, Family};
use crate::calendar::MOST_HOURS;
use crate::random::Random;
use crate::year_to_date::{join, Outcome, ANSWER, MOST_SUM, RECORD};

/// Places in a record; its amounts follow.
const YEAR: usize = 0;
const QUARTER: usize = 1;
const AMOUNTS: usize = 2;

/// Places among the amounts: the hours, and SO2, CO2, heat and NOx tons.
const HOURS: usize = 0;
const SUMS: [usize; 4] = [1, 2, 3, 4];

/// The places of the amounts in an answer, and that of the mean.
const IN_ANSWER: [usize; 5] = [0, 1, 2, 3, 5];
const MEAN: usize = 4;

/// A quarter to join, with the slices of the call as they are lent.
#[derive(Clone, Debug, PartialEq, Eq)]
pub struct Joining {
    pub previous: Vec<u64>,
    pub answer: Vec<u64>,
    pub year: u64,
    pub quarter: u64,
    pub record: Vec<u64>,
}

impl Joining {
    /// What the call returns, and the lent record after it.
    pub fn outcome(&self) -> (Outcome, Vec<u64>) {
        let mut record = self.record.clone();
        let outcome = join(&self.previous, &self.answer, self.year, self.quarter, &mut record);
        (outcome, record)
    }

    /// Sets both parts of an amount.
    fn set(&mut self, amount: usize, previous: u64, answer: u64) {
        self.previous[AMOUNTS + amount] = previous;
        self.answer[IN_ANSWER[amount]] = answer;
    }
}

/// The families and their shares.
const FAMILIES: [(Family<Vec<Joining>>, usize); 10] = [
    (|random, turn| vec![sound_in_turn(random, turn)], 5),
    (|random, turn| vec![sum_at_limit(random, turn)], 4),
    (|random, turn| vec![hours_at_limit(random, turn)], 4),
    (|random, turn| vec![faulty(random, turn)], 8),
    (|random, turn| vec![faulty_and_over(random, turn)], 8),
    (|random, turn| vec![over(random, turn)], 6),
    (|random, turn| vec![crossed(random, turn)], 3),
    (|random, turn| vec![of_lengths(random, turn)], 6),
    (|random, turn| vec![mutated(random, turn)], 8),
    (in_a_row, 3),
];

/// The calls with this number among all.
pub fn joinings(random: &mut Random, number: usize) -> Vec<Joining> {
    let (family, turn) = family_of(&FAMILIES, number);
    family(random, turn)
}

fn up_to(random: &mut Random, high: u64) -> u64 {
    random.between(0, high.into()) as u64
}

fn spread(random: &mut Random, high: u64) -> u64 {
    random.spread(high.into()) as u64
}

/// A year of any size.
fn any_year(random: &mut Random) -> u64 {
    let drawn = spread(random, u64::MAX);
    random.pick(&[0, 1, 1995, 2005, 2094, u64::MAX, drawn])
}

/// The call for these numbers. Slices are long enough, and often longer.
fn lent(random: &mut Random, previous: &[u64], answer: &[u64], year: u64, quarter: u64) -> Joining {
    let more = [(); 2].map(|()| random.pick(&[0, 0, 0, 1, 2]));
    let room = RECORD + random.below(4);
    Joining {
        previous: [previous, &distinct(random, more[0])].concat(),
        answer: [answer, &distinct(random, more[1])].concat(),
        year,
        quarter,
        record: distinct(random, room),
    }
}

/// A call for this quarter with a record of the quarter `before` in the same
/// year. No amount is too large.
fn after(random: &mut Random, before: u64, quarter: u64) -> Joining {
    let year = any_year(random);
    let mut previous = [year, before, 0, 0, 0, 0, 0];
    let mut answer = [0; ANSWER];
    answer[MEAN] = spread(random, u64::MAX);
    // Right for the record's quarter, also were that cut to 32 bits.
    let quarters = u64::from(before as u32).min(4);
    previous[AMOUNTS + HOURS] = up_to(random, MOST_HOURS * quarters);
    answer[HOURS] = spread(random, MOST_HOURS);
    for sum in SUMS {
        let all = spread(random, MOST_SUM);
        let part = if quarters == 0 { 0 } else { up_to(random, all) };
        (previous[AMOUNTS + sum], answer[IN_ANSWER[sum]]) = (part, all - part);
    }
    lent(random, &previous, &answer, year, quarter)
}

/// A call that is not refused.
fn sound(random: &mut Random, quarter: u64) -> Joining {
    after(random, quarter - 1, quarter)
}

/// The quarters in turn.
fn in_turn(turn: usize) -> u64 {
    1 + turn as u64 % 4
}

/// The quarters in turn that are not the first.
fn later_in_turn(turn: usize) -> u64 {
    2 + turn as u64 % 3
}

fn sound_in_turn(random: &mut Random, turn: usize) -> Joining {
    sound(random, in_turn(turn))
}

/// One sum, or all of them, that the columns just hold or just do not, shared out
/// in several ways.
fn sum_at_limit(random: &mut Random, turn: usize) -> Joining {
    let all = MOST_SUM + (turn / 5 % 2) as u64;
    let way = turn / 10 % 4;
    let mut joining = sound(random, if way == 0 { in_turn(turn / 40) } else { later_in_turn(turn / 40) });
    let sums = if turn % 5 == 4 { &SUMS[..] } else { &SUMS[turn % 5..][..1] };
    for &sum in sums {
        let part = [0, 1, all, up_to(random, all)][way];
        joining.set(sum, part, all - part);
    }
    joining
}

/// As many hours as there can be, or one more, in the answer, in the previous
/// record, or in both.
fn hours_at_limit(random: &mut Random, turn: usize) -> Joining {
    let quarter = in_turn(turn);
    let mut joining = sound(random, quarter);
    let more = (turn / 4 % 2) as u64;
    let side = turn / 8 % 3;
    if side != 0 {
        joining.previous[AMOUNTS + HOURS] = MOST_HOURS * (quarter - 1) + more;
    }
    if side != 1 {
        joining.answer[HOURS] = MOST_HOURS + more;
    }
    joining
}

/// Makes a call that is refused with 41, mostly for one cause alone.
type Fault = fn(&mut Random, usize) -> Joining;

const FAULTS: [Fault; 7] = [
    no_quarter,
    another_year,
    not_just_before,
    not_of_a_new_year,
    not_all_zeros,
    too_many_hours,
    too_many_hours_before,
];

fn faulty(random: &mut Random, turn: usize) -> Joining {
    FAULTS[turn % FAULTS.len()](random, turn / FAULTS.len())
}

/// The same with one sum, or two, too large besides.
fn faulty_and_over(random: &mut Random, turn: usize) -> Joining {
    let mut joining = faulty(random, turn);
    for _ in 0..1 + random.below(2) {
        let sum = random.pick(&SUMS);
        if joining.previous[QUARTER] == 0 {
            joining.answer[IN_ANSWER[sum]] = past(random);
        } else {
            let kind = random.below(PARTS_OVER);
            let (previous, answer) = parts_over(random, kind);
            joining.set(sum, previous, answer);
        }
    }
    joining
}

/// A quarter that no year has, after the one before it.
fn no_quarter(random: &mut Random, turn: usize) -> Joining {
    let low = in_turn(turn);
    let quarter = match turn / 4 % 8 {
        0 => return after(random, 0, 0),
        1 => 0,
        2 => 5,
        3 => 6,
        // One to four again, were it cut to 32 bits.
        4 => (1 << 32) + low,
        // From about here on, the hours of all quarters before pass 64 bits.
        5 => u64::MAX / MOST_HOURS + low,
        6 => 1 << 63,
        _ => u64::MAX,
    };
    after(random, quarter.wrapping_sub(1), quarter)
}

fn another_year(random: &mut Random, turn: usize) -> Joining {
    let mut joining = sound(random, in_turn(turn));
    let year = joining.year;
    joining.previous[YEAR] = match turn / 4 % 5 {
        0 => year.wrapping_sub(1),
        1 => year.wrapping_add(1),
        // The same year, were it cut to 32 bits.
        2 => year ^ (1 << 32),
        3 => year ^ (1 << 63),
        _ => !year,
    };
    joining
}

/// A previous record of the same year, but not of the quarter just before.
fn not_just_before(random: &mut Random, turn: usize) -> Joining {
    let quarter = in_turn(turn);
    let mut others = vec![0, 1, 2, 3, 4, 5, (1 << 32) + quarter - 1, u64::MAX];
    others.retain(|&other| other != quarter - 1);
    after(random, others[turn / 4 % others.len()], quarter)
}

/// The first quarter after a fourth one, of the year before or of the same one,
/// with amounts or without.
fn not_of_a_new_year(random: &mut Random, turn: usize) -> Joining {
    let mut joining = after(random, 4, 1);
    if turn % 3 > 0 {
        joining.previous[YEAR] = joining.year.wrapping_sub(1);
    }
    if turn / 3 % 2 == 0 {
        joining.previous[AMOUNTS..RECORD].fill(0);
    }
    joining
}

/// A quarter 0 with one amount, or with two that are 0 again if they are added
/// in 64 bits.
fn not_all_zeros(random: &mut Random, turn: usize) -> Joining {
    let mut joining = sound(random, 1);
    let (amount, way) = (turn % 5, turn / 5 % 4);
    let value = match way {
        0 | 1 => 1,
        2 => 1 + spread(random, MOST_SUM / 4),
        // Nothing, were it cut to 32 bits.
        _ => 1 << 32,
    };
    joining.set(amount, value, joining.answer[IN_ANSWER[amount]] / 2);
    if way == 1 {
        joining.previous[AMOUNTS + (amount + 1) % 5] = u64::MAX;
    }
    joining
}

/// Hours past a limit: by one, by some, within it were they cut to 32 bits,
/// nothing together with the other side's in 64 bits, and as many as can be.
fn hours_past(random: &mut Random, way: usize, limit: u64, other: u64) -> u64 {
    match way % 5 {
        0 => limit + 1,
        1 => limit + 1 + spread(random, MOST_HOURS),
        2 => (1 << 32) + up_to(random, limit),
        3 => other.wrapping_neg().max(limit + 1),
        _ => u64::MAX,
    }
}

fn too_many_hours(random: &mut Random, turn: usize) -> Joining {
    let mut joining = sound(random, in_turn(turn));
    let other = joining.previous[AMOUNTS + HOURS];
    joining.answer[HOURS] = hours_past(random, turn / 4, MOST_HOURS, other);
    joining
}

fn too_many_hours_before(random: &mut Random, turn: usize) -> Joining {
    let quarter = later_in_turn(turn);
    let mut joining = sound(random, quarter);
    let limit = MOST_HOURS * (quarter - 1);
    joining.previous[AMOUNTS + HOURS] = hours_past(random, turn / 3, limit, joining.answer[HOURS]);
    joining
}

/// One sum that is too large, and no cause of 41.
fn over(random: &mut Random, turn: usize) -> Joining {
    let sum = SUMS[turn % 4];
    let kind = turn / 4 % (PARTS_OVER + 1);
    let turn = turn / 4 / (PARTS_OVER + 1);
    if kind == PARTS_OVER {
        return over_at_once(random, turn, sum);
    }
    let mut joining = sound(random, later_in_turn(turn));
    let (previous, answer) = parts_over(random, kind);
    joining.set(sum, previous, answer);
    joining
}

/// A first quarter with too large a sum, which is the answer's alone.
fn over_at_once(random: &mut Random, turn: usize, sum: usize) -> Joining {
    let mut joining = sound(random, 1);
    joining.answer[IN_ANSWER[sum]] = match turn % 4 {
        0 => MOST_SUM + 1,
        1 => past(random),
        // The limit itself, were it cut to 32 bits.
        2 => MOST_SUM + (1 << 32),
        _ => u64::MAX,
    };
    joining
}

/// A part of a sum that is too large by itself.
fn past(random: &mut Random) -> u64 {
    MOST_SUM + 1 + spread(random, u64::MAX - MOST_SUM - 1)
}

/// How many kinds of parts there are of too large a sum.
const PARTS_OVER: usize = 9;

/// Two parts of a sum that is too large.
fn parts_over(random: &mut Random, kind: usize) -> (u64, u64) {
    let part = 1 + spread(random, MOST_SUM - 1);
    let less = up_to(random, part - 1);
    let past = [(); 2].map(|()| past(random));
    match kind {
        0 => (part, MOST_SUM + 1 - part),
        1 => (less, past[0]),
        2 => (past[0], less),
        3 => (past[0], past[1]),
        4 => (u64::MAX, u64::MAX),
        // The rest are within the limit, were they cut to 64 bits.
        5 => (part, less.wrapping_sub(part)),
        6 => (less.wrapping_sub(part), part),
        7 => (past[0], less.wrapping_sub(past[0])),
        _ => (1 << 63, 1 << 63),
    }
}

/// The previous record of one faulty call, and the rest of another. Half the
/// time the years agree.
fn crossed(random: &mut Random, turn: usize) -> Joining {
    let [one, mut other] = [(); 2].map(|()| {
        let turn = random.below(1_000);
        faulty(random, turn)
    });
    if turn % 2 == 0 {
        other.year = one.previous[YEAR];
    }
    Joining { previous: one.previous, ..other }
}

/// Slices of all lengths, in all combinations, of calls that would otherwise be
/// joined or refused.
fn of_lengths(random: &mut Random, turn: usize) -> Joining {
    let mut joining = match random.below(4) {
        0 | 1 => sound_in_turn(random, turn),
        2 => faulty(random, turn),
        _ => over(random, turn),
    };
    resize(random, turn % 5, RECORD, &mut joining.previous);
    resize(random, turn / 5 % 5, ANSWER, &mut joining.answer);
    resize(random, turn / 25 % 5, RECORD, &mut joining.record);
    joining
}

/// Makes a slice whole, one number short, longer, empty, or far too short.
fn resize(random: &mut Random, way: usize, whole: usize, numbers: &mut Vec<u64>) {
    numbers.truncate(whole);
    match way {
        0 => {}
        1 => numbers.truncate(whole - 1),
        2 => {
            let more = 1 + random.below(3);
            numbers.extend(distinct(random, more));
        }
        3 => numbers.clear(),
        _ => numbers.truncate(1 + random.below(whole - 2)),
    }
}

/// One to three numbers of a sound call changed in any way.
fn mutated(random: &mut Random, turn: usize) -> Joining {
    let mut joining = sound_in_turn(random, turn);
    for _ in 0..1 + random.below(3) {
        mutate(random, &mut joining);
    }
    joining
}

fn mutate(random: &mut Random, joining: &mut Joining) {
    const ENDS: [u64; 10] =
        [0, 1, 4, 5, MOST_HOURS, MOST_HOURS + 1, MOST_SUM, MOST_SUM + 1, 1 << 32, u64::MAX];
    let Joining { previous, answer, year, quarter, .. } = joining;
    let mut numbers: Vec<&mut u64> = previous.iter_mut().chain(answer).chain([year, quarter]).collect();
    let another = *numbers[random.below(numbers.len())];
    let place = random.below(numbers.len());
    let number = &mut *numbers[place];
    *number = match random.below(7) {
        0 => number.wrapping_add(1),
        1 => number.wrapping_sub(1),
        2 => *number ^ 1 << random.below(64),
        3 => number.wrapping_neg(),
        4 => random.pick(&ENDS),
        5 => spread(random, u64::MAX),
        _ => another,
    };
}

/// What is joined in a row: years, counted from the first, and quarters.
type Row = &'static [(u64, u64)];

const WHOLE: Row = &[(0, 1), (0, 2), (0, 3), (0, 4)];

/// Rows with a quarter left out, doubled, too many, or of another year.
const BROKEN: [Row; 8] = [
    &[(0, 2), (0, 3)],
    &[(0, 1), (0, 3), (0, 4)],
    &[(0, 1), (0, 2), (0, 4)],
    &[(0, 1), (0, 2), (0, 2), (0, 3), (0, 4)],
    &[(0, 1), (0, 2), (0, 3), (0, 4), (0, 5)],
    &[(0, 1), (0, 2), (0, 3), (0, 4), (1, 1)],
    &[(0, 1), (0, 2), (1, 3), (0, 3), (0, 4)],
    &[(1, 1), (0, 1), (0, 2), (0, 3), (0, 4)],
];

/// Quarters joined one after the other, the first to a quarter 0, each to the
/// record that there is by then. A quarter that is refused leaves it as it is.
fn in_a_row(random: &mut Random, turn: usize) -> Vec<Joining> {
    let row = if turn % 2 == 0 { WHOLE } else { BROKEN[turn / 2 % BROKEN.len()] };
    let first = any_year(random);
    // With a fourth of the limit or less, the sums of the year always fit.
    let most = MOST_SUM / random.pick(&[2, 3, 4, 4, 100]);
    let mut held = vec![first, 0, 0, 0, 0, 0, 0];
    let mut joinings = Vec::new();
    for &(later, quarter) in row {
        let [hours, so2, co2, heat, tons] =
            [MOST_HOURS, most, most, most, most].map(|most| up_to(random, most));
        let answer = [hours, so2, co2, heat, spread(random, 99_999), tons];
        let joining = lent(random, &held, &answer, first.wrapping_add(later), quarter);
        if let (Outcome::Joined, record) = joining.outcome() {
            held = record[..RECORD].to_vec();
        }
        joinings.push(joining);
    }
    joinings
}
