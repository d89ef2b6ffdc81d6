//! Sheets of the first form that are made for their conversion: those that convert,
//! whatever the writer then says of them, and each reason of refusal.

use super::recorder::{readings_with_flow, FORMER_LIMIT};
use super::sheets::{good_or_short, need, order, order_in, set_readings, words_of, wrong_head};
use super::{family_of, Family};
use crate::calendar::MOST_HOURS;
use crate::cases::Case;
use crate::figures::{Monitor, Readings};
use crate::layout::FLOW;
use crate::random::Random;
use crate::report::Hour;
use crate::write::{word, Form, Order, FLOW_PLACE, LARGEST_VALUE, WORDS};

/// The largest flow, in thousands, in a word that counts scfh.
const MOST_IN_WORD: u128 = 536_870;

/// The families and their shares.
const FAMILIES: [(Family<Case>, usize); 12] = [
    (good, 20),
    (large_flow, 24),
    (large_figure, 6),
    (wrong_count, 22),
    (wrong_kind, 36),
    (uneven, 27),
    (uneven_and_more, 24),
    (beyond_ranges, 24),
    (not_rising, 6),
    (foreign_head, 15),
    (converted_before, 6),
    (long, 3),
];

/// The case with this number among those made for the conversion.
pub fn sheet(random: &mut Random, number: usize) -> Case {
    let (family, turn) = family_of(&FAMILIES, number);
    family(random, turn)
}

/// The order with a room that suffices, if its report is written.
fn case(random: &mut Random, order: Order) -> Case {
    let room = need(&order) + random.pick(&[0, 0, 1, 50]);
    Case::Convert { order, room }
}

/// A sound order of three to five hours.
fn some_hours(random: &mut Random) -> Order {
    let count = 3 + random.below(3);
    order(random, Form::First, count)
}

/// The rank of the first, a middle or the last hour in turn.
fn rank_of_turn(turn: usize, order: &Order) -> usize {
    let count = order.words.len() / WORDS;
    [0, count / 2, count - 1][turn % 3]
}

fn set_flow(order: &mut Order, rank: usize, flow: u32) {
    order.words[WORDS * rank + FLOW_PLACE] = word(FLOW_PLACE as u32, flow);
}

/// Gives a word another kind.
fn change_kind(random: &mut Random, order: &mut Order, rank: usize, place: usize) {
    order.words[WORDS * rank + place] ^= (1 + random.below(7) as u32) << 29;
}

fn good(random: &mut Random, turn: usize) -> Case {
    good_or_short(random, Form::First, turn)
}

/// Flows at the former limit and above it in turn, up to the largest in a word.
fn flow_of_turn(random: &mut Random, turn: usize) -> u128 {
    let any = random.between(FORMER_LIMIT + 1, MOST_IN_WORD);
    [FORMER_LIMIT + 1, MOST_IN_WORD, any, FORMER_LIMIT, MOST_IN_WORD - 1][turn % 5]
}

/// A flow above the former limit, with figures that fit.
fn large_flow(random: &mut Random, turn: usize) -> Case {
    let mut order = some_hours(random);
    let flow = flow_of_turn(random, turn);
    let readings = readings_with_flow(random, flow);
    let rank = rank_of_turn(turn, &order);
    set_readings(&mut order, Form::First, rank, readings);
    case(random, order)
}

/// A flow above the former limit, with figures that do not fit.
fn large_figure(random: &mut Random, turn: usize) -> Case {
    let mut order = some_hours(random);
    let flow = flow_of_turn(random, turn);
    let readings = match turn % 2 {
        0 => Readings { so2: Monitor(3), nox: 5, co2: 1_000, flow, fc: 5_000 },
        _ => Readings { so2: Monitor(99_999), nox: 5, co2: 10, flow, fc: 30_000 },
    };
    let rank = rank_of_turn(turn, &order);
    set_readings(&mut order, Form::First, rank, readings);
    case(random, order)
}

/// Words that are no whole hours: the first of a sheet, one missing or one too many.
fn wrong_count(random: &mut Random, turn: usize) -> Case {
    let mut order = some_hours(random);
    let place = random.below(order.words.len());
    match [1, 2, 3, 4, 5, 7, 8, 11, 13, 17].get(turn % 13) {
        Some(&count) => order.words.truncate(count),
        None => match turn % 13 {
            10 => drop(order.words.remove(place)),
            11 => order.words.insert(place, order.words[place]),
            _ => order.words.push(word(0, LARGEST_VALUE)),
        },
    }
    case(random, order)
}

/// Another kind in any place of the first, a middle or the last hour.
fn wrong_kind(random: &mut Random, turn: usize) -> Case {
    let mut order = some_hours(random);
    let rank = rank_of_turn(turn / WORDS, &order);
    change_kind(random, &mut order, rank, turn % WORDS);
    case(random, order)
}

/// A flow that is no whole thousand, up to the largest value of a word.
fn uneven_flow(random: &mut Random, turn: usize) -> u32 {
    let over = [1, 500, 999][turn % 3];
    let any = random.between(0, MOST_IN_WORD - 1);
    let thousands = [any, 0, FORMER_LIMIT - 1, FORMER_LIMIT, MOST_IN_WORD - 1, MOST_IN_WORD][turn / 3 % 6];
    (FLOW.unit * thousands + over).min(LARGEST_VALUE.into()) as u32
}

/// A flow that is no whole thousand in the first, a middle or the last hour.
fn uneven(random: &mut Random, turn: usize) -> Case {
    let mut order = some_hours(random);
    let rank = rank_of_turn(turn / 3 + turn / 9, &order);
    let flow = uneven_flow(random, turn);
    set_flow(&mut order, rank, flow);
    case(random, order)
}

/// A flow that is no whole thousand, and another kind in an hour before, behind or
/// the same; or words that are no whole hours besides.
fn uneven_and_more(random: &mut Random, turn: usize) -> Case {
    let mut order = some_hours(random);
    let rank = rank_of_turn(turn, &order);
    let flow = uneven_flow(random, turn);
    set_flow(&mut order, rank, flow);
    if turn / 9 == 2 {
        order.words.pop();
    } else {
        let (other, place) = (rank_of_turn(turn / 3, &order), random.below(WORDS));
        change_kind(random, &mut order, other, place);
    }
    case(random, order)
}

/// Values of other places that are beyond their ranges, one or all of them.
fn beyond_ranges(random: &mut Random, turn: usize) -> Case {
    const BEYOND: [(usize, u32); 17] = [
        (0, 0),
        (0, 101),
        (0, 127),
        (0, 128 * 2_208 + 100),
        (0, LARGEST_VALUE),
        (1, 100_000),
        (1, LARGEST_VALUE),
        (2, 100_000),
        (2, LARGEST_VALUE),
        (3, 0),
        (3, 1_001),
        (3, LARGEST_VALUE),
        (5, 0),
        (5, 4_999),
        (5, 30_001),
        (5, 5_000_000),
        (5, LARGEST_VALUE),
    ];
    let mut order = some_hours(random);
    match BEYOND.get(turn % 20) {
        Some(&(place, value)) => {
            let rank = rank_of_turn(turn / 2, &order);
            order.words[WORDS * rank + place] = word(place as u32, value);
        }
        None => {
            let value = random.pick(&[0, 127, LARGEST_VALUE]);
            for hour in order.words.chunks_mut(WORDS) {
                (0..WORDS)
                    .filter(|&place| place != FLOW_PLACE)
                    .for_each(|place| hour[place] = word(place as u32, value));
            }
        }
    }
    case(random, order)
}

/// Hours that do not rise: two exchanged, one again, or all back to front.
fn not_rising(random: &mut Random, turn: usize) -> Case {
    let mut order = some_hours(random);
    let mut hours: Vec<&[u32]> = order.words.chunks(WORDS).collect();
    match turn % 3 {
        0 => hours.swap(0, 1),
        1 => hours.insert(1, hours[0]),
        _ => hours.reverse(),
    }
    order.words = hours.concat();
    case(random, order)
}

/// Years, quarters and names that are wrong, which the conversion does not see.
fn foreign_head(random: &mut Random, turn: usize) -> Case {
    let order = wrong_head(random, Form::First, turn);
    case(random, order)
}

/// A sheet that has been converted before: it is so again, if its thousands are
/// whole ones.
fn converted_before(random: &mut Random, turn: usize) -> Case {
    let mut order = some_hours(random);
    let mut thousands: Vec<u32> =
        order.words.chunks(WORDS).map(|_| 1_000 * random.below(500) as u32).collect();
    if turn % 2 == 1 {
        let rank = rank_of_turn(turn / 2, &order);
        thousands[rank] += 1 + random.below(999) as u32;
    }
    thousands.into_iter().enumerate().for_each(|(rank, flow)| set_flow(&mut order, rank, flow));
    case(random, order)
}

/// One hour more than any quarter has; or as many as that, the last of them with a
/// flow that is no whole thousand, or with another kind and such a flow in the first.
fn long(random: &mut Random, turn: usize) -> Case {
    let last = MOST_HOURS as usize - 1;
    let mut order = order_in(random, Form::First, 2005, 3, last + 1);
    let flow = uneven_flow(random, turn);
    match turn % 3 {
        0 => {
            let readings = readings_with_flow(random, FORMER_LIMIT);
            let hour = Hour { hour_of_quarter: MOST_HOURS as u32, time: 100, readings, figures: [0; 4] };
            order.words.extend(words_of(Form::First, &hour));
        }
        1 => set_flow(&mut order, last, flow),
        _ => {
            set_flow(&mut order, 0, flow);
            change_kind(random, &mut order, last, WORDS - 1);
        }
    }
    case(random, order)
}

#[cfg(test)]
mod tests {
    use super::*;

    #[test]
    fn a_word_holds_no_more() {
        assert_eq!(u128::from(LARGEST_VALUE) / FLOW.unit, MOST_IN_WORD);
    }

    #[test]
    fn uneven_flows_are_no_whole_thousands() {
        let mut random = Random::new(12);
        for turn in 0..500 {
            let flow = uneven_flow(&mut random, turn);
            assert!(flow <= LARGEST_VALUE && FLOW.recorded(flow.into()).is_none());
        }
    }
}
