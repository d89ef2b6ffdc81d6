//! Sheets of either form for the writer: sound ones, and each reason of refusal.
//! Those of the first form are converted before they are written.

use super::flows;
use super::large_flows;
use super::page::two_below;
use super::recorder::{column_limits, name, readings, rising_hours, year_and_quarter};
use crate::calendar::hours_in_quarter;
use crate::cases::Case;
use crate::figures::{Figure, Monitor, Readings, FIGURES};
use crate::layout::{report_length, FLOW};
use crate::random::Random;
use crate::report::{place, Hour};
use crate::write::{value_of, word, Form, Order, FLOW_PLACE, LARGEST_VALUE, WORDS};

/// The words of an hour, which is no gas hour.
pub fn words_of(form: Form, hour: &Hour) -> [u32; WORDS] {
    let r = &hour.readings;
    let first = u128::from(hour.hour_of_quarter) * 128 + hour.time;
    let so2 = r.so2.reading().expect("an SO2 reading");
    let values = [first, so2, r.nox, r.co2, flow_value(form, r.flow).into(), r.fc];
    [0, 1, 2, 3, 4, 5].map(|kind| word(kind, values[kind as usize] as u32))
}

/// The value of a flow word for so many thousands.
fn flow_value(form: Form, thousands: u128) -> u32 {
    (thousands * FLOW.unit / form.flow_unit()) as u32
}

/// The largest flow of a form, in thousands.
fn largest_flow(form: Form) -> u128 {
    form.flow_limit() / FLOW.unit
}

/// The case of a sheet of this form.
pub fn case(form: Form, order: Order, room: usize) -> Case {
    match form {
        Form::First => Case::Convert { order, room },
        Form::Present => Case::Write { order, room },
    }
}

/// A sound order with so many hours in the given quarter.
pub fn order_in(random: &mut Random, form: Form, year: u32, quarter: u32, count: usize) -> Order {
    let mut words = Vec::with_capacity(WORDS * count);
    for hour_of_quarter in rising_hours(random, year, quarter, count) {
        let readings = match form {
            Form::First => readings(random),
            Form::Present => large_flows::any_readings(random),
        };
        let time = random.pick(&[1, 2, 25, 33, 50, 75, 99, 100, 100, 100]);
        words.extend(words_of(form, &Hour { hour_of_quarter, time, readings, figures: [0; 4] }));
    }
    Order { year, quarter, name: name(random), words }
}

/// A sound order with so many hours.
pub fn order(random: &mut Random, form: Form, count: usize) -> Order {
    let (year, quarter) = year_and_quarter(random);
    order_in(random, form, year, quarter, count)
}

/// How many bytes the report of the order has, if its words are whole hours.
pub fn need(order: &Order) -> usize {
    report_length(order.words.len() / WORDS)
}

/// The sheet case with this number among those of a form.
pub fn sheet(random: &mut Random, form: Form, number: usize) -> Case {
    let turn = number / 9;
    match number % 9 {
        0 => good_or_short(random, form, turn),
        1 => with_room(random, form, |random| wrong_kind(random, form, turn)),
        2 => with_room(random, form, |random| wrong_head(random, form, turn)),
        3 => with_room(random, form, |random| at_range(random, form, turn)),
        4 => with_room(random, form, |random| at_limit(random, form, turn)),
        5 => with_room(random, form, |random| at_quarter_end(random, form, turn)),
        6 => with_room(random, form, |random| flow_at_range(random, form, turn)),
        7 => wrong_flow(random, form, turn),
        _ => many_faults(random, form, turn),
    }
}

/// The order with a room that nearly always suffices.
fn with_room(random: &mut Random, form: Form, make: impl Fn(&mut Random) -> Order) -> Case {
    let order = make(random);
    let room = match random.below(8) {
        0 => need(&order).saturating_sub(1),
        1 => 0,
        2 => need(&order) + random.below(200),
        _ => need(&order),
    };
    case(form, order, room)
}

/// A sound order with a room that suffices exactly, more than that, or not.
pub fn good_or_short(random: &mut Random, form: Form, turn: usize) -> Case {
    let order = order(random, form, [0, 1, 2, 3, 5, 8, 13][turn % 7]);
    let need = need(&order);
    let room = match turn / 2 % 6 {
        0 => need,
        1 => need - 1,
        2 => 0,
        3 => need + 1 + random.below(500),
        4 => random.below(need),
        _ => need + 1,
    };
    case(form, order, room)
}

/// Word counts, kinds and hours that are wrong, or just right.
fn wrong_kind(random: &mut Random, form: Form, turn: usize) -> Order {
    let count = 1 + random.below(5);
    let mut order = order(random, form, count);
    let place = random.below(order.words.len());
    let hour_place = WORDS * random.below(count);
    match turn % 10 {
        0 => order.words.truncate(place),
        1 => order.words.extend((0..1 + random.below(5) as u32).map(|k| word(k, 1))),
        2 => {
            // Another kind.
            let kind = (order.words[place] >> 29) + 1 + random.below(7) as u32;
            order.words[place] = word(kind % 8, value_of(order.words[place]));
        }
        3 => {
            // Two words changed places; within an hour or not.
            if let Some((a, b)) = two_below(random, order.words.len()) {
                order.words.swap(a, b);
            }
        }
        4 => drop(order.words.remove(place)),
        5 => order.words.insert(place, order.words[place]),
        6 => {
            // The same hour twice, the time differing.
            let mut again: Vec<u32> = order.words[hour_place..hour_place + WORDS].to_vec();
            again[0] = again[0] / 128 * 128 + 1 + random.below(100) as u32;
            order.words.splice(hour_place..hour_place, again);
        }
        7 => {
            // Two hours changed places.
            if let Some((a, b)) = two_below(random, count) {
                (0..WORDS).for_each(|i| order.words.swap(WORDS * a + i, WORDS * b + i));
            }
        }
        8 => {
            // An hour far beyond any quarter.
            let hour = random.pick(&[2_208, 2_209, 4_096, 4_194_303]);
            order.words[WORDS * (count - 1)] = word(0, hour * 128 + 100);
        }
        _ => {
            // All kinds the same, or the words of the sheet back to front.
            if random.once_in(2) {
                order.words.iter_mut().for_each(|w| *w = value_of(*w));
            } else {
                order.words.reverse();
            }
        }
    }
    order
}

/// The last hour of the quarter or the first beyond it, in and out of leap
/// years; as the only hour or after others.
fn at_quarter_end(random: &mut Random, form: Form, turn: usize) -> Order {
    let quarter = [1, 2, 1, 3, 1, 4][turn % 6];
    let year = random.pick(&[1995, 1996, 2000, 2001, 2004, 2092, 2094]);
    let all = hours_in_quarter(year, quarter);
    let hours = [all, all - 1, all, all + 1, all - 1, 2_160, 2_159, 2_184, 2_183, 2_207];
    let count = 1 + random.below(3);
    let mut order = order_in(random, form, year, quarter, count);
    let last = WORDS * (count - 1);
    order.words[last] = word(0, hours[turn / 2 % hours.len()] * 128 + 50);
    order
}

/// Years, quarters and names that are wrong, or just right.
pub fn wrong_head(random: &mut Random, form: Form, turn: usize) -> Order {
    let count = random.below(4);
    let mut order = order(random, form, count);
    let (way, turn) = (turn % 3, turn / 3);
    match way {
        0 => {
            let years = [0, 1, 95, 1994, 1995, 2094, 2095, 2100, 9_999, 65_535];
            order.year = years[turn % years.len()];
        }
        1 => {
            let quarters = [0, 1, 4, 5, 6, 255];
            order.quarter = quarters[turn % quarters.len()];
        }
        _ => {
            let byte = [0, 9, 10, 13, 31, 32, 126, 127, 128, 255][turn % 10];
            match turn % 4 {
                0 => order.name = [b' '; 6],
                1 => order.name = [byte; 6],
                _ => order.name[random.below(6)] = byte,
            }
        }
    }
    order
}

/// One value at an end of its range or just beyond.
fn at_range(random: &mut Random, form: Form, turn: usize) -> Order {
    let flow = |thousands| flow_value(form, thousands);
    let limit = largest_flow(form);
    let ends: [(usize, [u32; 5]); WORDS] = [
        (0, [0, 1, 100, 101, 127]),
        (1, [0, 1, 99_999, 100_000, LARGEST_VALUE]),
        (2, [0, 1, 99_999, 100_000, LARGEST_VALUE]),
        (3, [0, 1, 1_000, 1_001, LARGEST_VALUE]),
        (FLOW_PLACE, [flow(0), flow(1), flow(limit), flow(limit + 1), LARGEST_VALUE]),
        (5, [4_999, 5_000, 30_000, 30_001, 0]),
    ];
    let (place, ends) = ends[turn % WORDS];
    with_value(random, form, place, ends[turn / WORDS % 5])
}

/// Flow about the ends of its range. In the first form, whole thousands, and just
/// beyond them; in the present form, also about the ends that it had there.
fn flow_at_range(random: &mut Random, form: Form, turn: usize) -> Order {
    let flow = match form {
        Form::First => {
            let thousands = [500_000, 0, 500_001, 1, 499_999][turn % 5];
            1_000 * thousands + [0, 1, 500, 999][turn % 4]
        }
        Form::Present => {
            let limits = [large_flows::NAMED.map(|thousands| thousands as u32).as_slice(), &PAST].concat();
            limits[turn % limits.len()]
        }
    };
    with_value(random, form, FLOW_PLACE, flow)
}

/// Values of flow words past the limit. Most would be right in the first form.
const PAST: [u32; 6] = [10_000_000, 10_000_001, 20_000_000, 500_000_000, 536_870_000, LARGEST_VALUE];

/// A sound order but for one value in any hour; the hour's other values are
/// modest, so that the figures fit beside an extreme one.
fn with_value(random: &mut Random, form: Form, place: usize, value: u32) -> Order {
    let count = 1 + random.below(4);
    let mut order = order(random, form, count);
    let rank = random.below(count);
    // Beside the largest flow of the present form, more CO2 would have too large a heat.
    let co2 = if form == Form::Present && place == FLOW_PLACE { 10 } else { 100 };
    let modest = Readings { so2: Monitor(10), nox: 10, co2, flow: 1_000, fc: 18_000 };
    set_readings(&mut order, form, rank, modest);
    let at = WORDS * rank + place;
    order.words[at] =
        if place == 0 { order.words[at] / 128 * 128 + value } else { word(place as u32, value) };
    order
}

/// Gives an hour of the order these readings, and a whole hour of time.
pub fn set_readings(order: &mut Order, form: Form, rank: usize, readings: Readings) {
    let place = WORDS * rank;
    let hour_of_quarter = value_of(order.words[place]) / 128;
    let hour = Hour { hour_of_quarter, time: 100, readings, figures: [0; 4] };
    order.words[place..place + WORDS].copy_from_slice(&words_of(form, &hour));
}

/// Readings with a figure that just fits its column, or just does not. CO2
/// always fits; its turn makes it as large as it can be.
pub fn limit_readings(random: &mut Random, form: Form, figure: Figure, over: bool) -> Readings {
    let limit = column_limits()[place(figure)];
    let (heat_co2, so2_readings, most_co2) = match form {
        Form::First => ((300, 1_000), (20_000, 99_999), (599, largest_flow(form))),
        Form::Present => ((6, 300), (603, 20_000), (30, 9_999_994)),
    };
    loop {
        let mut readings = match figure {
            Figure::Heat => {
                let fc = random.between(5_000, 20_000);
                let co2 = random.between(heat_co2.0, heat_co2.1);
                Readings { so2: Monitor(3), nox: 5, co2, flow: 0, fc }
            }
            Figure::So2 => {
                let so2 = Monitor(random.between(so2_readings.0, so2_readings.1));
                Readings { so2, nox: 5, co2: 10, flow: 0, fc: 30_000 }
            }
            Figure::Nox => {
                let fc = random.between(5_000, 30_000);
                Readings { so2: Monitor(3), nox: 0, co2: random.between(1, 100), flow: 1, fc }
            }
            // CO2 100.0 would make heat too large here.
            Figure::Co2 => {
                let (co2, flow) = most_co2;
                return Readings { so2: Monitor(3), nox: 5, co2, flow, fc: 30_000 };
            }
        };
        let set = |readings: &mut Readings, value: u128| match figure {
            Figure::Nox => readings.nox = value,
            _ => readings.flow = value,
        };
        // The largest reading whose figure fits lies in [low, high).
        let (mut low, mut high) = (0, if figure == Figure::Nox { 100_000 } else { largest_flow(form) + 1 });
        while high - low > 1 {
            let half = (low + high) / 2;
            set(&mut readings, half);
            if figure.of_recorded(&readings) <= limit {
                low = half;
            } else {
                high = half;
            }
        }
        set(&mut readings, if over { high } else { low });
        let just = figure.of_recorded(&readings) == limit + u128::from(over);
        let others_fit = FIGURES
            .iter()
            .zip(column_limits())
            .all(|(&f, limit)| f == figure || f.of_recorded(&readings) <= limit);
        if just && others_fit {
            return readings;
        }
    }
}

/// One figure just fitting or just not, in any hour.
fn at_limit(random: &mut Random, form: Form, turn: usize) -> Order {
    let figure = [Figure::Heat, Figure::So2, Figure::Nox][turn % 3];
    let figure = if turn % 17 == 16 { Figure::Co2 } else { figure };
    let count = 1 + random.below(4);
    let mut order = order(random, form, count);
    let readings = limit_readings(random, form, figure, turn / 3 % 3 > 0);
    set_readings(&mut order, form, random.below(count), readings);
    order
}

/// Faults of two or more numbers in one order, to see which comes first.
fn many_faults(random: &mut Random, form: Form, turn: usize) -> Case {
    let faults = [0b0011, 0b0101, 0b1001, 0b0110, 0b1010, 0b1100, 0b0111, 0b1110, 0b1111, 0b1011][turn % 10];
    let too_much = flow_value(form, largest_flow(form) + 1);
    with_faults(random, form, faults, |random, order, ranks| {
        let (place, value) = random.pick(&[
            (1, 100_000),
            (2, 100_000),
            (3, 0),
            (3, 1_001),
            (FLOW_PLACE, too_much),
            (5, 4_999),
            (5, 30_001),
        ]);
        order.words[WORDS * ranks[ranks.len() / 2] + place] = word(place as u32, value);
    })
}

/// Flow that is no whole thousand, or, in the present form, too large, as the only
/// fault or with others, which may be the same hour's.
fn wrong_flow(random: &mut Random, form: Form, turn: usize) -> Case {
    let faults = [0b0010, 0b0011, 0b0110, 0b1010, 0b0010, 0b0111, 0b1110, 0b1011, 0b1111][turn % 9];
    with_faults(random, form, faults, |random, order, ranks| {
        let at = WORDS * ranks[random.below(ranks.len())] + FLOW_PLACE;
        let flow = match form {
            Form::First => flows::uneven(random, turn, value_of(order.words[at]).into()) as u32,
            Form::Present => random.pick(&PAST),
        };
        order.words[at] = word(FLOW_PLACE as u32, flow);
    })
}

/// An order with the faults 31, 32, 33 and 34 that the bits of `faults` name,
/// the lowest for 31. The values are spoiled by `spoil`, which gets the hours'
/// ranks; that of the figure too large comes first.
fn with_faults(
    random: &mut Random,
    form: Form,
    faults: u8,
    spoil: impl Fn(&mut Random, &mut Order, &[usize]),
) -> Case {
    let count = 2 + random.below(4);
    let mut order = order(random, form, count);
    let mut ranks: Vec<usize> = (0..count).collect();
    ranks.rotate_left(random.below(count));
    if faults & 0b0100 != 0 {
        let figure = random.pick(&[Figure::Heat, Figure::So2, Figure::Nox]);
        let readings = limit_readings(random, form, figure, true);
        set_readings(&mut order, form, ranks[0], readings);
    }
    if faults & 0b0010 != 0 {
        spoil(random, &mut order, &ranks);
    }
    if faults & 0b0001 != 0 {
        match random.below(6) {
            0 => order.name = [b' '; 6],
            1 => order.year = 2_095,
            2 => order.quarter = 5,
            3 => drop(order.words.pop()),
            4 => {
                let last = WORDS * (count - 1);
                order.words[last] = word(0, 2_208 * 128 + 100);
            }
            _ => order.words[WORDS * count - 1] ^= 1 << 29,
        }
    }
    let need = need(&order);
    let room =
        if faults & 0b1000 != 0 { random.pick(&[0, need - 1, need / 2]) } else { need + random.below(3) };
    case(form, order, room)
}
