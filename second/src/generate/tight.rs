//! Readings whose span ends come as near as can be to the end of a figure's
//! span, or hit it exactly.
//!
//! In halves of the units, the formula at a corner of the spans meets the end
//! of the figure's span when `a * N = b * K`, where N comes from the reading
//! looked for, K from the figure, both odd, and a and b from the formula and
//! the other readings. We look for `a * N = b * K + d` with the least d.

use super::recorder::FORMER_LIMIT;
use crate::figures::{Figure, Formula, Monitor, Readings};
use crate::random::Random;
use crate::rounding::span;

/// Greatest common divisor g of a and m, and x with `a * x = g` up to
/// multiples of m.
pub fn euclid(a: i128, m: i128) -> (i128, i128) {
    let (mut r0, mut r1, mut x0, mut x1) = (a, m, 1, 0);
    while r1 != 0 {
        let q = r0 / r1;
        (r0, r1) = (r1, r0 - q * r1);
        (x0, x1) = (x1, x0 - q * x1);
    }
    (r0, x0.rem_euclid(m))
}

/// Odd N up to `limit` and odd K with `a * N = b * K + d`, d being the least
/// of the kind that `turn` names: 0 or more, or below 0, and so on.
fn solve(random: &mut Random, turn: usize, a: i128, b: i128, limit: i128) -> Option<(i128, i128)> {
    let modulus = 2 * b;
    let (g, inverse) = euclid(a, modulus);
    let rest = (-b).rem_euclid(g);
    let d = [rest, rest - g, rest + g][turn % 3];
    let step = modulus / g;
    let first = ((b + d) / g * inverse).rem_euclid(step);
    if first > limit {
        return None;
    }
    let start = random.below(((limit - first) / step + 1) as usize) as i128;
    let n = (start..start + 2).map(|k| first + k * step).find(|n| n % 2 == 1 && *n <= limit)?;
    let k = (a * n - d) / b;
    (k > 0 && k % 2 == 1).then_some((n, k))
}

/// An Fc with which heat can meet an edge exactly: twice an odd number. With two
/// factors 5 more it does so at small flows too.
fn fc_for_heat(random: &mut Random) -> u128 {
    let (factor, low, high) = random.pick(&[(2, 1_250, 7_499), (50, 50, 299)]);
    factor * (2 * random.between(low, high) + 1)
}

/// Whether the values of the readings end exactly where the figure's span
/// starts; for the lower edge, whether they start where the span ends.
pub fn meets(figure: Figure, readings: &Readings, wanted: u128, upper: bool) -> bool {
    let wanted = span(wanted);
    match (figure.formula(readings), upper) {
        (Formula::Product { top, bottom, x, y }, true) => {
            top * span(x).high * span(y).high == wanted.low * 2 * bottom
        }
        (Formula::Product { top, bottom, x, y }, false) => {
            top * span(x).low * span(y).low == wanted.high * 2 * bottom
        }
        (Formula::Quotient { top, bottom, x, y }, true) => {
            2 * top * span(x).high == wanted.low * bottom * span(y).low
        }
        (Formula::Quotient { top, bottom, x, y }, false) => {
            2 * top * span(x).low == wanted.high * bottom * span(y).high
        }
        (Formula::Multiple { top, bottom, x }, true) => top * span(x).high == wanted.low * bottom,
        (Formula::Multiple { top, bottom, x }, false) => top * span(x).low == wanted.high * bottom,
    }
}

/// Readings and a heat figure that meet exactly at the upper or lower edge.
pub fn exact_heat(random: &mut Random, upper: bool) -> (Readings, u128) {
    loop {
        let found = find(random, Figure::Heat, usize::from(!upper));
        if let Some((readings, wanted)) = found.filter(|(r, w)| meets(Figure::Heat, r, *w, upper)) {
            return (readings, wanted);
        }
    }
}

/// Readings and a figure whose edge they just meet or just miss. Even turns
/// look at the upper edge, odd turns at the lower one. Only the readings that
/// the figure uses count.
pub fn find(random: &mut Random, figure: Figure, turn: usize) -> Option<(Readings, u128)> {
    find_up_to(random, figure, turn, FORMER_LIMIT)
}

/// The same with flows up to the given one, in thousands.
pub fn find_up_to(
    random: &mut Random,
    figure: Figure,
    turn: usize,
    largest_flow: u128,
) -> Option<(Readings, u128)> {
    let upper = turn.is_multiple_of(2);
    let turn = turn / 2;
    // The end of a span in halves, on the side in question.
    let end = |recorded: u128, high: bool| 2 * recorded as i128 + if high { 1 } else { -1 };
    let back = |end: i128, high: bool| ((end + if high { -1 } else { 1 }) / 2) as u128;

    let so2 = random.spread(99_999).max(1);
    let co2 = random.between(1, 1_000);
    let fc = match figure {
        Figure::Heat if !random.once_in(4) => fc_for_heat(random),
        // Exact hits ask for an odd multiple of 16 with many factors 5.
        Figure::Nox if !random.once_in(4) => {
            16 * random.pick(&[375, 625, 875, 1_125, 1_375, 1_625, 1_875, 1_250])
        }
        _ => random.between(5_000, 30_000),
    };
    let last_end = end(largest_flow, true);
    let (a, b, limit) = match figure {
        Figure::Heat => (50 * end(co2, upper), fc as i128, random.pick(&[last_end, 4_001])),
        Figure::So2 => (83 * end(so2, upper), 1_000_000, last_end),
        Figure::Nox => (597 * fc as i128, 250_000 * end(co2, !upper), 199_999),
        Figure::Co2 => (57 * end(co2, upper), 200_000, last_end),
    };
    let (n, k) = solve(random, turn, a, b, limit)?;
    let reading = back(n, upper);
    let wanted = back(k, !upper);
    let limit = if figure == Figure::Nox { 99_999 } else { largest_flow };
    if reading > limit || (reading == 0 && !upper) {
        return None;
    }
    let found = match figure {
        Figure::Nox => Readings { nox: reading, co2, fc, ..Readings::default() },
        _ => Readings { so2: Monitor(so2), co2, fc, flow: reading, ..Readings::default() },
    };
    Some((found, wanted))
}

#[cfg(test)]
mod tests {
    use super::*;
    use crate::figures::FIGURES;

    /// What is found lies at an edge: of the figure and its neighbours one
    /// passes and one does not. A figure that is met exactly does not pass.
    #[test]
    fn found_places_are_edges() {
        let mut random = Random::new(3);
        for figure in FIGURES {
            let (mut found, mut exact) = (0, [0; 2]);
            for turn in 0..60_000 {
                let Some((readings, wanted)) = find(&mut random, figure, turn) else { continue };
                found += 1;
                let upper = turn % 2 == 0;
                let passes = figure.possible(&readings, wanted);
                let (below, above) = (wanted.checked_sub(1), Some(wanted + 1));
                let (inward, outward) = if upper { (below, above) } else { (above, below) };
                if passes {
                    assert!(outward.is_none_or(|f| !figure.possible(&readings, f)));
                } else {
                    assert!(inward.is_none_or(|f| figure.possible(&readings, f)));
                }
                if meets(figure, &readings, wanted, upper) {
                    exact[usize::from(upper)] += 1;
                    assert!(!passes);
                }
            }
            assert!(found > 300, "{figure:?} {found}");
            let can_meet = matches!(figure, Figure::Heat | Figure::Nox);
            assert!(exact.iter().all(|&times| if can_meet { times > 50 } else { times == 0 }), "{exact:?}");
        }
    }

    #[test]
    fn exact_heat_is_just_missed() {
        let mut random = Random::new(4);
        let mut small_flows = 0;
        for turn in 0..2_000 {
            let upper = turn % 2 == 0;
            let (readings, wanted) = exact_heat(&mut random, upper);
            let inward = if upper { wanted - 1 } else { wanted + 1 };
            assert!(!Figure::Heat.possible(&readings, wanted));
            assert!(Figure::Heat.possible(&readings, inward));
            small_flows += usize::from(readings.flow <= 2_000);
        }
        assert!(small_flows > 100, "{small_flows}");
    }
}
