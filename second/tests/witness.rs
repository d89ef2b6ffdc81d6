//! The fast test of a figure against the definition: unrounded readings that
//! lie behind the figure are searched for and, when found, tried with the
//! formulas as the paper writes them, in fractions of any size. Totals are formed
//! anew in such fractions too.
//!
//! The search walks on a straight line from the corner of the spans where the
//! formula is least to the corner where it is greatest, in 2^64 steps. On the
//! way the formula only grows. The smallest step that is not below the
//! figure's span is found by halving; it is a witness, or there is none.
//!
//! That 2^64 steps are enough: in halves of the figure's unit, one step moves
//! the value by less than 2*10^-12. The stretch where the formula's values meet
//! the figure's span, if there is one, is at least 4*10^-10 long (its ends are
//! fractions with denominators of at most 2,001,000,000, the figure's span is 2
//! long) or holds the whole walk. So some step falls inside it. For a gas hour the
//! walk goes through the span of its heat alone, and the denominators are 5,000.

#[path = "support/bignat.rs"]
mod bignat;

use bignat::Big;
use second::figures::{Figure, Gas, Monitor, Readings, FIGURES};
use second::generate::tight;
use second::random::Random;
use second::report::totals_of;

/// The steps of the walk.
const STEPS: u128 = 1 << 64;

/// A fraction: a whole number over a whole number of at least 1.
#[derive(Clone, Debug)]
struct Fraction {
    top: Big,
    bottom: Big,
}

impl Fraction {
    fn plus(&self, other: &Fraction) -> Fraction {
        if self.bottom == other.bottom {
            return Fraction { top: self.top.plus(&other.top), bottom: self.bottom.clone() };
        }
        let (one, two) = (self.top.times(&other.bottom), other.top.times(&self.bottom));
        Fraction { top: one.plus(&two), bottom: self.bottom.times(&other.bottom) }
    }

    fn times(&self, other: &Fraction) -> Fraction {
        Fraction { top: self.top.times(&other.top), bottom: self.bottom.times(&other.bottom) }
    }

    fn over(&self, other: &Fraction) -> Fraction {
        Fraction { top: self.top.times(&other.bottom), bottom: self.bottom.times(&other.top) }
    }

    fn less(&self, other: &Fraction) -> bool {
        self.top.times(&other.bottom) < other.top.times(&self.bottom)
    }
}

fn fraction(top: u128, bottom: u128) -> Fraction {
    Fraction { top: Big::of(top), bottom: Big::of(bottom) }
}

/// A recorded number v, as the count v/u of its unit u.
#[derive(Clone, Copy)]
struct Recorded {
    count: u128,
    unit: Unit,
}

/// A unit as the paper has it: a whole number over a whole number.
#[derive(Clone, Copy)]
struct Unit(u128, u128);

const HUNDREDTH: Unit = Unit(1, 100);
const TENTH: Unit = Unit(1, 10);
const THOUSANDTH: Unit = Unit(1, 1_000);
const THOUSAND: Unit = Unit(1_000, 1);

impl Unit {
    fn times(self, count: u128) -> Recorded {
        Recorded { count, unit: self }
    }
}

impl Recorded {
    /// So many halves of the unit.
    fn halves(self, count: u128) -> Fraction {
        fraction(count * self.unit.0, 2 * self.unit.1)
    }

    /// The recorded number itself.
    fn exactly(self) -> Fraction {
        self.halves(2 * self.count)
    }

    /// Whether a value is at least v - u/2.
    fn reached_by(self, value: &Fraction) -> bool {
        self.count == 0 || !value.less(&self.halves(2 * self.count - 1))
    }

    /// Whether a value rounds to v.
    fn rounded_from(self, value: &Fraction) -> bool {
        self.reached_by(value) && value.less(&self.halves(2 * self.count + 1))
    }

    /// The place after `step` of all steps from the lower end of the span to its
    /// upper end.
    fn walk(self, step: u128) -> Fraction {
        let low = (2 * self.count).saturating_sub(1);
        let width = 2 * self.count + 1 - low;
        self.halves(low * STEPS + width * step).over(&fraction(STEPS, 1))
    }
}

/// A formula of the paper, with its two unrounded readings in the paper's
/// units; `fc` is in tenths.
fn formula(figure: Figure, x: &Fraction, y: &Fraction, fc: u128) -> Fraction {
    let fc = fraction(fc, 10);
    match figure {
        // flow x, CO2 y
        Figure::Heat => x.times(y).over(&fraction(100, 1).times(&fc)),
        // SO2 x, flow y
        Figure::So2 => fraction(1_660, 10_000_000_000).times(x).times(y),
        // NOx x, CO2 y
        Figure::Nox => fraction(1_194, 10_000_000_000).times(x).times(&fc).times(&fraction(100, 1)).over(y),
        // CO2 x, flow y
        Figure::Co2 => fraction(57, 100_000_000).times(x).times(y),
    }
}

/// SO2 of a gas hour, with its unrounded heat.
fn gas_formula(heat: &Fraction) -> Fraction {
    fraction(6, 10_000).times(heat)
}

/// The two recorded readings of a formula, and the unit of its figure. The hour
/// is no gas hour.
fn inputs(figure: Figure, r: &Readings) -> (Recorded, Recorded, Unit) {
    match figure {
        Figure::Heat => (THOUSAND.times(r.flow), TENTH.times(r.co2), TENTH),
        Figure::So2 => (TENTH.times(r.so2.reading().unwrap()), THOUSAND.times(r.flow), TENTH),
        Figure::Nox => (TENTH.times(r.nox), TENTH.times(r.co2), THOUSANDTH),
        Figure::Co2 => (TENTH.times(r.co2), THOUSAND.times(r.flow), TENTH),
    }
}

/// The step at which a walk reaches what it should, or the last of its steps.
fn step_to(first: u128, reached: impl Fn(u128) -> bool) -> u128 {
    let (mut low, mut high) = (first, STEPS - 1);
    while low < high {
        let half = (low + high) / 2;
        if reached(half) {
            high = half;
        } else {
            low = half + 1;
        }
    }
    low
}

/// An unrounded heat that records as the given one and gives this SO2 figure of a
/// gas hour, or nothing.
fn gas_witness(heat: u128, wanted: u128) -> Option<Fraction> {
    let (heat, wanted) = (TENTH.times(heat), TENTH.times(wanted));
    let step = step_to(0, |step| wanted.reached_by(&gas_formula(&heat.walk(step))));
    let found = heat.walk(step);
    let gives = heat.rounded_from(&found) && wanted.rounded_from(&gas_formula(&found));
    gives.then_some(found)
}

/// Two unrounded readings that lie behind the figure, or nothing.
fn witness(figure: Figure, readings: &Readings, wanted: u128) -> Option<(Fraction, Fraction)> {
    let (x, y, unit) = inputs(figure, readings);
    let wanted = unit.times(wanted);
    let at = |step: u128| {
        // The quotient grows while its lower reading shrinks.
        let y_step = if figure == Figure::Nox { STEPS - step } else { step };
        (x.walk(step), y.walk(y_step))
    };
    let value = |step: u128| {
        let (x, y) = at(step);
        formula(figure, &x, &y, readings.fc)
    };
    let first = u128::from(figure == Figure::Nox);
    let (a, b) = at(step_to(first, |step| wanted.reached_by(&value(step))));
    let lies_behind = x.rounded_from(&a)
        && y.rounded_from(&b)
        && wanted.rounded_from(&formula(figure, &a, &b, readings.fc));
    lies_behind.then_some((a, b))
}

/// Both tests say the same; returns what.
fn agree(figure: Figure, readings: &Readings, wanted: u128) -> bool {
    let fast = figure.possible(readings, wanted);
    let found = match (figure, readings.so2) {
        (Figure::So2, Gas(heat)) => gas_witness(heat, wanted).is_some(),
        _ => witness(figure, readings, wanted).is_some(),
    };
    assert_eq!(fast, found, "{figure:?} {readings:?} {wanted}");
    fast
}

/// Agreement at both edges of a figure and beside them.
fn agree_at_edges(figure: Figure, readings: &Readings) {
    let (low, high) = figure.edges(readings);
    assert!(agree(figure, readings, low));
    assert!(agree(figure, readings, high));
    assert!(!agree(figure, readings, high + 1));
    assert!(low == 0 || !agree(figure, readings, low - 1));
}

#[test]
fn hours_to_try() {
    let row = Readings { so2: Monitor(2_500), nox: 2_000, co2: 120, flow: 20_000, fc: 18_000 };
    let dark = Readings { so2: Monitor(0), ..row };
    let still = Readings { so2: Monitor(0), flow: 0, ..row };
    let thick = Readings { so2: Monitor(99_999), flow: 1_000, ..row };
    let thick_and_still = Readings { flow: 0, ..thick };
    let ends = Readings { co2: 1, flow: 50, fc: 5_050, ..row };
    let starts = Readings { flow: 51, ..ends };
    let table: [(Figure, Readings, &[u128], &[u128]); 10] = [
        (Figure::So2, row, &[8_298, 8_302], &[8_297, 8_303]),
        (Figure::Co2, row, &[1_362, 1_374], &[1_361, 1_375]),
        (Figure::Heat, row, &[13_277, 13_389], &[13_276, 13_390]),
        (Figure::Nox, row, &[357, 360], &[356, 361]),
        (Figure::So2, dark, &[0, 2], &[3]),
        (Figure::So2, still, &[0], &[1]),
        (Figure::So2, thick, &[16_591, 16_600, 16_608], &[16_590, 16_609]),
        (Figure::So2, thick_and_still, &[0, 8], &[9]),
        (Figure::Heat, ends, &[1], &[2]),
        (Figure::Heat, starts, &[1], &[0]),
    ];
    for (figure, readings, passing, outside) in table {
        assert!(passing.iter().all(|&wanted| agree(figure, &readings, wanted)));
        assert!(!outside.iter().any(|&wanted| agree(figure, &readings, wanted)));
    }
}

/// A NOx figure whose span starts exactly where the values end does not pass,
/// nor does one whose span ends exactly where they start.
#[test]
fn ends_that_meet_exactly() {
    for m in [1, 3, 5, 7, 99, 1_001] {
        let upper = Readings { nox: (25 * m - 1) / 2, co2: 100, fc: 10_000, ..Readings::default() };
        let figure = (3 * m).div_ceil(2);
        assert!(!agree(Figure::Nox, &upper, figure));
        assert!(agree(Figure::Nox, &upper, figure - 1));
        let lower = Readings { nox: (25 * m).div_ceil(2), co2: 99, fc: 10_000, ..Readings::default() };
        let figure = (3 * m - 1) / 2;
        assert!(!agree(Figure::Nox, &lower, figure));
        assert!(agree(Figure::Nox, &lower, figure + 1));
    }
}

/// The same of heat, where flow and CO2 meet an end exactly.
#[test]
fn heat_that_meets_exactly() {
    let mut random = Random::new(6);
    for turn in 0..400 {
        let upper = turn % 2 == 0;
        let (readings, figure) = tight::exact_heat(&mut random, upper);
        assert!(!agree(Figure::Heat, &readings, figure));
        assert!(agree(Figure::Heat, &readings, if upper { figure - 1 } else { figure + 1 }));
    }
}

/// Recorded flow 0 leaves room for figures above 0.
#[test]
fn hours_without_flow() {
    let mut random = Random::new(7);
    let mut above_zero = 0;
    for _ in 0..200 {
        let readings = Readings {
            so2: Monitor(random.between(0, 99_999)),
            co2: random.between(1, 1_000),
            fc: random.between(5_000, 30_000),
            ..Readings::default()
        };
        for figure in [Figure::Heat, Figure::So2, Figure::Co2] {
            agree_at_edges(figure, &readings);
            assert!(agree(figure, &readings, 0));
            above_zero += usize::from(figure.edges(&readings).1 > 0);
        }
    }
    assert!(above_zero > 100, "{above_zero}");
}

#[test]
fn ends_of_all_ranges() {
    for so2 in [0, 1, 99_999] {
        for co2 in [1, 2, 999, 1_000] {
            for flow in [0, 1, 2, 499_999, 500_000, 500_001, 9_999_998, 9_999_999] {
                for fc in [5_000, 18_000, 30_000] {
                    let readings = Readings { so2: Monitor(so2), nox: 99_999 - so2, co2, flow, fc };
                    FIGURES.iter().for_each(|&figure| agree_at_edges(figure, &readings));
                }
            }
        }
    }
}

#[test]
fn many_random_hours() {
    let mut random = Random::new(20_261);
    for _ in 0..400 {
        let readings = Readings {
            so2: Monitor(random.spread(99_999)),
            nox: random.spread(99_999),
            co2: random.spread(1_000).max(1),
            flow: random.spread(9_999_999),
            fc: random.between(5_000, 30_000),
        };
        for figure in FIGURES {
            agree_at_edges(figure, &readings);
            let middle = figure.of_recorded(&readings);
            assert!(agree(figure, &readings, middle));
            let distance = random.spread(1_000);
            agree(figure, &readings, middle + distance);
            agree(figure, &readings, middle.saturating_sub(distance));
        }
    }
}

#[test]
fn the_tightest_edges() {
    let mut random = Random::new(5);
    for figure in FIGURES {
        let (mut passed, mut failed) = (0, 0);
        for turn in 0..8_000 {
            if let Some((readings, wanted)) = tight::find(&mut random, figure, turn) {
                if agree(figure, &readings, wanted) {
                    passed += 1;
                } else {
                    failed += 1;
                }
            }
            if passed + failed > 400 {
                break;
            }
        }
        assert!(passed > 20 && failed > 20, "{figure:?} {passed} {failed}");
    }
}

/// Which of these SO2 figures pass in a gas hour with this heat. No other reading
/// of the hour matters.
fn passing(heat: u128, figures: impl IntoIterator<Item = u128>) -> Vec<u128> {
    let readings = Readings { so2: Gas(heat), co2: 120, fc: 18_000, ..Readings::default() };
    figures.into_iter().filter(|&wanted| agree(Figure::So2, &readings, wanted)).collect()
}

#[test]
fn gas_hours_to_try() {
    for (heat, figures) in
        [(13_333, &[8][..]), (832, &[0]), (833, &[0, 1]), (834, &[1]), (0, &[0]), (999_999, &[600])]
    {
        assert_eq!(passing(heat, 0..700), figures, "{heat}");
    }
}

/// The unrounded heat 5,000 * (2 * figure + 1) / 6, in tenths, is where a figure ends
/// and the next one starts. It is recorded as one heat, which has both; the heats
/// beside that have one each. This goes on up to the end of heat's columns.
#[test]
fn every_edge_of_gas_hours() {
    for figure in 0u128..600 {
        let sixths = 5_000 * (2 * figure + 1);
        let heat = (sixths + 3) / 6;
        assert!(6 * heat < sixths + 3 && sixths < 6 * heat + 3);
        let figures = || figure.saturating_sub(1)..figure + 3;
        assert_eq!(passing(heat - 1, figures()), [figure]);
        assert_eq!(passing(heat, figures()), [figure, figure + 1]);
        assert_eq!(passing(heat + 1, figures()), [figure + 1]);
    }
}

#[test]
fn many_gas_hours() {
    let mut random = Random::new(20_262);
    for turn in 0..2_000 {
        let heat = if turn < 1_000 { turn } else { random.spread(999_999) };
        let middle = 6 * heat / 10_000;
        let nearby = passing(heat, middle.saturating_sub(2)..middle + 4);
        assert!(!nearby.is_empty() && nearby.len() <= 2);
        let distance = 3 + random.spread(999_999);
        assert!(passing(heat, [middle + distance]).is_empty());
        assert!(distance > middle || passing(heat, [middle - distance]).is_empty());
    }
}

/// Time in hundredths and the four figures of an operating hour.
type Amounts = (u128, [u128; 4]);

/// The sum over all hours of figures multiplied with one another.
fn sum(hours: &[Amounts], factors: &[fn(&Amounts) -> Recorded]) -> Fraction {
    let product = |hour: &Amounts| {
        factors.iter().fold(fraction(1, 1), |product, factor| product.times(&factor(hour).exactly()))
    };
    hours.iter().map(product).fold(fraction(0, 1), |sum, product| sum.plus(&product))
}

const TIME: fn(&Amounts) -> Recorded = |hour| HUNDREDTH.times(hour.0);
const HEAT: fn(&Amounts) -> Recorded = |hour| TENTH.times(hour.1[0]);
const SO2: fn(&Amounts) -> Recorded = |hour| TENTH.times(hour.1[1]);
const NOX: fn(&Amounts) -> Recorded = |hour| THOUSANDTH.times(hour.1[2]);
const CO2: fn(&Amounts) -> Recorded = |hour| TENTH.times(hour.1[3]);

/// The totals are the papers' sums and mean, each rounded once. Returns them.
fn assert_totals(hours: &[Amounts]) -> [u128; 5] {
    let totals = totals_of(hours.iter().map(|(time, figures)| (*time, figures)));
    let pounds_to_a_ton = fraction(2_000, 1);
    let exact = [
        sum(hours, &[SO2, TIME]).over(&pounds_to_a_ton),
        sum(hours, &[CO2, TIME]),
        sum(hours, &[HEAT, TIME]),
        sum(hours, &[NOX]).over(&fraction(hours.len().max(1) as u128, 1)),
        sum(hours, &[NOX, HEAT, TIME]).over(&pounds_to_a_ton),
    ];
    for (index, unit) in [TENTH, TENTH, TENTH, THOUSANDTH, TENTH].into_iter().enumerate() {
        let total = totals[index];
        assert!(unit.times(total).rounded_from(&exact[index]), "{index} {total}");
        assert!(!unit.times(total + 1).rounded_from(&exact[index]), "{index} {total}");
    }
    totals
}

#[test]
fn totals_are_rounded_sums() {
    let largest = (100, [999_999, 999_999, 99_999, 999_999]);
    assert_eq!(assert_totals(&[]), [0; 5]);
    assert_eq!(assert_totals(&[(50, [13_333, 8_300, 358, 1_368])]), [2, 684, 6_667, 358, 1]);
    assert_eq!(assert_totals(&[largest; 2_208])[4], 110_398_786);
    let mut random = Random::new(10);
    for count in (0..300).map(|turn| turn % 40) {
        let hour = |_| {
            let figures = largest.1.map(|most| random.spread(most));
            (random.between(1, 100), figures)
        };
        assert_totals(&(0..count).map(hour).collect::<Vec<_>>());
    }
}

/// NOx of half a tenth of a ton beyond whole tenths is rounded up, and a millionth
/// of a pound less is rounded down.
#[test]
fn tons_on_half_a_tenth() {
    let tons = |time, rate, heat| assert_totals(&[(time, [heat, 0, rate, 0])])[4];
    for (time, rate, heat) in [(100, 100, 10_000), (50, 500, 12_000), (1, 10_000, 30_000), (64, 3_125, 9_500)]
    {
        let product = time * rate * heat;
        assert_eq!(product % 200_000_000, 100_000_000);
        assert_eq!(tons(time, rate, heat), product / 200_000_000 + 1);
    }
    for (time, rate, heat) in [(99, 101, 10_001), (99, 73, 13_837), (1, 36_017, 41_647), (29, 193, 125_067)] {
        let product = time * rate * heat;
        assert_eq!(product % 200_000_000, 99_999_999);
        assert_eq!(tons(time, rate, heat), product / 200_000_000);
    }
}
