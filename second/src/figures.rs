//! The four formulas: the figure that belongs to recorded readings, and
//! whether any unrounded readings at all lie behind a given figure.
//!
//! Readings x and y are counted in their recorded units, and so is the figure.
//! Then heat, SO2 and CO2 have the form `top * x * y / bottom`, and NOx has
//! the form `top * x / (bottom * y)`. In a gas hour SO2 has the form
//! `top * x / bottom`, x being the recorded heat.
//!
//! Why the tests below are exact. Let x run through [a, b) and y through
//! [c, d), with 0 <= a < b and 0 <= c < d.
//!
//! * The products are just the values from a*c up to but not including b*d:
//!   the lower corner belongs to the spans, the upper one does not. Multiples of
//!   x alone go from a to b in the same way.
//! * The quotients, for c > 0, lie strictly between a/d and b/c, except that
//!   for a = 0 the value 0 is among them. Neither d nor b is ever reached.
//!
//! A span of figures [z, w) meets such a set exactly when the set starts below
//! w and ends above z, both strictly. For the open lower end a/d of a quotient
//! this holds too: values just above a/d are still below w. In each case the
//! meeting place can be had with fractions, since a stretch of positive length
//! (or a corner with whole coordinates) lies in it.

use crate::rounding::{half_up, span};

/// What the SO2 figure of an hour is formed from.
#[derive(Clone, Copy, Debug, PartialEq, Eq)]
pub enum So2Source {
    /// The reading of the monitor, in tenths of ppm.
    Monitor(u128),
    /// In a gas hour, which has no such reading, the recorded heat, in tenths of
    /// mmBtu/hr.
    Gas(u128),
}

pub use So2Source::{Gas, Monitor};

impl So2Source {
    /// The reading, if there is one.
    pub fn reading(self) -> Option<u128> {
        match self {
            Monitor(reading) => Some(reading),
            Gas(_) => None,
        }
    }

    /// The same source with another number.
    pub fn map(self, change: impl FnOnce(u128) -> u128) -> Self {
        match self {
            Monitor(reading) => Monitor(change(reading)),
            Gas(heat) => Gas(change(heat)),
        }
    }
}

impl Default for So2Source {
    fn default() -> Self {
        Monitor(0)
    }
}

/// Recorded readings of an hour: what SO2 is formed from, tenths of ppm and
/// percent, thousands of scfh, and tenths of scf/mmBtu.
#[derive(Clone, Copy, Debug, Default, PartialEq, Eq)]
pub struct Readings {
    pub so2: So2Source,
    pub nox: u128,
    pub co2: u128,
    pub flow: u128,
    pub fc: u128,
}

/// The four figures of an hour, in the order in which they are judged.
#[derive(Clone, Copy, Debug, PartialEq, Eq)]
pub enum Figure {
    Heat,
    So2,
    Nox,
    Co2,
}

/// All four, in the order of judging.
pub const FIGURES: [Figure; 4] = [Figure::Heat, Figure::So2, Figure::Nox, Figure::Co2];

/// A formula with its readings in recorded units.
pub enum Formula {
    /// `top * x * y / bottom`
    Product { top: u128, bottom: u128, x: u128, y: u128 },
    /// `top * x / (bottom * y)`
    Quotient { top: u128, bottom: u128, x: u128, y: u128 },
    /// `top * x / bottom`
    Multiple { top: u128, bottom: u128, x: u128 },
}

impl Figure {
    /// The formula with the readings that it uses.
    pub fn formula(self, r: &Readings) -> Formula {
        match self {
            // (1000*flow) * (co2/10) / (100 * fc/10), in tenths
            Figure::Heat => Formula::Product { top: 100, bottom: r.fc, x: r.flow, y: r.co2 },
            Figure::So2 => match r.so2 {
                // 1.660e-7 * (so2/10) * (1000*flow), in tenths
                Monitor(so2) => Formula::Product { top: 166, bottom: 1_000_000, x: so2, y: r.flow },
                // 0.0006 * (heat/10), in tenths
                Gas(heat) => Formula::Multiple { top: 6, bottom: 10_000, x: heat },
            },
            // 1.194e-7 * (nox/10) * (fc/10) * 100 / (co2/10), in thousandths
            Figure::Nox => Formula::Quotient { top: 1194 * r.fc, bottom: 1_000_000, x: r.nox, y: r.co2 },
            // 5.7e-7 * (co2/10) * (1000*flow), in tenths
            Figure::Co2 => Formula::Product { top: 57, bottom: 100_000, x: r.co2, y: r.flow },
        }
    }

    /// The formula of the recorded readings, rounded.
    pub fn of_recorded(self, readings: &Readings) -> u128 {
        match self.formula(readings) {
            Formula::Product { top, bottom, x, y } => half_up(top * x * y, bottom),
            Formula::Quotient { top, bottom, x, y } => half_up(top * x, bottom * y),
            Formula::Multiple { top, bottom, x } => half_up(top * x, bottom),
        }
    }

    /// Whether some unrounded readings lie behind this figure.
    pub fn possible(self, readings: &Readings, figure: u128) -> bool {
        let target = span(figure);
        match self.formula(readings) {
            // In halves: x = a/2, y = b/2, and twice the value is
            // top * a * b / (2 * bottom).
            Formula::Product { top, bottom, x, y } => {
                let (x, y) = (span(x), span(y));
                top * x.low * y.low < target.high * 2 * bottom
                    && top * x.high * y.high > target.low * 2 * bottom
            }
            // Twice the value is 2 * top * a / (bottom * b).
            Formula::Quotient { top, bottom, x, y } => {
                let (x, y) = (span(x), span(y));
                2 * top * x.low < target.high * bottom * y.high
                    && 2 * top * x.high > target.low * bottom * y.low
            }
            // Twice the value is top * a / bottom.
            Formula::Multiple { top, bottom, x } => {
                let x = span(x);
                top * x.low < target.high * bottom && top * x.high > target.low * bottom
            }
        }
    }

    /// The least and the greatest figure behind which something lies. The
    /// figure of the recorded readings is one of them, and they have no gap.
    pub fn edges(self, readings: &Readings) -> (u128, u128) {
        let middle = self.of_recorded(readings);
        let (mut low, mut below) = (middle, 0);
        while below < low {
            let half = (below + low) / 2;
            if self.possible(readings, half) {
                low = half;
            } else {
                below = half + 1;
            }
        }
        let (mut high, mut above) = (middle, 10 * middle + 1_000_000_000);
        while high < above {
            let half = (high + above).div_ceil(2);
            if self.possible(readings, half) {
                high = half;
            } else {
                above = half - 1;
            }
        }
        (low, high)
    }
}

#[cfg(test)]
mod tests {
    use super::*;

    const ROW: Readings = Readings { so2: Monitor(2_500), nox: 2_000, co2: 120, flow: 20_000, fc: 18_000 };

    #[test]
    fn hours_to_try() {
        let dark = Readings { so2: Monitor(0), ..ROW };
        let still = Readings { so2: Monitor(0), flow: 0, ..ROW };
        let thick = Readings { so2: Monitor(99_999), flow: 1_000, ..ROW };
        let thick_and_still = Readings { flow: 0, ..thick };
        // Heat whose readings end, and start, exactly at 0.15 and 0.05.
        let ends = Readings { co2: 1, flow: 50, fc: 5_050, ..ROW };
        let starts = Readings { flow: 51, ..ends };
        let gas = |heat| Readings { so2: Gas(heat), ..ROW };
        for (figure, readings, low, high) in [
            (Figure::So2, ROW, 8_298, 8_302),
            (Figure::Co2, ROW, 1_362, 1_374),
            (Figure::Heat, ROW, 13_277, 13_389),
            (Figure::Nox, ROW, 357, 360),
            (Figure::So2, dark, 0, 2),
            (Figure::So2, still, 0, 0),
            (Figure::So2, thick, 16_591, 16_608),
            (Figure::So2, thick_and_still, 0, 8),
            (Figure::Heat, ends, 0, 1),
            (Figure::Heat, starts, 1, 2),
            (Figure::So2, gas(13_333), 8, 8),
            (Figure::So2, gas(832), 0, 0),
            (Figure::So2, gas(833), 0, 1),
            (Figure::So2, gas(834), 1, 1),
            (Figure::So2, gas(0), 0, 0),
            (Figure::So2, gas(999_999), 600, 600),
        ] {
            assert_eq!(figure.edges(&readings), (low, high), "{figure:?}");
            assert!(figure.possible(&readings, low) && figure.possible(&readings, high));
            assert!(low == 0 || !figure.possible(&readings, low - 1));
            assert!(!figure.possible(&readings, high + 1));
        }
    }

    #[test]
    fn figures_of_the_example_hour() {
        let figures = FIGURES.map(|f| f.of_recorded(&ROW));
        assert_eq!(figures, [13_333, 8_300, 358, 1_368]);
    }
}
