//! Rounding half up, and the span of values behind a recorded number.
//!
//! A number v recorded at unit 1 stands for every value from v - 1/2 (or 0, if
//! that is greater) up to but not including v + 1/2. To stay with whole
//! numbers, spans are given in halves of the unit.

/// The values from `low` up to but not including `high`, both in halves of
/// the unit.
#[derive(Clone, Copy, Debug, PartialEq, Eq)]
pub struct Span {
    pub low: u128,
    pub high: u128,
}

/// The span behind a recorded number.
pub fn span(recorded: u128) -> Span {
    Span { low: (2 * recorded).saturating_sub(1), high: 2 * recorded + 1 }
}

/// The fraction `top / bottom` rounded half up to a whole number.
pub fn half_up(top: u128, bottom: u128) -> u128 {
    (2 * top + bottom) / (2 * bottom)
}

#[cfg(test)]
mod tests {
    use super::*;

    #[test]
    fn halves_go_up() {
        assert_eq!(half_up(1, 2), 1);
        assert_eq!(half_up(49, 100), 0);
        assert_eq!(half_up(149, 100), 1);
        assert_eq!(half_up(150, 100), 2);
        assert_eq!(half_up(0, 7), 0);
    }

    #[test]
    fn a_span_holds_exactly_what_rounds_to_its_number() {
        for recorded in 0..20u128 {
            let span = span(recorded);
            for twentieths in 0..500u128 {
                let inside = span.low * 10 <= twentieths && twentieths < span.high * 10;
                assert_eq!(inside, half_up(twentieths, 20) == recorded);
            }
        }
    }
}
