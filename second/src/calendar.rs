//! Gregorian dates of a quarter, and the hours of a quarter counted from 0.

/// The most hours that a quarter has.
pub const MOST_HOURS: u64 = 2_208;

/// A date and hour, month and day counted from 1.
#[derive(Clone, Copy, Debug, PartialEq, Eq, PartialOrd, Ord)]
pub struct Moment {
    pub month: u32,
    pub day: u32,
    pub hour: u32,
}

/// Whether the year has a 29 February.
pub fn is_leap(year: u32) -> bool {
    (year % 4 == 0 && year % 100 != 0) || year % 400 == 0
}

/// Days of a month, 0 for a month that does not exist.
pub fn days_in_month(year: u32, month: u32) -> u32 {
    match month {
        1 | 3 | 5 | 7 | 8 | 10 | 12 => 31,
        4 | 6 | 9 | 11 => 30,
        2 if is_leap(year) => 29,
        2 => 28,
        _ => 0,
    }
}

/// The three months of a quarter (1 to 4).
pub fn months_of(quarter: u32) -> [u32; 3] {
    let first = 3 * quarter - 2;
    [first, first + 1, first + 2]
}

/// How many hours a quarter has.
pub fn hours_in_quarter(year: u32, quarter: u32) -> u32 {
    let days: u32 = months_of(quarter).iter().map(|&month| days_in_month(year, month)).sum();
    24 * days
}

/// The date of an hour of the quarter, 0 being its first hour.
pub fn moment_of(year: u32, quarter: u32, hour_of_quarter: u32) -> Moment {
    let mut days = hour_of_quarter / 24;
    let mut month = months_of(quarter)[0];
    while month < months_of(quarter)[2] && days >= days_in_month(year, month) {
        days -= days_in_month(year, month);
        month += 1;
    }
    Moment { month, day: days + 1, hour: hour_of_quarter % 24 }
}

/// Whether the date is real, in the quarter, and its hour at most 23.
pub fn exists(year: u32, quarter: u32, moment: Moment) -> bool {
    months_of(quarter).contains(&moment.month)
        && (1..=days_in_month(year, moment.month)).contains(&moment.day)
        && moment.hour <= 23
}

/// The eight digits YYMMDDHH of a date.
pub fn eight_digits(year: u32, moment: Moment) -> String {
    format!("{:02}{:02}{:02}{:02}", year % 100, moment.month, moment.day, moment.hour)
}

#[cfg(test)]
mod tests {
    use super::*;

    #[test]
    fn quarters_have_their_hours() {
        assert_eq!(hours_in_quarter(2005, 1), 2160);
        assert_eq!(hours_in_quarter(2000, 1), 2184);
        assert_eq!(hours_in_quarter(2005, 2), 2184);
        assert_eq!(hours_in_quarter(2005, 3), 2208);
        assert_eq!(hours_in_quarter(2005, 4), 2208);
    }

    #[test]
    fn hours_of_a_quarter_are_its_dates_in_order() {
        for year in [1995, 1996, 2000, 2001, 2094] {
            for quarter in 1..=4 {
                let count = hours_in_quarter(year, quarter);
                let all: Vec<_> = (0..count).map(|h| moment_of(year, quarter, h)).collect();
                assert!(all.iter().all(|&m| exists(year, quarter, m)));
                assert!(all.windows(2).all(|w| w[0] < w[1]));
                assert!(!exists(year, quarter, moment_of(year, quarter, count)));
            }
        }
    }

    #[test]
    fn ends_of_february() {
        assert_eq!(eight_digits(2000, moment_of(2000, 1, 24 * 59)), "00022900");
        assert_eq!(eight_digits(2001, moment_of(2001, 1, 24 * 59)), "01030100");
        assert_eq!(eight_digits(2001, moment_of(2001, 4, 2207)), "01123123");
    }
}
