//! The files that are checked.

use second::figures::{Figure, Gas};
use second::generate::recorder;
use second::layout::R200;
use second::random::Random;
use second::report::Report;

pub const YEAR: u32 = 2005;
pub const QUARTER: u32 = 3;
pub const HOURS: usize = edr::MOST_HOURS;

/// A file and what is said of it.
pub struct File {
    pub name: &'static str,
    pub bytes: Vec<u8>,
    /// How its answer begins.
    pub answer: String,
}

/// An honest report of so many hours, as a recorder writes it, changed before it is added up.
fn recorded(name: &'static str, hours: usize, change: impl Fn(&mut Report)) -> File {
    let mut random = Random::new(1);
    let mut report = recorder::report_in(&mut random, YEAR, QUARTER, hours);
    change(&mut report);
    report.add_up();
    let bytes = recorder::bytes(&mut random, &report);
    File { name, bytes, answer: format!("accepted {} ", report.hours.len()) }
}

fn half_idle(report: &mut Report) {
    report.hours.retain(|hour| hour.hour_of_quarter % 2 == 0);
    report.idle_hours = (1..HOURS as u32).step_by(2).collect();
}

fn all_gas(report: &mut Report) {
    for hour in &mut report.hours {
        hour.readings.so2 = Gas(hour.figures[0]);
        hour.figures[1] = Figure::So2.of_recorded(&hour.readings);
    }
}

/// The full quarter.
pub fn full() -> File {
    recorded("full quarter", HOURS, |_| ())
}

/// The full quarter with an SO2 reading on line 2 that is no number.
fn line_2_wrong() -> File {
    let mut file = full();
    let second = file.bytes.iter().position(|&byte| byte == b'\n').expect("it has lines") + 1;
    file.bytes[second + R200.values[0].columns.0 - 1] = b'x';
    File { name: "line 2 wrong", answer: "refused 8 2".to_string(), ..file }
}

/// All of them, the full quarter first.
pub fn all() -> [File; 6] {
    [
        full(),
        recorded("half idle", HOURS, half_idle),
        recorded("all gas", HOURS, all_gas),
        recorded("24 hours", 24, |_| ()),
        recorded("1 hour", 1, |_| ()),
        line_2_wrong(),
    ]
}
