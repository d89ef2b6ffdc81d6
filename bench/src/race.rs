//! Those that are timed take turns; the median of each counts.

use std::hint::black_box;
use std::time::Instant;

pub const ROUNDS: usize = 101;

/// A turn is repeated until it takes so long, in microseconds.
const TURN: f64 = 100.0;

/// One of those that are timed, how often it works in a turn, and the time of each turn in microseconds for one piece of work.
pub struct Runner<'a> {
    work: Box<dyn FnMut() + 'a>,
    repeats: u32,
    times: Vec<f64>,
}

pub fn runner<'a, T>(mut work: impl FnMut() -> T + 'a) -> Runner<'a> {
    Runner { work: Box::new(move || drop(black_box(work()))), repeats: 1, times: Vec::new() }
}

impl Runner<'_> {
    /// Works once to warm the buffers, and against the clock.
    fn turn(&mut self) -> f64 {
        (self.work)();
        let start = Instant::now();
        for _ in 0..self.repeats {
            (self.work)();
        }
        start.elapsed().as_secs_f64() * 1e6 / f64::from(self.repeats)
    }
}

/// The median times of the runners, in turn.
pub fn race<const RUNNERS: usize>(mut runners: [Runner; RUNNERS]) -> [f64; RUNNERS] {
    for runner in &mut runners {
        runner.repeats = (TURN / runner.turn()).ceil() as u32;
    }
    for _ in 0..ROUNDS {
        for runner in &mut runners {
            let time = runner.turn();
            runner.times.push(time);
        }
    }
    runners.map(|mut runner| {
        runner.times.sort_by(f64::total_cmp);
        runner.times[ROUNDS / 2]
    })
}
