//! Reports of twenty hours, an idle one behind each fifth and two of them gas hours, with every byte of some of their lines changed in turn,
//! line ends too: the first hours, those about the place from which 300 lines are looked at by their picture, and the last. One is
//! written plainly, one with zeros before its numbers and other bytes in unread columns. All seeds have them.

use second::check::{check, Answer};
use second::figures::{Figure, Gas};
use second::generate::page::Page;
use second::generate::recorder::{self, OddPen};
use second::layout::{Record, R100, R200, R201, R202, R220, R300, R301, R310, R320, R330};
use second::random::Random;
use second::report::{PlainPen, Report};

const HOURS: usize = 20;

/// The ranks of the lines of a type that are changed.
const RANKS: [usize; 6] = [0, 1, 15, 16, 17, HOURS - 1];

/// What a byte is changed to.
const BYTES: [u8; 14] = [0, 10, 31, b' ', b'.', b'/', b'0', b'1', b'9', b':', b'x', b'~', 127, 255];

const RECORDS: [&Record; 10] = [&R100, &R200, &R201, &R202, &R220, &R300, &R301, &R310, &R320, &R330];

fn report(random: &mut Random) -> Report {
    let mut report = recorder::report_in(random, 2005, 3, HOURS);
    for (hour, rank) in report.hours.iter_mut().zip(0..) {
        hour.hour_of_quarter = rank + rank / 5;
        if rank == 1 || rank == 17 {
            hour.readings.so2 = Gas(hour.figures[0]);
            hour.figures[1] = Figure::So2.of_recorded(&hour.readings);
        }
    }
    report.idle_hours = vec![5, 11, 17, 23];
    report.add_up();
    report
}

/// The places of the bytes that are changed: those of a line and its end.
fn places(file: &[u8]) -> Vec<usize> {
    let page = Page::of(file);
    let starts: Vec<usize> =
        page.lines.iter().scan(0, |at, line| Some(std::mem::replace(at, *at + line.len() + 1))).collect();
    let mut places = Vec::new();
    for record in RECORDS {
        let lines = page.indices(record);
        for rank in RANKS {
            if rank < lines.len() {
                let line = lines.start + rank;
                places.extend(starts[line]..=starts[line] + page.lines[line].len());
            }
        }
    }
    places
}

/// The files, one after the other.
pub fn files() -> impl Iterator<Item = Vec<u8>> {
    let mut random = Random::new(1);
    let report = report(&mut random);
    let reports = [report.bytes(&mut PlainPen), report.bytes(&mut OddPen(&mut random))];
    for file in &reports {
        assert!(matches!(check(file), Answer::Accepted { hours: HOURS, .. }));
    }
    reports.into_iter().flat_map(|file| {
        places(&file).into_iter().flat_map(move |place| {
            let file = file.clone();
            BYTES.into_iter().map(move |byte| {
                let mut changed = file.clone();
                changed[place] = byte;
                changed
            })
        })
    })
}
