//! The report of one hour for the examples, written and checked.

use edr::{Answer, Written};

/// Writes the report of a sheet of one hour, checks it, and prints what writer and check say. Returns whether it is accepted.
pub fn reported(sheet: &[u32]) -> bool {
    let mut report = [0; edr::report_length(1)];
    let written = edr::write(2005, 3, b"STACK1", sheet, &mut report);
    println!("{written}");
    if let Written::Refused(_) = written {
        return false;
    }
    let answer = edr::check(&report);
    println!("{answer}");
    matches!(answer, Answer::Accepted(_))
}
