//! A second, independent implementation of the quarterly stack report.
//!
//! It is written from the scope paper and the customers' later requests, to be
//! held against another implementation of the same papers. It can check a
//! report, write one from a sheet of words, convert sheets of the first form,
//! make such words of a recorder's readings, join a quarter to the year to date,
//! and make test cases from a seed. The cases of reports can be stored with the
//! answers that it gives to them.
//!
//! Whole numbers everywhere: a reading, figure or total is kept in its recorded
//! unit (tenths, thousandths, thousands of scfh), and all arithmetic is exact in
//! 128 bits. A recorder's floats are only known by their bits.

pub mod calendar;
pub mod cases;
pub mod check;
pub mod conversion;
pub mod figures;
pub mod generate;
pub mod layout;
pub mod list;
pub mod random;
pub mod recorder_words;
pub mod report;
pub mod rounding;
pub mod write;
pub mod year_to_date;
