//! In one run and with warm buffers: the proved check and an expert's check in C on several files; on a full quarter of 2,208 operating hours
//! the second implementation and a plain pass over as many bytes too; and the proved writer and the conversion of a kept sheet, each with the
//! second one and a plain copy. Before any is timed, their answers are compared. Where `bench/run` is given a library of another state, its
//! check takes turns as well.
//!
//! `bench check-only N` and `bench write-only N` only check or write N times, for a profiler.

mod files;
mod race;

use std::hint::black_box;
use std::process::ExitCode;

use edr::{Answer, Converted, Quarter, Written};
use second::conversion::convert;
use second::generate::sheets;
use second::random::Random;
use second::write::{Form, Order};

use files::{File, HOURS, QUARTER, YEAR};
use race::{race, runner, ROUNDS};

extern "C" {
    fn expert_check(file: *const u8, length: usize, answer: *mut u64) -> i32;

    #[cfg(before)]
    fn edr_check_before(file: *const u8, length: usize, answer: *mut u64, room: usize) -> u64;
}

/// An answer by its numbers.
fn answer(accepted: bool, numbers: [u64; 6]) -> Answer {
    let [hours, so2, co2, heat, nox, nox_tons] = numbers;
    if accepted {
        Answer::Accepted(Quarter { hours, so2, co2, heat, nox, nox_tons })
    } else {
        Answer::Refused { number: hours, line: so2 }
    }
}

fn expert(file: &[u8]) -> Answer {
    let mut numbers = [0; 6];
    // SAFETY: it reads the file and writes at most six numbers.
    let accepted = unsafe { expert_check(file.as_ptr(), file.len(), numbers.as_mut_ptr()) };
    answer(accepted == 1, numbers)
}

/// The check of the other library.
#[cfg(before)]
fn before(file: &[u8]) -> Answer {
    let mut numbers = [0; 6];
    // SAFETY: as `edr_check`, whose other state it is.
    let accepted =
        unsafe { edr_check_before(file.as_ptr(), file.len(), numbers.as_mut_ptr(), numbers.len()) };
    answer(accepted == 1, numbers)
}

/// All checks give the same answer, and it is the one that the file is to have.
fn assert_answers(file: &File) {
    let proved = edr::check(&file.bytes);
    assert!(proved.to_string().starts_with(&file.answer), "{}: {proved}", file.name);
    assert_eq!(proved.to_string(), second::check::check(&file.bytes).to_string(), "{}", file.name);
    assert_eq!(proved, expert(&file.bytes), "{}", file.name);
    #[cfg(before)]
    assert_eq!(proved, before(&file.bytes), "{}", file.name);
}

/// The proved check in turn with the expert's, and with that of the other library if there is one.
fn race_files(files: &[File]) {
    let others = if cfg!(before) { format!("{:>12}{:>12}", "before", "to before") } else { String::new() };
    println!(
        "{:<24}{:>10}{:>12}{:>12}{:>12}{others}",
        "check, microseconds", "bytes", "proved", "in C", "to C"
    );
    for File { name, bytes, .. } in files {
        let runners = [
            runner(|| edr::check(black_box(bytes))),
            runner(|| expert(black_box(bytes))),
            #[cfg(before)]
            runner(|| before(black_box(bytes))),
        ];
        let times = race(runners);
        print!("  {name:<22}{:>10}{:>12.3}", bytes.len(), times[0]);
        times[1..].iter().for_each(|time| print!("{time:>12.3}{:>12.2}", times[0] / time));
        println!();
    }
}

/// A table of those that took turns; the first is the proved one, the last the plain pass.
fn print_times<const RUNNERS: usize>(title: &str, names: [&str; RUNNERS], times: [f64; RUNNERS]) {
    println!("{title:<24}{:>14}{:>12}{:>12}", "microseconds", "to proved", "to plain");
    for (name, time) in names.iter().zip(times) {
        println!("  {name:<22}{time:>14.1}{:>12.2}{:>12.2}", time / times[0], time / times[RUNNERS - 1]);
    }
}

fn race_checks(file: &[u8]) {
    let sum = || black_box(file).iter().map(|&byte| u64::from(byte)).sum::<u64>();
    let times = race([
        runner(|| edr::check(black_box(file))),
        runner(|| second::check::check(black_box(file))),
        runner(sum),
    ]);
    print_times("check, full quarter", ["proved", "second", "adding up the bytes"], times);
}

/// A sheet of the quarter, as it was kept.
fn kept_order() -> Order {
    sheets::order_in(&mut Random::new(1), Form::First, YEAR, QUARTER, HOURS)
}

/// The same in the present form.
fn order() -> Order {
    let mut order = kept_order();
    convert(&mut order.words).expect("it converts");
    order
}

fn proved_write(order: &Order, buffer: &mut [u8]) -> Written {
    edr::write(order.year.into(), order.quarter.into(), &order.name, &order.words, buffer)
}

/// The report that both writers give of the sheet.
fn written_file(order: &Order) -> Vec<u8> {
    let mut proved = vec![0; edr::report_length(HOURS)];
    let mut second = proved.clone();
    assert_eq!(proved_write(order, &mut proved), Written::Length(proved.len()));
    assert_eq!(second::write::write(order, &mut second), Ok(second.len()));
    assert!(proved == second, "the writers differ");
    proved
}

fn race_writers() {
    let order = &order();
    let file = &written_file(order);
    let [mut proved, mut second, mut plain] = [(); 3].map(|()| file.clone());
    let times = race([
        runner(|| proved_write(black_box(order), black_box(&mut proved))),
        runner(|| second::write::write(black_box(order), black_box(&mut second))),
        runner(|| black_box(&mut plain).copy_from_slice(black_box(file))),
    ]);
    print_times("write, full quarter", ["proved", "second", "copying the bytes"], times);
}

/// Each copies the kept sheet, which a conversion changes in its place.
fn race_conversions() {
    let kept = &kept_order().words;
    let [mut proved, mut second, mut plain] = [(); 3].map(|()| kept.clone());
    assert_eq!(edr::convert(&mut proved), Converted::Done);
    assert!(proved == order().words, "the conversions differ");
    let times = race([
        runner(|| {
            proved.copy_from_slice(black_box(kept));
            edr::convert(black_box(&mut proved))
        }),
        runner(|| {
            second.copy_from_slice(black_box(kept));
            convert(black_box(&mut second))
        }),
        runner(|| black_box(&mut plain).copy_from_slice(black_box(kept))),
    ]);
    print_times("convert, full sheet", ["proved", "second", "copying the words"], times);
}

fn race_all() {
    let files = files::all();
    files.iter().for_each(assert_answers);
    println!("{HOURS} hours in a full quarter; medians of {ROUNDS} rounds");
    race_files(&files);
    race_checks(&files[0].bytes);
    race_writers();
    race_conversions();
}

fn check_only(times: usize) {
    let file = files::full();
    for _ in 0..times {
        black_box(edr::check(black_box(&file.bytes)));
    }
}

fn write_only(times: usize) {
    let order = order();
    let mut buffer = vec![0; edr::report_length(HOURS)];
    for _ in 0..times {
        black_box(proved_write(black_box(&order), black_box(&mut buffer)));
    }
}

fn main() -> ExitCode {
    let arguments: Vec<String> = std::env::args().skip(1).collect();
    let times = arguments.get(1).and_then(|word| word.parse().ok());
    match (arguments.first().map(String::as_str), times) {
        (None, _) => race_all(),
        (Some("check-only"), Some(times)) => check_only(times),
        (Some("write-only"), Some(times)) => write_only(times),
        _ => {
            eprintln!("bench, bench check-only N or bench write-only N");
            return ExitCode::FAILURE;
        }
    }
    ExitCode::SUCCESS
}
