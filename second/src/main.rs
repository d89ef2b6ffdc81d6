//! The command line: `check`, `cases` and `list`.

use second::{cases, check, generate, list};
use std::fs;
use std::io::{self, Read};
use std::path::Path;
use std::process::ExitCode;

const USAGE: &str = "\
second check FILE            check a report (- is standard input)
second cases DIR SEED COUNT  write DIR/cases.bin and DIR/answers.txt
second list DIR              how many cases of each kind and answer are in DIR";

fn main() -> ExitCode {
    let arguments: Vec<String> = std::env::args().skip(1).collect();
    let words: Vec<&str> = arguments.iter().map(String::as_str).collect();
    let result = match words.as_slice() {
        ["check", file] => check_file(file),
        ["cases", directory, seed, count] => match (seed.parse(), count.parse()) {
            (Ok(seed), Ok(count)) => make_cases(Path::new(directory), seed, count),
            _ => Err(io::Error::other(USAGE)),
        },
        ["list", directory] => list_cases(Path::new(directory)),
        _ => Err(io::Error::other(USAGE)),
    };
    match result {
        Ok(()) => ExitCode::SUCCESS,
        Err(error) => {
            eprintln!("{error}");
            ExitCode::FAILURE
        }
    }
}

/// Checks one file and prints the answer.
fn check_file(name: &str) -> io::Result<()> {
    let mut bytes = Vec::new();
    if name == "-" {
        io::stdin().lock().read_to_end(&mut bytes)?;
    } else {
        bytes = fs::read(name)?;
    }
    println!("{}", check::check(&bytes));
    Ok(())
}

/// Makes the cases of a seed and writes them with their answers.
fn make_cases(directory: &Path, seed: u64, count: usize) -> io::Result<()> {
    let all = generate::cases(seed, count);
    let mut bytes = Vec::new();
    let mut answers = String::new();
    let mut answering = cases::Answering::default();
    for case in &all {
        case.encode(&mut bytes);
        for line in answering.answer(case) {
            answers.push_str(&line);
            answers.push('\n');
        }
    }
    fs::create_dir_all(directory)?;
    fs::write(directory.join("cases.bin"), bytes)?;
    fs::write(directory.join("answers.txt"), answers)
}

/// Prints the table of a directory's cases.
fn list_cases(directory: &Path) -> io::Result<()> {
    let bytes = fs::read(directory.join("cases.bin"))?;
    let answers = fs::read_to_string(directory.join("answers.txt"))?;
    match cases::decode(&bytes) {
        Some(all) => {
            print!("{}", list::table(&all, &answers));
            Ok(())
        }
        None => Err(io::Error::other("cases.bin is not a file of cases")),
    }
}
