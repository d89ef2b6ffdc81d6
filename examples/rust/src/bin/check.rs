//! `check FILE...`: the proved check on files, up to full quarters, with what each refusal means and an exit status.

use std::ffi::{OsStr, OsString};
use std::fmt::Display;
use std::fs::File;
use std::io::{self, ErrorKind, Read, Write};
use std::process::ExitCode;

use edr::Answer;

const HELP: &str = "\
check FILE...
Checks quarterly stack reports; - is standard input. For each it prints one of

  accepted HOURS SO2 CO2 HEAT RATE NOX   operating hours; SO2 tons, CO2 tons and heat input (mmBtu) in tenths;
                                         mean NOx rate (lb/mmBtu) in thousandths; NOx tons in tenths
  refused NUMBER LINE                    the refusal and its line, 0 for the whole file; below it what that means

behind the file's name where there are several. The exit status is 0 if all are accepted, 1 if some are
refused, 2 if a file cannot be read, an answer cannot be printed or the call is wrong.
";

/// More than any report has, so that an input without end does not fill the memory.
const MOST_BYTES: u64 = 1 << 24;

/// How the program ends; the highest of several counts.
const ACCEPTED: u8 = 0;
const REFUSED: u8 = 1;
const UNDONE: u8 = 2;

/// What is asked for.
enum Asked {
    Help,
    Files(Vec<OsString>),
    Wrong(String),
}

fn asked(words: impl Iterator<Item = OsString>) -> Asked {
    let mut files = Vec::new();
    let mut options = true;
    for word in words {
        match word.to_str() {
            Some("--help" | "-h") if options => return Asked::Help,
            Some("--") if options => options = false,
            Some(text) if options && text.len() > 1 && text.starts_with('-') => {
                return Asked::Wrong(format!("there is no option {text}"))
            }
            _ => files.push(word),
        }
    }
    match files.len() {
        0 => Asked::Wrong("no file is named".into()),
        _ => Asked::Files(files),
    }
}

/// The bytes of a file, or of standard input.
fn read(name: &OsStr) -> io::Result<Vec<u8>> {
    let source: Box<dyn Read> = match name.to_str() {
        Some("-") => Box::new(io::stdin()),
        _ => Box::new(File::open(name)?),
    };
    let mut bytes = Vec::new();
    source.take(MOST_BYTES + 1).read_to_end(&mut bytes)?;
    match bytes.len() as u64 > MOST_BYTES {
        true => Err(io::Error::new(ErrorKind::InvalidInput, "it is longer than 16 MiB, and no report is")),
        false => Ok(bytes),
    }
}

/// Prints the program's line, behind the file's name if one is given, and below it what a refusal means.
fn print(out: &mut impl Write, name: Option<&OsStr>, answer: Answer) -> io::Result<()> {
    if let Some(name) = name {
        out.write_all(name.as_encoded_bytes())?;
        out.write_all(b": ")?;
    }
    writeln!(out, "{answer}")?;
    if let Answer::Refused { number, .. } = answer {
        writeln!(out, "    {}", edr::meaning(number))?;
    }
    Ok(())
}

/// Says on standard error what is wrong; if that cannot be said either, the exit status tells.
fn complain(subject: impl Display, what: impl Display) {
    let _ = writeln!(io::stderr(), "check: {subject}: {what}");
}

/// Checks each file. Fails only where an answer cannot be printed.
fn check_files(out: &mut impl Write, files: &[OsString]) -> io::Result<u8> {
    let mut status = ACCEPTED;
    for name in files {
        match read(name) {
            Ok(report) => {
                let answer = edr::check(&report);
                print(out, Some(name.as_os_str()).filter(|_| files.len() > 1), answer)?;
                if let Answer::Refused { .. } = answer {
                    status = status.max(REFUSED);
                }
            }
            Err(error) => {
                complain(name.to_string_lossy(), error);
                status = UNDONE;
            }
        }
    }
    out.flush()?;
    Ok(status)
}

fn main() -> ExitCode {
    let out = &mut io::stdout().lock();
    let done = match asked(std::env::args_os().skip(1)) {
        Asked::Help => out.write_all(HELP.as_bytes()).and_then(|()| out.flush()).map(|()| ACCEPTED),
        Asked::Files(files) => check_files(out, &files),
        Asked::Wrong(what) => {
            complain(what, "check --help says what there is");
            Ok(UNDONE)
        }
    };
    ExitCode::from(done.unwrap_or_else(|error| {
        if error.kind() != ErrorKind::BrokenPipe {
            complain("standard output", error);
        }
        UNDONE
    }))
}
