//! planconv: a plan's lines from standard input to bytes on standard output, and back; a plan in the old
//! format to one of twice as many records; a plan's first fault as a sentence; the names among its lines.

use std::env;
use std::io::{self, Read, Write};
use std::process::ExitCode;

use planconv::{double, explain, name_lines, names, to_bytes, to_lines, Fault, Sizes};

const USAGE: &str = "usage:
  planconv to-bytes < lines > plan     lines \"slot a b\" to records of 6 bytes
  planconv to-lines < plan > lines     records of 6 bytes to lines
  planconv double < old > plan         each contact of a plan in the old format to two records
  planconv explain < plan              the first fault of a plan, as a sentence; within the load program's limits
  planconv explain N T < plan          the same with N stations and T slots, within the operations' limits
  planconv names < lines               the names of stations in remarks \"# station 3 weir mast\"";

fn main() -> ExitCode {
    match run() {
        Ok(()) => ExitCode::SUCCESS,
        Err(message) => {
            eprintln!("{message}");
            ExitCode::FAILURE
        }
    }
}

/// A number that is written in decimal digits alone.
fn decimal(word: &str) -> Option<usize> {
    let digits = word.bytes().all(|byte| byte.is_ascii_digit());
    digits.then(|| word.parse().ok())?
}

/// What is made of the input.
type Conversion = Box<dyn Fn(&[u8]) -> Result<Vec<u8>, Fault>>;

/// The conversion that the words ask for.
fn conversion(words: &[&str]) -> Option<Conversion> {
    Some(match words {
        ["to-bytes"] => Box::new(to_bytes),
        ["to-lines"] => Box::new(|bytes| to_lines(bytes).map(String::into_bytes)),
        ["double"] => Box::new(double),
        ["explain"] => Box::new(|bytes| Ok(explain(bytes, None).into_bytes())),
        ["explain", n, t] => {
            let (stations, slots) = (decimal(n)?, decimal(t)?);
            let given = Some(Sizes { stations, slots });
            Box::new(move |bytes| Ok(explain(bytes, given).into_bytes()))
        }
        ["names"] => Box::new(|text| Ok(name_lines(&names(text)?).into_bytes())),
        _ => return None,
    })
}

/// Converts all of the input, and only then writes.
fn run() -> Result<(), String> {
    let words: Vec<String> = env::args().skip(1).collect();
    let words: Vec<&str> = words.iter().map(String::as_str).collect();
    let convert = conversion(&words).ok_or(USAGE)?;
    let mut input = Vec::new();
    let read = io::stdin().read_to_end(&mut input);
    read.map_err(|error| format!("standard input: {error}"))?;
    let output = convert(&input).map_err(|fault| fault.to_string())?;
    let mut stdout = io::stdout().lock();
    let written = stdout.write_all(&output).and_then(|()| stdout.flush());
    written.map_err(|error| format!("standard output: {error}"))
}
