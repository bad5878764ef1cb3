//! Runs a built program that prints the account of a station, with turnaround g: with wrong arguments, where a read or a
//! write fails, and on the lister's inputs, stations and numbers of walks. There it compares all that it prints with
//! what the lister prints; each input comes from a file, and then through a pipe that delivers a few bytes at a time.
//! Or it runs the program on plans that are drawn instead.

mod arguments;
mod asked;
mod generated;

use std::collections::BTreeSet;
use std::env;
use std::process::ExitCode;

use asked::Asked;
use lister::account_cases::all_cases;
use lister::load_cases::cycle;
use lister::load_program::MOST_SLOTS;
use load_program::run::{compare, InputFile};
use load_program::{concluded, failures, long_inputs, unused};

const USAGE: &str = "usage: why_program PROGRAM g [generated ROUNDS SEED]";

/// The arguments where reading or writing fails.
const FAILING: Asked = Asked {
    station: "3",
    number: "8",
};

/// The arguments with which a cycle in odd slots has a text that no pipe holds, where g is 1 or 2.
const LONG: Asked = Asked {
    station: "16",
    number: "8",
};

fn main() -> ExitCode {
    let words: Vec<String> = env::args().skip(1).collect();
    let words: Vec<&str> = words.iter().map(String::as_str).collect();
    let number = |word: &str| word.parse::<usize>().ok();
    let runs = match words[..] {
        [path, g] => number(g).map(|g| (path, all_runs(path, g))),
        [path, g, "generated", rounds, seed] => number(g)
            .zip(number(rounds).zip(number(seed)))
            .map(|(g, (rounds, seed))| (path, generated::runs(path, g, rounds, seed))),
        _ => None,
    };
    match runs {
        Some((path, runs)) => concluded(path, runs),
        None => unused(USAGE),
    }
}

/// All runs but the drawn ones; answers a line for each kind, or tells of the first difference.
fn all_runs(path: &str, g: usize) -> Result<Vec<String>, String> {
    let wrong = arguments::wrong(path, g)?;
    let unusual = arguments::unusual(path, g)?;
    let failures = FAILING.with_program(path, g, failures::all)?;
    let long = cycle((1..=MOST_SLOTS).step_by(2));
    LONG.with_program(path, g, |program| {
        let told = |what: String| format!("an interrupted write: {what}");
        failures::interrupted_write(program, &long).map_err(told)
    })?;
    let accounts = compare_all(path, g)?;
    Ok(vec![
        format!("{wrong} wrong lists of arguments, told before anything is read"),
        format!("{unusual} further arguments, as the lister answers them"),
        format!("{failures} failures of reading and writing, as they are to be told"),
        "an interrupted write, and all of the output".to_string(),
        format!(
            "{accounts} accounts from a file and through a pipe, as the lister gives them with g {g}"
        ),
    ])
}

/// Runs every account in every delivery; answers their number, or tells of the first difference. What the cases have
/// with several turnarounds is run once, with g.
fn compare_all(path: &str, g: usize) -> Result<usize, String> {
    let cases = all_cases().into_iter();
    let cases = cases.map(|case| (case.label, case.bytes, [case.station, case.number]));
    let long = long_inputs().into_iter();
    let long = long.map(|input| (input.label, input.bytes, [0, 8]));
    let file = InputFile::default();
    let mut seen = BTreeSet::new();
    for (label, bytes, words) in cases.chain(long) {
        if !seen.insert((bytes.clone(), words)) {
            continue;
        }
        let [station, number] = words.map(|word| word.to_string());
        let asked = Asked {
            station: &station,
            number: &number,
        };
        asked.with_program(path, g, |program| {
            compare(program, &format!("the input of {label}"), &bytes, &file)
        })?;
    }
    Ok(seen.len())
}
