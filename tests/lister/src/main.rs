//! Subcommands of the plain lister.

use std::io::Read;
use std::process::ExitCode;
use std::{fs, io};

use lister::account::{account_text, MOST_SHOWN};
use lister::files::{stdin_bytes, stdout_text, Filed};
use lister::load_program::load_text;
use lister::means::LISTED;
use lister::plan::{PlanInput, KEPT};
use lister::show::{
    drawn_text, foremost_text, loads_text, pair_text, partial_text, reach_text, reading_text,
    set_text, struck_text, text_of, verdict_text,
};
use lister::{
    account_cases, band_cases, cases, drawn_cases, foremost_cases, load_cases, pair_cases,
    partial_cases, program, reach_cases, record_cases, set_cases, struck_cases, verdict_cases,
    way_cases,
};

const USAGE: &str = "usage:
  lister check-cases DIR         write DIR/stdin and DIR/stdout, cases of check
  lister reach-cases DIR         write DIR/stdin and DIR/stdout, cases of reach and row
  lister load-cases DIR          write DIR/stdin and DIR/stdout, cases of the load programs
  lister one-slot-cases DIR      write DIR/stdin and DIR/stdout, cases of the load program with g = 1
  lister load-text g < input     what the load program with turnaround g prints
  lister account-cases DIR       write DIR/stdin and DIR/stdout, cases of the account of a station
  lister account-text g V k < input
      the account of station V with turnaround g and up to k walks of each pair
  lister pair-cases DIR          write DIR/stdin and DIR/stdout, cases of pair, loads and busiest
  lister way-cases DIR           write DIR/stdin and DIR/stdout, cases of first way and next way
  lister set-cases DIR           write DIR/stdin and DIR/stdout, cases of through set
  lister foremost-cases DIR      write DIR/stdin and DIR/stdout, cases of foremost
  lister partial-cases DIR       write DIR/stdin and DIR/stdout, cases of partial loads
  lister verdict-cases DIR       write DIR/stdin and DIR/stdout, cases of the verdict
  lister band-cases DIR          write DIR/stdin and DIR/stdout, cases of take in and take out
  lister struck-cases DIR        write DIR/stdin and DIR/stdout, cases of struck out
  lister drawn-cases DIR         write DIR/stdin and DIR/stdout, cases of drawn loads
  lister record-cases DIR        write DIR/stdin and DIR/stdout, cases of reading a record
  lister show n T g h s z < plan
      hops, count, through counts and shortest walks of s, z with turnaround g, where a reading is kept for h slots
  lister foremost n T g s z < plan
      slot, hops, count, through counts and shortest foremost paths of s, z
  lister reach n T g h s < plan  hops and count of each station from s, and the stations' rows
  lister loads n T g h < plan    pairs and load of each station
  lister partial n T g h k < plan
      the same over the sources below k, and what the loads may be more
  lister struck n T g h position < plan
      how many pairs use the contact at the position, and the changes of load without it
  lister drawn n T g h < plan    the record of each station, and what is read back of it
  lister reading HEX             what is read back of bytes, each of two hexadecimal digits
  lister set n T g h s z V.. < plan
      how many shortest walks of s, z have one of the stations V interior
  lister verdict n T g h s z P.. < plan
      the verdict on the list of positions P";

fn main() -> ExitCode {
    program::exit(run)
}

fn run(words: &[&str]) -> Result<(), String> {
    match words {
        ["check-cases", directory] => write_files(directory, &cases::all_cases()),
        ["reach-cases", directory] => write_files(directory, &reach_cases::all_cases()),
        ["load-cases", directory] => write_files(directory, &load_cases::all_cases()),
        ["one-slot-cases", directory] => write_files(directory, &load_cases::one_slot_cases()),
        ["load-text", g] => {
            print!("{}", load_text(decimal(g)?, &standard_input()?));
            Ok(())
        }
        ["account-cases", directory] => write_files(directory, &account_cases::all_cases()),
        ["account-text", g, station, number] => {
            let (g, station, number) = (decimal(g)?, decimal(station)?, shown(number)?);
            let text = account_text(g, &standard_input()?, station, number);
            print!("{text}");
            Ok(())
        }
        ["pair-cases", directory] => write_files(directory, &pair_cases::all_cases()),
        ["way-cases", directory] => write_files(directory, &way_cases::all_cases()),
        ["set-cases", directory] => write_files(directory, &set_cases::all_cases()),
        ["foremost-cases", directory] => write_files(directory, &foremost_cases::all_cases()),
        ["partial-cases", directory] => write_files(directory, &partial_cases::all_cases()),
        ["verdict-cases", directory] => write_files(directory, &verdict_cases::all_cases()),
        ["band-cases", directory] => write_files(directory, &band_cases::all_cases()),
        ["struck-cases", directory] => write_files(directory, &struck_cases::all_cases()),
        ["drawn-cases", directory] => write_files(directory, &drawn_cases::all_cases()),
        ["record-cases", directory] => write_files(directory, &record_cases::all_cases()),
        ["show", n, t, g, h, source, destination] => {
            let ends = (decimal(source)?, decimal(destination)?);
            print_for_plan([n, t, g, h], |input| text_of(pair_text(input, ends)))
        }
        ["foremost", n, t, g, source, destination] => {
            let ends = (decimal(source)?, decimal(destination)?);
            let kept = KEPT.to_string();
            print_for_plan([n, t, g, &kept], |input| {
                text_of(foremost_text(input, ends))
            })
        }
        ["loads", n, t, g, h] => {
            print_for_plan([n, t, g, h], |input| text_of(loads_text(LISTED, input)))
        }
        ["partial", n, t, g, h, sources] => {
            let sources = decimal(sources)?;
            print_for_plan([n, t, g, h], |input| text_of(partial_text(input, sources)))
        }
        ["struck", n, t, g, h, position] => {
            let position = decimal(position)?;
            print_for_plan([n, t, g, h], |input| text_of(struck_text(input, position)))
        }
        ["drawn", n, t, g, h] => print_for_plan([n, t, g, h], |input| text_of(drawn_text(input))),
        ["reading", digits] => {
            print!("{}", reading_text(&hexadecimal(digits)?));
            Ok(())
        }
        [word @ ("set" | "verdict"), n, t, g, h, source, destination, further @ ..] => {
            let ends = (decimal(source)?, decimal(destination)?);
            let further: Vec<usize> = further
                .iter()
                .map(|number| decimal(number))
                .collect::<Result<_, _>>()?;
            let text = match *word {
                "set" => set_text,
                _ => verdict_text,
            };
            print_for_plan([n, t, g, h], |input| text_of(text(input, ends, &further)))
        }
        ["reach", n, t, g, h, source] => {
            let source = decimal(source)?;
            print_for_plan([n, t, g, h], |input| text_of(reach_text(input, source)))
        }
        _ => Err(USAGE.to_string()),
    }
}

fn write_files(directory: &str, cases: &[impl Filed]) -> Result<(), String> {
    let write = |name: &str, bytes: &[u8]| {
        let file = format!("{directory}/{name}");
        fs::write(&file, bytes).map_err(|error| format!("{file}: {error}"))
    };
    write("stdin", &stdin_bytes(cases))?;
    write("stdout", stdout_text(cases).as_bytes())
}

fn standard_input() -> Result<Vec<u8>, String> {
    let mut bytes = Vec::new();
    let read = io::stdin().read_to_end(&mut bytes);
    read.map_err(|error| format!("standard input: {error}"))?;
    Ok(bytes)
}

/// Prints the text of a call on the plan of standard input, with n, T, g and h from words.
fn print_for_plan(
    [n, t, g, h]: [&str; 4],
    text: impl Fn(PlanInput) -> String,
) -> Result<(), String> {
    let (stations, slots) = (decimal(n)?, decimal(t)?);
    let (turnaround, keeping) = (decimal(g)?, decimal(h)?);
    let bytes = standard_input()?;
    let input = PlanInput {
        bytes: &bytes,
        stations,
        slots,
        turnaround,
        keeping,
    };
    print!("{}", text(input));
    Ok(())
}

/// Bytes of two hexadecimal digits each.
fn hexadecimal(digits: &str) -> Result<Vec<u8>, String> {
    let wrong = || format!("not bytes in hexadecimal: {digits}");
    let digit = |digit: char| digit.to_digit(16).map(|value| value as u8);
    let values: Option<Vec<u8>> = digits.chars().map(digit).collect();
    let values = values.filter(|values| values.len() % 2 == 0);
    let values = values.ok_or_else(wrong)?;
    Ok(values
        .chunks_exact(2)
        .map(|two| 16 * two[0] + two[1])
        .collect())
}

/// A number of walks that an account can have.
fn shown(word: &str) -> Result<usize, String> {
    let number = decimal(word)?;
    match number <= MOST_SHOWN {
        true => Ok(number),
        false => Err(format!("above {MOST_SHOWN}: {word}")),
    }
}

fn decimal(word: &str) -> Result<usize, String> {
    let number = word.parse();
    number.map_err(|_| format!("not a number: {word}"))
}
