//! planpage: a plan from standard input to a page on standard output.

use std::env;
use std::io::{self, Read, Write};
use std::process::ExitCode;

use planconv::{names, to_bytes, Names};
use planpage::page::{page, refusal_line, refused_page};
use planpage::plan::{Plan, Units};
use planpage::survey::Survey;

const USAGE: &str = "usage:
  planpage [--lines] [--older-units] < plan > page.html
    --lines        the plan is lines \"slot a b\", with names in remarks \"# station 3 weir mast\"; else it is bytes
    --older-units  the units turn round in one slot; else in two";

/// The exit status where the plan is refused and its page says so, and where there is no page.
const REFUSED: u8 = 1;
const NO_PAGE: u8 = 2;

/// What the words ask for.
struct Asked {
    lines: bool,
    units: Units,
}

fn main() -> ExitCode {
    match run() {
        Ok(None) => ExitCode::SUCCESS,
        Ok(Some(refusal)) => {
            eprintln!("{refusal}");
            ExitCode::from(REFUSED)
        }
        Err(message) => {
            eprintln!("{message}");
            ExitCode::from(NO_PAGE)
        }
    }
}

/// The options, in any order.
fn asked() -> Result<Asked, String> {
    let mut asked = Asked {
        lines: false,
        units: Units::Now,
    };
    for word in env::args().skip(1) {
        match word.as_str() {
            "--lines" => asked.lines = true,
            "--older-units" => asked.units = Units::Older,
            _ => return Err(USAGE.to_string()),
        }
    }
    Ok(asked)
}

/// The bytes of the plan and the stations' names.
fn read(lines: bool) -> Result<(Vec<u8>, Names), String> {
    let mut input = Vec::new();
    let read = io::stdin().read_to_end(&mut input);
    read.map_err(|error| format!("standard input: {error}"))?;
    if !lines {
        return Ok((input, Names::new()));
    }
    let names = names(&input).map_err(|fault| fault.to_string())?;
    let bytes = to_bytes(&input).map_err(|fault| fault.to_string())?;
    Ok((bytes, names))
}

/// What is added where bytes are refused that look like lines: no record of a plan begins with a digit or a remark.
fn hint(asked: &Asked, first: Option<u8>) -> &'static str {
    let begins_line =
        |byte: u8| byte == b'#' || byte.is_ascii_digit() || byte.is_ascii_whitespace();
    match first {
        Some(byte) if !asked.lines && begins_line(byte) => {
            " (is the input lines? they need --lines)"
        }
        _ => "",
    }
}

/// The page, and the line for a plan that is refused.
fn made(asked: &Asked) -> Result<(String, Option<String>), String> {
    let (bytes, names) = read(asked.lines)?;
    let hint = hint(asked, bytes.first().copied());
    let plan = Plan::new(bytes, names.clone(), asked.units);
    let surveyed = plan.and_then(|plan| match Survey::new(&plan) {
        Ok(survey) => Ok((plan, survey)),
        Err(number) => Err(plan.refused(number)),
    });
    match surveyed {
        Ok((_, survey)) if !survey.adds_up() => Err("the accounts are not the loads".to_string()),
        Ok((plan, survey)) => Ok((page(&plan, &survey), None)),
        Err(refusal) => {
            let line = refusal_line(&refusal, &names) + hint;
            Ok((refused_page(&refusal, &names), Some(line)))
        }
    }
}

/// Makes the page, and only then writes; the line for a plan that is refused is left to say.
fn run() -> Result<Option<String>, String> {
    let (page, refusal) = made(&asked()?)?;
    let mut stdout = io::stdout().lock();
    let written = stdout
        .write_all(page.as_bytes())
        .and_then(|()| stdout.flush());
    written.map_err(|error| format!("standard output: {error}"))?;
    Ok(refusal)
}
