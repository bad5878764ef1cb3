//! Times loads, pair, whole listings and verdicts of libjoftaki_c.a beside the same passes in Rust, or beside
//! another archive, and struck out and drawn loads beside loads, and prints the tables of docs/PERFORMANCE.md.

mod against;
mod beside;
mod clock;
mod drawn;
mod instructions;
mod keepings;
mod library;
mod measure;
mod native;
mod plans;
mod question;
mod side;
mod struck;
mod tables;

use std::process::ExitCode;

use lister::program;

const USAGE: &str = "usage:
  bench                            all tables of times
  bench quick                      fewer plans and runs
  bench against OTHER              the archive beside that of OTHER, another built bench; both keep every reading,
                                   also where OTHER's archive takes no h
  bench vary OTHER                 loads of both archives for several g and h, and as records, n and T grow
  bench keepings SOURCES           partial loads of so many sources for several h beside h = 255
  bench serve QUESTION PLAN        times of the archive, one for each line of the input
  bench instructions               instructions of both sides, counted by valgrind
  bench once SIDE QUESTION PLAN    one run of one side, for a tool that watches it";

fn main() -> ExitCode {
    program::exit(run)
}

fn run(words: &[&str]) -> Result<(), String> {
    match words {
        [] => tables::all(),
        ["quick"] => tables::quick(),
        ["against", other] => against::named_plans(other)?,
        ["vary", other] => against::varied_plans(other)?,
        ["keepings", sources] => {
            let sources = sources.parse().map_err(|_| USAGE.to_string())?;
            keepings::table(sources)?;
        }
        ["serve", question, plan] => against::serve(question, plan)?,
        ["instructions"] => instructions::table()?,
        ["once", side, question, plan] => instructions::once(side, question, plan)?,
        _ => return Err(USAGE.to_string()),
    }
    Ok(())
}
