//! Runs of a built program that reads a plan from standard input and prints a text, for the tests of such programs.

pub mod failures;
pub mod run;

use std::process::{Command, ExitCode};

use lister::load_cases::Input;
use run::Written;

/// A built program, and what it has to print.
#[derive(Clone, Copy)]
pub struct Program<'a> {
    pub path: &'a str,
    /// The first word of its messages.
    pub name: &'a str,
    pub arguments: &'a [&'a str],
    /// The text for an input.
    pub text: &'a dyn Fn(&[u8]) -> String,
}

impl Program<'_> {
    /// The program with its arguments.
    pub fn command(&self) -> Command {
        let mut command = Command::new(self.path);
        command.args(self.arguments);
        command
    }

    /// What the program has to print for an input, and nothing else.
    pub fn expected(&self, input: &[u8]) -> Written {
        Written::output((self.text)(input).as_bytes())
    }

    /// One message of the program, and nothing else.
    pub fn message(&self, what: &str) -> Written {
        Written::error(&format!("{}: {what}\n", self.name))
    }
}

/// Inputs far beyond the limits, two of them beyond what a pipe holds.
pub fn long_inputs() -> Vec<Input> {
    let input = |length: usize, byte: u8| Input {
        label: format!("{length} bytes of {byte}"),
        bytes: vec![byte; length],
        stated: Some(2),
    };
    vec![
        input(49_152, 0),
        input(49_153, 1),
        input(100_000, 0),
        input(100_000, 255),
    ]
}

/// The exit status of the runs of a program; prints a line for each kind, or tells of the first difference.
pub fn concluded(path: &str, runs: Result<Vec<String>, String>) -> ExitCode {
    match runs {
        Ok(lines) => {
            lines.iter().for_each(|line| println!("{path}: {line}"));
            ExitCode::SUCCESS
        }
        Err(message) => {
            eprintln!("{path}: {message}");
            ExitCode::FAILURE
        }
    }
}

/// The exit status of a call with other words than the usage names.
pub fn unused(usage: &str) -> ExitCode {
    eprintln!("{usage}");
    ExitCode::from(2)
}
