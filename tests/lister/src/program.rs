//! What the programs of the tests share.

use std::env;
use std::process::ExitCode;

/// Runs a program on its words; a message goes to standard error, and the exit status is then 2.
pub fn exit(run: impl Fn(&[&str]) -> Result<(), String>) -> ExitCode {
    let words: Vec<String> = env::args().skip(1).collect();
    let words: Vec<&str> = words.iter().map(String::as_str).collect();
    match run(&words) {
        Ok(()) => ExitCode::SUCCESS,
        Err(message) => {
            eprintln!("{message}");
            ExitCode::from(2)
        }
    }
}
