//! Runs a built load program with turnaround g on the lister's inputs and on inputs that are much too long, and
//! compares all that it prints with what the lister prints. Each input comes from a file, and then through a
//! pipe that delivers a few bytes at a time. Then it runs the program where a read or a write fails, and on the inputs
//! of a folder, whose expected outputs stand there.

mod recorded;

use std::env;
use std::process::ExitCode;

use lister::load_cases::all_inputs;
use lister::load_program::load_text;
use load_program::run::{compare, InputFile};
use load_program::{concluded, failures, long_inputs, unused, Program};

const USAGE: &str = "usage: load_program PROGRAM g [DIR]";

fn main() -> ExitCode {
    let words: Vec<String> = env::args().skip(1).collect();
    let words: Vec<&str> = words.iter().map(String::as_str).collect();
    let (path, turnaround, folder) = match words[..] {
        [path, turnaround] => (path, turnaround, None),
        [path, turnaround, folder] => (path, turnaround, Some(folder)),
        _ => return unused(USAGE),
    };
    let Ok(turnaround) = turnaround.parse() else {
        return unused(USAGE);
    };
    concluded(path, run_all(path, turnaround, folder))
}

/// All runs of a program with turnaround g; answers a line for each kind, or tells of the first difference.
fn run_all(path: &str, g: usize, folder: Option<&str>) -> Result<Vec<String>, String> {
    let program = Program {
        path,
        name: "load",
        arguments: &[],
        text: &|input| load_text(g, input),
    };
    let inputs = compare_all(program)?;
    let mut lines = vec![format!(
        "{inputs} inputs from a file and through a pipe, as the lister answers them with g {g}"
    )];
    let failures = failures::all(program)?;
    lines.push(format!(
        "{failures} failures of reading and writing, as they are to be told"
    ));
    if let Some(folder) = folder {
        let cases = recorded::compare(program, folder)?;
        lines.push(format!("{cases} cases of {folder}, byte for byte"));
    }
    Ok(lines)
}

/// Runs every input in every delivery; answers their number, or tells of the first difference.
fn compare_all(program: Program) -> Result<usize, String> {
    let mut inputs = all_inputs();
    inputs.extend(long_inputs());
    let file = InputFile::default();
    for input in &inputs {
        compare(program, &input.label, &input.bytes, &file)?;
    }
    Ok(inputs.len())
}
