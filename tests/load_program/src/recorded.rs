//! The inputs of a folder, whose expected outputs stand there. A case of its file `stdin`: the length of the label and
//! the length of the input, each 16 bits, high byte first; the label; the input. Its file `stdout` has for each case
//! the label, a colon, a line feed, and all that the program prints.

use std::fs;

use load_program::run::{written, Delivery, InputFile, Written};
use load_program::Program;

/// Runs the program on every input of a folder; answers their number, or tells of the first difference.
pub fn compare(program: Program, folder: &str) -> Result<usize, String> {
    let read = |name: &str| {
        let file = format!("{folder}/{name}");
        fs::read(&file).map_err(|error| format!("{file}: {error}"))
    };
    let (stdin, stdout) = (read("stdin")?, read("stdout")?);
    let cut_off = || format!("{folder}/stdin: the last case is cut off");
    let file = InputFile::default();
    let (mut rest, mut expected) = (stdin.as_slice(), stdout.as_slice());
    let mut cases = 0;
    while !rest.is_empty() {
        let (label, input) = take_case(&mut rest).ok_or_else(cut_off)?;
        let told = |what: String| format!("{}, of {folder}: {what}", label.escape_ascii());
        let got = written(program, input, Delivery::File, &file).map_err(told)?;
        let text = [label, b":\n", &got.output].concat();
        let (front, behind) = expected.split_at(text.len().min(expected.len()));
        let got = Written {
            output: text,
            ..got
        };
        got.expect(&Written::output(front)).map_err(told)?;
        expected = behind;
        cases += 1;
    }
    match (cases, expected.len()) {
        (0, _) => Err(format!("{folder}: no case")),
        (_, 0) => Ok(cases),
        (_, more) => Err(format!("{folder}: {more} expected bytes behind all cases")),
    }
}

/// Takes the label and the input of a case off the front.
fn take_case<'a>(rest: &mut &'a [u8]) -> Option<(&'a [u8], &'a [u8])> {
    let [label, input] = [take_length(rest)?, take_length(rest)?];
    Some((take(rest, label)?, take(rest, input)?))
}

fn take_length(rest: &mut &[u8]) -> Option<usize> {
    let bytes = take(rest, 2)?.try_into().ok()?;
    Some(u16::from_be_bytes(bytes).into())
}

fn take<'a>(rest: &mut &'a [u8], length: usize) -> Option<&'a [u8]> {
    let (front, behind) = rest.split_at_checked(length)?;
    *rest = behind;
    Some(front)
}
