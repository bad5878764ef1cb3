//! One run of a program.

use std::fs::{self, File};
use std::io::{self, Read, Write};
use std::path::PathBuf;
use std::process::{Child, ChildStdin, Command, Stdio};
use std::sync::mpsc::{self, Receiver};
use std::time::Duration;
use std::{env, fmt, process, thread};

use lister::random::Random;

use crate::Program;

/// The longest time of one run.
const LONGEST_RUN: Duration = Duration::from_secs(10);
/// The seed of the parts' lengths.
const SEED: u64 = 5;
/// The longest part that a pipe delivers at once, in bytes.
const LONGEST_PART: usize = 7;
/// The most pauses within one input, and the length of each. A reader takes what came before it.
const MOST_PAUSES: usize = 30;
const PAUSE: Duration = Duration::from_micros(200);

/// Where standard input comes from.
#[derive(Clone, Copy)]
pub enum Delivery {
    /// A file.
    File,
    /// A pipe that delivers a few bytes at a time.
    Pipe,
}

impl fmt::Display for Delivery {
    fn fmt(&self, to: &mut fmt::Formatter) -> fmt::Result {
        to.write_str(match self {
            Delivery::File => "file",
            Delivery::Pipe => "pipe",
        })
    }
}

/// A file of its own for inputs, removed in the end.
pub struct InputFile {
    path: PathBuf,
}

impl Default for InputFile {
    fn default() -> InputFile {
        let name = format!("program_{}.input", process::id());
        InputFile {
            path: env::temp_dir().join(name),
        }
    }
}

impl InputFile {
    /// The file with an input in it, opened at its beginning.
    pub fn holding(&self, input: &[u8]) -> Result<File, String> {
        let opened = fs::write(&self.path, input).and_then(|()| File::open(&self.path));
        opened.map_err(|error| format!("{}: {error}", self.path.display()))
    }
}

impl Drop for InputFile {
    fn drop(&mut self) {
        let _ = fs::remove_file(&self.path);
    }
}

/// All that a run wrote.
#[derive(Debug, PartialEq, Eq)]
pub struct Written {
    pub output: Vec<u8>,
    pub error: Vec<u8>,
}

impl Written {
    /// Nothing but this on standard output.
    pub fn output(text: &[u8]) -> Written {
        Written {
            output: text.into(),
            error: Vec::new(),
        }
    }

    /// Nothing but this on standard error.
    pub fn error(text: &str) -> Written {
        Written {
            output: Vec::new(),
            error: text.into(),
        }
    }

    /// An error with both texts where they are not as expected.
    pub fn expect(&self, expected: &Written) -> Result<(), String> {
        if self == expected {
            return Ok(());
        }
        let texts = [
            told_text("expected output", &expected.output),
            told_text("output", &self.output),
            told_text("expected error", &expected.error),
            told_text("error", &self.error),
        ];
        Err(format!("another text\n{}", texts.concat()))
    }
}

/// A text for a message: its length, and its lines with their ends made visible.
fn told_text(name: &str, text: &[u8]) -> String {
    let line = |line: &[u8]| format!("    {}\n", line.escape_ascii());
    let lines: String = text
        .split_inclusive(|byte| *byte == b'\n')
        .map(line)
        .collect();
    format!("  {name}, {} bytes:\n{lines}", text.len())
}

/// All that a program writes for an input.
pub fn written(
    program: Program,
    input: &[u8],
    delivery: Delivery,
    file: &InputFile,
) -> Result<Written, String> {
    let stdin = match delivery {
        Delivery::File => Stdio::from(file.holding(input)?),
        Delivery::Pipe => Stdio::piped(),
    };
    let mut child = start(program.command().stdin(stdin).stdout(Stdio::piped()))?;
    if let Some(pipe) = child.stdin.take() {
        let parts = parts(input);
        thread::spawn(move || deliver(pipe, &parts));
    }
    finish(child)
}

/// Runs an input in every delivery, and tells of the first difference.
pub fn compare(
    program: Program,
    label: &str,
    input: &[u8],
    file: &InputFile,
) -> Result<(), String> {
    let expected = program.expected(input);
    for delivery in [Delivery::File, Delivery::Pipe] {
        let told = |what: String| format!("{label}, from a {delivery}: {what}");
        let got = written(program, input, delivery, file).map_err(told)?;
        got.expect(&expected).map_err(told)?;
    }
    Ok(())
}

/// Starts a command whose standard error is read.
pub fn start(command: &mut Command) -> Result<Child, String> {
    let spawned = command.stderr(Stdio::piped()).spawn();
    spawned.map_err(|error| format!("{}: {error}", command.get_program().to_string_lossy()))
}

/// All that a started program writes; an error if it does not end, or ends with another exit status
/// than 0.
pub fn finish(mut child: Child) -> Result<Written, String> {
    let output = child.stdout.take().map(whole);
    let error = child.stderr.take().map(whole);
    let output = text_of(output, &mut child)?;
    let error = text_of(error, &mut child)?;
    let status = child.wait().map_err(|error| error.to_string())?;
    if !status.success() {
        return Err(format!("{status}"));
    }
    Ok(Written { output, error })
}

/// Reads a stream until it is closed, beside the run.
fn whole(mut stream: impl Read + Send + 'static) -> Receiver<io::Result<Vec<u8>>> {
    let (sender, receiver) = mpsc::channel();
    thread::spawn(move || {
        let mut text = Vec::new();
        let read = stream.read_to_end(&mut text).map(|_| text);
        let _ = sender.send(read);
    });
    receiver
}

/// What was read, nothing where no stream is; a program that takes too long is ended.
fn text_of(
    stream: Option<Receiver<io::Result<Vec<u8>>>>,
    child: &mut Child,
) -> Result<Vec<u8>, String> {
    let Some(receiver) = stream else {
        return Ok(Vec::new());
    };
    match receiver.recv_timeout(LONGEST_RUN) {
        Ok(read) => read.map_err(|error| format!("what it writes: {error}")),
        Err(_) => {
            let _ = child.kill();
            let _ = child.wait();
            Err(format!("no end within {} seconds", LONGEST_RUN.as_secs()))
        }
    }
}

/// An input cut into short parts.
fn parts(input: &[u8]) -> Vec<Vec<u8>> {
    let mut random = Random::new(SEED + input.len() as u64);
    let mut parts = Vec::new();
    let mut rest = input;
    while !rest.is_empty() {
        let length = random.between(1, LONGEST_PART).min(rest.len());
        let (part, behind) = rest.split_at(length);
        parts.push(part.to_vec());
        rest = behind;
    }
    parts
}

/// Writes the parts one by one. A program that has read enough may close the pipe before the end.
fn deliver(mut pipe: ChildStdin, parts: &[Vec<u8>]) {
    let between_pauses = parts.len().div_ceil(MOST_PAUSES);
    for (at, part) in parts.iter().enumerate() {
        if at % between_pauses == 0 {
            thread::sleep(PAUSE);
        }
        let written = pipe.write_all(part).and_then(|()| pipe.flush());
        if written.is_err() {
            return;
        }
    }
    thread::sleep(PAUSE);
}
