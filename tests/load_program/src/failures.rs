//! Reads and writes that fail: one line on standard error, and after a failed read nothing on standard
//! output.

use std::fs::{self, File, OpenOptions};
use std::io::Write;
use std::os::fd::OwnedFd;
use std::os::unix::net::UnixStream;
use std::path::Path;
use std::process::{Child, Command, Stdio};
use std::time::Duration;
use std::{env, io, thread};

use crate::run::{finish, start, InputFile, Written};
use crate::Program;

/// Plan A of document 01, doubled.
pub const PLAN_A: &[u8] = include_bytes!("../../plans/a.plan");
/// The length of a beginning of it that is a plan too.
const BEGINNING: usize = 48;
/// The device to which every write fails.
const FULL: &str = "/dev/full";
/// The bytes that a pipe holds before a write to it waits.
const PIPE_HOLDS: usize = 65_536;
/// The pause between two looks at a program's state, and the most looks.
const LOOK: Duration = Duration::from_millis(5);
const MOST_LOOKS: usize = 1_000;
/// A limit that no read of a test reaches; a read with a limit is interrupted by a stop.
const READ_LIMIT: Duration = Duration::from_secs(60);

/// Runs the program once, and tells of a difference.
type Case = fn(Program) -> Result<(), String>;

/// Runs every failure; answers their number, or tells of the first difference.
pub fn all(program: Program) -> Result<usize, String> {
    let cases: [(&str, Case); 8] = [
        ("closed standard input", closed_input),
        ("a directory as standard input", directory),
        ("a first read that fails", |program| {
            failing_after(program, 0)
        }),
        ("a read that fails behind a plan", |program| {
            failing_after(program, BEGINNING)
        }),
        ("an interrupted read", interrupted),
        ("a full device as standard output", full_output),
        ("closed standard output", closed_output),
        ("closed standard input and output", both_closed),
    ];
    for (label, case) in &cases {
        case(program).map_err(|what| format!("{label}: {what}"))?;
    }
    Ok(cases.len())
}

/// Nothing but the line that tells of a failed read.
fn not_read(program: Program) -> Written {
    program.message("reading standard input failed")
}

/// Nothing but the line that tells of a failed write.
fn not_written(program: Program) -> Written {
    program.message("writing standard output failed")
}

fn told(error: io::Error) -> String {
    error.to_string()
}

/// Runs the program from a shell, which closes what the redirections say.
pub fn redirected(program: Program, redirections: &str, stdin: Stdio) -> Result<Written, String> {
    let path = fs::canonicalize(program.path).map_err(told)?;
    let mut shell = Command::new("sh");
    shell.args(["-c", &format!("exec \"$0\" \"$@\" {redirections}")]);
    shell.arg(path).args(program.arguments);
    finish(start(shell.stdin(stdin).stdout(Stdio::piped()))?)
}

fn closed_input(program: Program) -> Result<(), String> {
    redirected(program, "<&-", Stdio::null())?.expect(&not_read(program))
}

fn both_closed(program: Program) -> Result<(), String> {
    redirected(program, "<&- >&-", Stdio::null())?.expect(&not_read(program))
}

fn closed_output(program: Program) -> Result<(), String> {
    let file = InputFile::default();
    let stdin = file.holding(PLAN_A)?.into();
    redirected(program, ">&-", stdin)?.expect(&not_written(program))
}

/// Runs the program with the given standard input and output.
pub fn started(program: Program, stdin: Stdio, stdout: Stdio) -> Result<Child, String> {
    start(program.command().stdin(stdin).stdout(stdout))
}

fn directory(program: Program) -> Result<(), String> {
    let directory = File::open(env::temp_dir()).map_err(told)?;
    let child = started(program, directory.into(), Stdio::piped())?;
    finish(child)?.expect(&not_read(program))
}

fn full_output(program: Program) -> Result<(), String> {
    let file = InputFile::default();
    let stdin = file.holding(PLAN_A)?.into();
    let full = OpenOptions::new().write(true).open(FULL).map_err(told)?;
    finish(started(program, stdin, full.into())?)?.expect(&not_written(program))
}

/// Two ends of a connection: one to write to, and one for the program's standard input.
pub fn connection() -> Result<(UnixStream, UnixStream), String> {
    UnixStream::pair().map_err(told)
}

/// The connection stays open and does not wait, so the read behind the first bytes fails.
fn failing_after(program: Program, bytes: usize) -> Result<(), String> {
    let (mut ours, theirs) = connection()?;
    theirs.set_nonblocking(true).map_err(told)?;
    ours.write_all(&PLAN_A[..bytes]).map_err(told)?;
    let child = started(program, OwnedFd::from(theirs).into(), Stdio::piped())?;
    finish(child)?.expect(&not_read(program))
}

/// The program is stopped and goes on while it waits for the rest of the input; it reads all of it.
fn interrupted(program: Program) -> Result<(), String> {
    let (mut ours, theirs) = connection()?;
    theirs.set_read_timeout(Some(READ_LIMIT)).map_err(told)?;
    ours.write_all(&PLAN_A[..BEGINNING]).map_err(told)?;
    let child = started(program, OwnedFd::from(theirs).into(), Stdio::piped())?;
    interrupt(child.id())?;
    ours.write_all(&PLAN_A[BEGINNING..]).map_err(told)?;
    drop(ours);
    finish(child)?.expect(&program.expected(PLAN_A))
}

/// Stops a process that waits for its input or its output, and lets it go on.
fn interrupt(process: u32) -> Result<(), String> {
    wait_for(process, 'S')?;
    send(process, "STOP")?;
    wait_for(process, 'T')?;
    send(process, "CONT")
}

/// The program is stopped and goes on while it waits for a reader of its output, which is more than a pipe holds; all of
/// it comes.
pub fn interrupted_write(program: Program, input: &[u8]) -> Result<(), String> {
    let expected = program.expected(input);
    if expected.output.len() <= PIPE_HOLDS {
        return Err(format!("only {} bytes", expected.output.len()));
    }
    let file = InputFile::default();
    let stdin = file.holding(input)?.into();
    let child = started(program, stdin, Stdio::piped())?;
    interrupt(child.id())?;
    finish(child)?.expect(&expected)
}

/// Waits until a process is in a state: S where it sleeps, as in a read or a write, T where it is stopped.
fn wait_for(process: u32, state: char) -> Result<(), String> {
    let path = Path::new("/proc").join(process.to_string()).join("stat");
    for _ in 0..MOST_LOOKS {
        let told_state = fs::read_to_string(&path).map_err(told)?;
        let (_, behind_name) = told_state.rsplit_once(')').unwrap_or_default();
        if behind_name.trim_start().starts_with(state) {
            return Ok(());
        }
        thread::sleep(LOOK);
    }
    Err(format!("never in state {state}"))
}

/// Sends a signal to a process.
fn send(process: u32, signal: &str) -> Result<(), String> {
    let mut shell = Command::new("sh");
    shell.args(["-c", &format!("kill -{signal} {process}")]);
    match shell.status().map_err(told)?.success() {
        true => Ok(()),
        false => Err(format!("signal {signal} was not sent")),
    }
}
