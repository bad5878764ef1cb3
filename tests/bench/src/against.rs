//! The archive of this program beside the archive of another built benchmark program.
//!
//! Each of the two runs as a process of its own, which answers one question about one plan: a line
//! that says what is asked, then a time for each line that it reads. The two take turns.

use std::env;
use std::io::{self, BufRead, BufReader, Lines, Write};
use std::os::unix::process::CommandExt;
use std::path::{Path, PathBuf};
use std::process::{Child, ChildStdin, ChildStdout, Command, Stdio};
use std::time::Duration;

use lister::plan::KEPT;

use crate::clock::thread_time;
use crate::measure::{in_turn, Times, WHOLE};
use crate::plans::{named, plan_of, varied, Plan};
use crate::question::{ask, compare, question_of, Lent, QUESTIONS};
use crate::side::LIBRARY;
use crate::tables::{print_head, print_row, timed};

/// A time is the mean of as many runs as take so long.
const SPELL: Duration = Duration::from_millis(10);

/// The name that both processes are told: where their memory lies depends on its length.
const NAME: &str = "bench";

/// The process that answers: compares its library with Rust, which keeps every reading, then times the library.
pub fn serve(name: &str, plan: &str) -> Result<(), String> {
    let plan = plan_of(plan)?;
    let question = question_of(name, &plan)?;
    if plan.keeping == KEPT {
        compare(&plan, question);
    }
    let (n, t, records) = (plan.stations, plan.slots, plan.records());
    let (source, destination) = question.ends();
    println!("{name} from {source} to {destination}, n {n}, T {t}, records {records}");
    let mut lent = Lent::new(&plan, question);
    for line in io::stdin().lines() {
        line.map_err(|error| error.to_string())?;
        let start = thread_time();
        let mut runs = 0;
        while runs == 0 || thread_time() - start < SPELL {
            ask(&LIBRARY, &plan, question, &mut lent);
            runs += 1;
        }
        println!("{}", ((thread_time() - start) / runs).as_nanos());
    }
    Ok(())
}

/// A process that answers.
struct Served {
    child: Child,
    /// Closed at the end, which ends the process.
    lines_to: Option<ChildStdin>,
    lines_from: Lines<BufReader<ChildStdout>>,
}

impl Served {
    fn start(program: &Path, question: &str, plan: &str) -> Result<Served, String> {
        let child = Command::new(program)
            .arg0(NAME)
            .args(["serve", question, plan])
            .stdin(Stdio::piped())
            .stdout(Stdio::piped())
            .spawn();
        let mut child = child.map_err(|error| format!("{}: {error}", program.display()))?;
        let lines_to = child.stdin.take();
        let stdout = child.stdout.take().expect("a pipe");
        Ok(Served {
            child,
            lines_to,
            lines_from: BufReader::new(stdout).lines(),
        })
    }

    /// The next line that the process writes.
    fn line(&mut self) -> Result<String, String> {
        let line = self.lines_from.next().ok_or("a program ended early")?;
        line.map_err(|error| error.to_string())
    }

    /// A time.
    fn time(&mut self) -> Result<Duration, String> {
        let asked = self.lines_to.as_mut().expect("not closed").write_all(b"\n");
        asked.map_err(|error| error.to_string())?;
        let line = self.line()?;
        let time = line.parse().map(Duration::from_nanos);
        time.map_err(|_| format!("no time: {line}"))
    }
}

impl Drop for Served {
    fn drop(&mut self) {
        self.lines_to = None;
        let _ = self.child.wait();
    }
}

/// The times of both programs for a question about a plan.
fn times(programs: &[PathBuf; 2], question: &str, plan: &str) -> Result<Times, String> {
    let start = |program| Served::start(program, question, plan);
    let mut sides = [start(&programs[0])?, start(&programs[1])?];
    let asked = [sides[0].line()?, sides[1].line()?];
    if asked[0] != asked[1] {
        return Err(format!("the programs ask different questions: {asked:?}"));
    }
    in_turn(WHOLE, |side| sides[side].time())
}

/// A table of this program's library beside that of another program: some questions about some plans.
fn table(other: &str, title: &str, questions: &[&str], plans: &[Plan]) -> Result<(), String> {
    let this = env::current_exe().map_err(|error| error.to_string())?;
    let programs = [this, PathBuf::from(other)];
    let columns = ["question", "plan", "this, ms", "other, ms", "ratio"];
    print_head(title, &columns);
    for question in questions {
        for plan in plans {
            let times = times(&programs, question, &plan.name)?;
            let mut cells = vec![question.to_string(), plan.name.clone()];
            cells.extend(timed(&times));
            print_row(&cells);
        }
    }
    println!();
    Ok(())
}

/// Every question about the named plans.
pub fn named_plans(other: &str) -> Result<(), String> {
    table(other, "This archive and the other", &QUESTIONS, &named())
}

/// Loads for several g and h, and as records, n and T grow.
pub fn varied_plans(other: &str) -> Result<(), String> {
    table(other, "Loads of both archives", &["loads"], &varied())
}
