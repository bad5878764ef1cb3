//! Instructions of both sides, counted by valgrind.

use std::env;
use std::process::Command;

use crate::plans::{by_records, named, plan_of};
use crate::question::{ask, question_of, Lent, QUESTIONS};
use crate::side::{Side, LIBRARY, RUST};
use crate::tables::{print_head, print_row};

/// The end of the names of the functions that answer a question.
fn functions_of(question: &str) -> &str {
    match question {
        "listing" => "way",
        _ => question,
    }
}

fn side_of(name: &str) -> Result<Side, String> {
    let sides = [LIBRARY, RUST];
    let side = sides.into_iter().find(|side| side.name == name);
    side.ok_or(format!("no side {name}"))
}

/// One run of one side.
pub fn once(side: &str, question: &str, plan: &str) -> Result<(), String> {
    let side = side_of(side)?;
    let plan = plan_of(plan)?;
    let question = question_of(question, &plan)?;
    ask(&side, &plan, question, &mut Lent::new(&plan, question));
    Ok(())
}

/// The instructions of one run of one side, without the making of the plan.
fn count(side: &str, functions: &str, question: &str, plan: &str) -> Result<u64, String> {
    let program = env::current_exe().map_err(|error| error.to_string())?;
    let output = Command::new("valgrind")
        .args(["--tool=callgrind", "--callgrind-out-file=/dev/null"])
        .arg(format!("--toggle-collect={functions}"))
        .arg(program)
        .args(["once", side, question, plan])
        .output()
        .map_err(|error| format!("valgrind: {error}"))?;
    let said = String::from_utf8_lossy(&output.stderr);
    let line = said.lines().find(|line| line.contains("Collected :"));
    let number = line.and_then(|line| line.split_whitespace().last()?.parse().ok());
    number.filter(|number| *number > 0).ok_or(said.to_string())
}

/// The cells of a question about a plan.
fn row(question: &str, plan: &str) -> Result<[String; 5], String> {
    let functions = functions_of(question);
    let library = count("library", &format!("joftaki_*{functions}"), question, plan)?;
    let rust = count("rust", &format!("*rust_*{functions}*"), question, plan)?;
    let millions = |number: u64| format!("{:.1}", number as f64 / 1e6);
    let ratio = format!("{:.2}", library as f64 / rust as f64);
    let (question, plan) = (question.to_string(), plan.to_string());
    Ok([question, plan, millions(library), millions(rust), ratio])
}

/// The table of instructions.
pub fn table() -> Result<(), String> {
    let columns = [
        "question",
        "plan",
        "library, millions",
        "Rust, millions",
        "ratio",
    ];
    print_head("Instructions", &columns);
    for question in QUESTIONS.into_iter().chain(["verdict"]) {
        for plan in named() {
            print_row(&row(question, &plan.name)?);
        }
    }
    for plan in by_records() {
        print_row(&row("loads", &plan.name)?);
    }
    println!();
    Ok(())
}
