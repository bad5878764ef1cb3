//! The tables of times, in the form in which docs/PERFORMANCE.md has them.

use std::time::Duration;

use lister::plan::Ends;

use crate::drawn;
use crate::measure::{measure, measure_plans, measure_verdict, Effort, Times, WHOLE};
use crate::plans::{by_records, by_slots, by_stations, named, turned, Plan};
use crate::question::{question_of, timed_pair, Question, QUESTIONS};
use crate::struck;

/// The questions of the named plans.
fn questions(effort: Effort) {
    loads(effort, &named());
    of_pairs("Pair", effort, &named(), Question::Pair);
    of_pairs("A whole listing", effort, &named(), Question::Listing);
    verdicts(effort, &named());
    struck::table(effort, &named());
    drawn::table(effort, &named());
}

/// All tables.
pub fn all() {
    let effort = WHOLE;
    questions(effort);
    turnarounds(effort);
    growth("Loads by records", effort, &by_records());
    growth("Loads by n", effort, &by_stations());
    growth("Loads by T", effort, &by_slots());
}

/// The tables of the named plans, with few runs.
pub fn quick() {
    questions(Effort {
        runs: 3,
        time: Duration::ZERO,
    });
}

/// Prints the title and the head of a table.
pub fn print_head(title: &str, columns: &[&str]) {
    println!("### {title}\n");
    print_row(columns);
    print_row(&vec!["---"; columns.len()]);
}

/// Prints a row of a table.
pub fn print_row(cells: &[impl AsRef<str>]) {
    let cells: Vec<&str> = cells.iter().map(AsRef::as_ref).collect();
    println!("| {} |", cells.join(" | "));
}

/// The columns of `sizes`.
const SIZES: [&str; 3] = ["n", "T", "records"];
/// The columns of `timed`.
const TIMES: [&str; 3] = ["library, ms", "Rust, ms", "ratio"];

/// The cells of a plan: n, T and records.
fn sizes(plan: &Plan) -> [String; 3] {
    [plan.stations, plan.slots, plan.records()].map(|size| size.to_string())
}

/// Milliseconds, with three decimals below 10 and one above.
fn milliseconds(time: Duration) -> String {
    let time = 1000.0 * time.as_secs_f64();
    let decimals = if time < 10.0 { 3 } else { 1 };
    format!("{time:.decimals$}")
}

/// The cells of the times of two sides: both, and their ratio.
pub fn timed(times: &Times) -> [String; 3] {
    let [first, second] = times.sides.map(milliseconds);
    [first, second, format!("{:.2}", times.ratio())]
}

/// The loads of named plans.
fn loads(effort: Effort, plans: &[Plan]) {
    print_head("Loads", &[&["plan"], &SIZES[..], &TIMES].concat());
    for plan in plans {
        let times = measure(plan, Question::Loads, effort);
        let mut cells = vec![plan.name.clone()];
        cells.extend(sizes(plan));
        cells.extend(timed(&times));
        print_row(&cells);
    }
    println!();
}

/// A question about a pair of each of the named plans.
fn of_pairs(title: &str, effort: Effort, plans: &[Plan], question: impl Fn(Ends) -> Question) {
    print_head(title, &[&["plan", "pair", "paths"], &TIMES[..]].concat());
    for plan in plans {
        let (ends, paths) = timed_pair(plan);
        let times = measure(plan, question(ends), effort);
        let pair = format!("{} to {}", ends.0, ends.1);
        let mut cells = vec![plan.name.clone(), pair, paths.to_string()];
        cells.extend(timed(&times));
        print_row(&cells);
    }
    println!();
}

/// The verdict on a whole listing of a pair of each of the named plans, beside the listing itself.
fn verdicts(effort: Effort, plans: &[Plan]) {
    let columns = [
        "plan",
        "pair",
        "paths",
        "listing, ms",
        "verdict, ms",
        "ratio",
    ];
    print_head("Verdict", &columns);
    for plan in plans {
        let (ends, paths) = timed_pair(plan);
        let times = measure_verdict(plan, ends, effort);
        let [verdict, listing] = times.sides.map(milliseconds);
        let pair = format!("{} to {}", ends.0, ends.1);
        let ratio = format!("{:.3}", times.ratio());
        print_row(&[
            plan.name.clone(),
            pair,
            paths.to_string(),
            listing,
            verdict,
            ratio,
        ]);
    }
    println!();
}

/// Each question on the largest plan with longer turnarounds beside the least one, by the library alone;
/// a listing's time is that of one call.
fn turnarounds(effort: Effort) {
    let columns = ["question", "plan", "g", "ms", "with g = 1, ms", "ratio"];
    print_head("Turnarounds", &columns);
    for name in QUESTIONS {
        for plan in turned() {
            let [least, ..] = named();
            let question = question_of(name, &plan).expect("a known question");
            let times = measure_plans([&plan, &least], question, effort);
            let mut cells = vec![
                name.to_string(),
                plan.name.clone(),
                plan.turnaround.to_string(),
            ];
            cells.extend(timed(&times));
            print_row(&cells);
        }
    }
    println!();
}

/// The loads of plans that grow; the last column is the library's time by that of the row before.
fn growth(title: &str, effort: Effort, plans: &[Plan]) {
    print_head(title, &[&SIZES[..], &TIMES, &["growth"]].concat());
    let mut before: Option<Duration> = None;
    for plan in plans {
        let times = measure(plan, Question::Loads, effort);
        let [library, _] = times.sides;
        let grown = before.map_or(String::new(), |before| {
            let grown = library.as_secs_f64() / before.as_secs_f64();
            format!("{grown:.2}")
        });
        let mut cells = sizes(plan).to_vec();
        cells.extend(timed(&times));
        cells.push(grown);
        print_row(&cells);
        before = Some(library);
    }
    println!();
}
