//! Compares the library libjoftaki_c.a with the plain lister.

mod band;
mod call;
mod causes;
mod compare;
mod drawing;
mod edges;
mod lend;
mod lists;
mod native;
mod partial;
mod plans;
mod reading;
mod rounds;
mod stale;
mod struck;
mod tiny;

use std::env;
use std::process::ExitCode;

use compare::{Comparison, Difference};
use stale::Terms;

const USAGE: &str = "usage:
  library short              tiny plans, the edges, and rounds with fixed seeds
  library long ROUNDS SEED   all tiny plans with every small g and h, the edges, and so many rounds, the first
                             with this seed
  library round SEED         one round alone";

/// What is compared: the tiny plans, some or all of their g and h; then the numbers against each other, plans in a
/// band, contacts that are struck out, loads for the drawing program, records and the edges; then so many rounds. The
/// first seed is of all of them.
#[derive(Clone, Copy, Debug)]
struct Extent {
    /// None where only rounds are compared.
    tiny: Option<Terms>,
    rounds: u64,
    seed: u64,
}

/// The short run.
const SHORT: Extent = Extent {
    tiny: Some(Terms::InTurn),
    rounds: 1000,
    seed: 1,
};

fn main() -> ExitCode {
    let words: Vec<String> = env::args().skip(1).collect();
    let words: Vec<&str> = words.iter().map(String::as_str).collect();
    match extent(&words) {
        Some(extent) => told(&mut Comparison::default(), extent),
        None => {
            eprintln!("{USAGE}");
            ExitCode::from(2)
        }
    }
}

/// What the words ask for.
fn extent(words: &[&str]) -> Option<Extent> {
    match words {
        ["short"] => Some(SHORT),
        ["long", rounds, seed] => Some(Extent {
            tiny: Some(Terms::Every),
            rounds: rounds.parse().ok()?,
            seed: seed.parse().ok()?,
        }),
        ["round", seed] => Some(Extent {
            tiny: None,
            rounds: 1,
            seed: seed.parse().ok()?,
        }),
        _ => None,
    }
}

/// Runs the comparisons and prints what came of them.
fn told(comparison: &mut Comparison, extent: Extent) -> ExitCode {
    println!(
        "library: rounds {}, seeds from {}",
        extent.rounds, extent.seed
    );
    if let Err(difference) = run(comparison, extent) {
        print!("{difference}");
        return ExitCode::FAILURE;
    }
    print!("{}", comparison.table());
    let never = comparison.never_answered();
    if extent.tiny.is_some() && !never.is_empty() {
        println!("never answered: {never:?}");
        return ExitCode::FAILURE;
    }
    ExitCode::SUCCESS
}

/// The tiny plans, the numbers against each other, plans in a band, contacts that are struck out, loads for the drawing
/// program, records, the edges, then the rounds.
fn run(comparison: &mut Comparison, extent: Extent) -> Result<(), Difference> {
    let Extent { tiny, rounds, seed } = extent;
    let named = |name: String| move |text: Difference| format!("difference in {name}\n{text}");
    if let Some(terms) = tiny {
        let tiny = tiny::compare(comparison, seed, terms);
        tiny.map_err(named(format!("tiny plans, seed {seed}")))?;
        causes::compare(comparison, seed).map_err(named(format!("causes, seed {seed}")))?;
        band::compare(comparison, seed).map_err(named(format!("bands, seed {seed}")))?;
        struck::compare(comparison, seed).map_err(named(format!("struck out, seed {seed}")))?;
        drawing::compare(comparison, seed).map_err(named(format!("drawn loads, seed {seed}")))?;
        let reading = reading::compare(comparison, seed, terms.into());
        reading.map_err(named(format!("records, seed {seed}")))?;
        edges::compare(comparison, seed).map_err(named(format!("edges, seed {seed}")))?;
    }
    for round in 0..rounds {
        let seed = seed.wrapping_add(round);
        let name = format!("a round, seed {seed}: library round {seed}");
        rounds::compare(comparison, seed).map_err(named(name))?;
    }
    Ok(())
}
