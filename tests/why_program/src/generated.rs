//! Plans that are drawn, every station of each, and one that is none.

use lister::account::{account, text_with};
use lister::account_cases::with_neighbours_alone;
use lister::load_cases::{valid_plan, SIZES};
use lister::load_program::accepted_plan;
use lister::random::Random;
use load_program::run::{written, Delivery, InputFile, Written};
use load_program::Program;

/// The numbers of walks.
const NUMBERS: [usize; 4] = [0, 1, 3, 8];

/// Draws a plan of each size in turn within the limits; in every other three only stations of neighbouring numbers
/// meet. Runs the program on each; answers a line, or tells of the first difference.
pub fn runs(path: &str, g: usize, rounds: usize, seed: usize) -> Result<Vec<String>, String> {
    let mut random = Random::new(seed as u64);
    let file = InputFile::default();
    let (mut accounts, mut bytes) = (0, 0);
    for round in 0..rounds {
        let mut input = valid_plan(&mut random, &SIZES[round % SIZES.len()]);
        if round / SIZES.len() % 2 == 1 {
            input = with_neighbours_alone(&input);
        }
        let told = |what: String| format!("round {round} of seed {seed}, {what}");
        let (runs, written) = every_station(path, g, &input, &file).map_err(told)?;
        accounts += runs;
        bytes += written;
    }
    Ok(vec![format!(
        "{rounds} drawn plans of seed {seed}, {accounts} accounts of {bytes} bytes, as the lister gives them with g {g}"
    )])
}

/// Runs the program for every station of an input and the one behind the last; answers the number of runs and the
/// bytes that they print.
fn every_station(
    path: &str,
    g: usize,
    input: &[u8],
    file: &InputFile,
) -> Result<(usize, usize), String> {
    let stations = accepted_plan(g, input).map_or(0, |plan| plan.stations);
    let (mut runs, mut bytes) = (0, 0);
    for station in 0..=stations {
        let account = account(g, input, station);
        for number in NUMBERS {
            let text = text_with(&account, number);
            let told = |what: String| {
                let plan: String = input.iter().map(|byte| format!("{byte:02x}")).collect();
                format!("station {station}, number {number}: {what}  plan {plan}")
            };
            let program = Program {
                path,
                name: "why",
                arguments: &[&station.to_string(), &number.to_string()],
                text: &|_| text.clone(),
            };
            let got = written(program, input, Delivery::File, file).map_err(told)?;
            got.expect(&Written::output(text.as_bytes()))
                .map_err(told)?;
            runs += 1;
            bytes += text.len();
        }
    }
    Ok((runs, bytes))
}
