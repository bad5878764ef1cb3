//! Partial loads: several numbers of sources in turn, held to each other and to the loads as document 02's C-18
//! states, and numbers of sources drawn.

use lister::means::{Means, LISTED};
use lister::operation::Operation;
use lister::plan::{PlanInput, MOST_STATIONS};
use lister::plans::Owned;
use lister::random::Random;

use crate::band;
use crate::compare::{Comparison, Difference};
use crate::lend::{self, Lengths};
use crate::native::Seen;
use crate::plans;
use crate::struck;

/// The two tables, and the most that one pair gives an entry.
const TABLES: [(&str, u64); 2] = [("pairs", 1), ("load", 1 << 32)];

/// A number of sources, mostly up to n, often n.
fn sources(random: &mut Random, stations: usize) -> usize {
    let known = random.below(stations.min(MOST_STATIONS) + 1);
    match random.below(16) {
        0 => 0,
        1 => stations.saturating_add(1),
        2 => plans::far(random, known),
        3..=5 => stations,
        _ => known,
    }
}

/// The numbers behind n, T, g and h of an operation on a plan: the stations given, or a number of sources, channels or a
/// position drawn.
pub fn arguments(
    random: &mut Random,
    operation: Operation,
    input: PlanInput,
    given: [usize; 2],
) -> [usize; 2] {
    match operation {
        Operation::PartialLoads => [sources(random, input.stations), 0],
        Operation::TakeIn => [band::channels(random), 0],
        Operation::StruckOut => [struck::position(random, input.bytes), 0],
        _ => given,
    }
}

/// What a call left for a number of sources.
type Left = (usize, Seen);

/// The text of the entries that are not within so many pairs of the least ones.
fn outside(stations: usize, pairs: usize, least: &Left, seen: &Left) -> String {
    let mut text = String::new();
    for (table, (name, of_pair)) in TABLES.into_iter().enumerate() {
        let most = pairs as u64 * of_pair;
        for station in 0..stations {
            let [low, entry] = [least, seen].map(|(_, seen)| seen.lent.wide[table][station]);
            if !(low..=low + most).contains(&entry) {
                let [fewer, sources] = [least.0, seen.0];
                text += &format!(
                    "{name} of station {station}: {low} from {fewer} sources, {entry} from {sources}\n"
                );
            }
        }
    }
    text
}

/// A difference where there is a text.
fn told(owned: &Owned, text: String) -> Result<(), Difference> {
    match text.is_empty() {
        true => Ok(()),
        false => Err(format!("{owned:?}\n{text}")),
    }
}

/// Partial loads of numbers of sources, which rise. Where two of them are accepted, a source more adds up to one
/// for each other station.
pub fn in_turn(
    comparison: &mut Comparison,
    random: &mut Random,
    owned: &Owned,
    means: Means,
    numbers: &[usize],
) -> Result<Vec<Left>, Difference> {
    let mut all: Vec<Left> = Vec::new();
    for sources in numbers {
        let (operation, input) = (Operation::PartialLoads, owned.input());
        let call = lend::call(random, operation, input, [*sources, 0], Lengths::Named);
        let seen = (*sources, comparison.compare(&call, means)?);
        if let Some(fewer) = all.last() {
            if [fewer, &seen].iter().all(|(_, seen)| seen.number == 0) {
                let pairs = (sources - fewer.0) * (owned.stations - 1);
                told(owned, outside(owned.stations, pairs, fewer, &seen))?;
                comparison.spans[1] += 1;
            }
        }
        all.push(seen);
    }
    Ok(all)
}

/// Loads, and partial loads of numbers of sources, which rise. Where loads is accepted, it lies in the span of each
/// number; n gives loads' own number and tables.
pub fn with_loads(
    comparison: &mut Comparison,
    random: &mut Random,
    owned: &Owned,
    means: Means,
    numbers: &[usize],
) -> Result<(), Difference> {
    let (n, operation, input) = (owned.stations, Operation::Loads, owned.input());
    let call = lend::call(random, operation, input, [0, 0], Lengths::Named);
    let loads = (n, comparison.compare(&call, means)?);
    for partial in in_turn(comparison, random, owned, means, numbers)? {
        let (sources, seen) = &partial;
        if *sources == n && seen.number != loads.1.number {
            let text = format!("loads: {}, all sources: {}\n", loads.1.number, seen.number);
            return told(owned, text);
        }
        if *sources <= n && loads.1.number == 0 {
            let pairs = (n - sources) * (n - 1);
            told(owned, outside(n, pairs, &partial, &loads))?;
            comparison.spans[0] += 1;
        }
    }
    Ok(())
}

/// The same of every number of sources up to n + 1, on a small plan.
pub fn every_number(
    comparison: &mut Comparison,
    random: &mut Random,
    owned: &Owned,
) -> Result<(), Difference> {
    let numbers: Vec<usize> = (0..=owned.stations + 1).collect();
    with_loads(comparison, random, owned, LISTED, &numbers)
}
