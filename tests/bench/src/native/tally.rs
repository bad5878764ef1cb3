//! Operation 5, loads: every station's pairs and load, added up over all sources.

use lister::answer::{Answer, CallFault};
use lister::causes::{known_turnaround, long_enough};
use lister::plan::PlanInput;

use super::pass::{blocks, most_columns, pass, pass_entries, Part, Task, NO_WALK};
use super::plan::{check, work_length};
use super::share::share;

/// Adds a destination to every station of a block; `own` is the destination's place in the block.
fn add_row(pairs: &mut [u64], loads: &mut [u64], avoiding: &[u64], own: Option<usize>, count: u64) {
    let tallies = pairs.iter_mut().zip(loads);
    for (at, ((pairs, load), avoiding)) in tallies.zip(avoiding).enumerate() {
        let through = count - avoiding;
        if through == 0 || Some(at) == own {
            continue;
        }
        *pairs += 1;
        *load += share(through, count);
    }
}

/// Adds every destination to every station of a block.
fn add_rows(area: &Part, task: Task, pairs: &mut [u64], loads: &mut [u64]) {
    let block = task.low..task.low + task.block;
    for (destination, (hops, count)) in area.hops.iter().zip(area.counts.iter()).enumerate() {
        if destination == task.source || *hops == NO_WALK {
            continue;
        }
        let own = destination.checked_sub(task.low);
        let (pairs, loads) = (&mut pairs[block.clone()], &mut loads[block.clone()]);
        add_row(pairs, loads, area.row(destination), own, *count);
    }
}

/// Adds up pairs and loads behind the pass's part of the work area. None where a count is over
/// 2^64 - 1.
fn tally<'a>(work: &'a mut [u64], input: PlanInput) -> Option<(&'a [u64], &'a [u64])> {
    let n = input.stations;
    let most = most_columns(input, 4 * (input.slots + 1) - 2);
    let (work, tallies) = work.split_at_mut(pass_entries(input, most));
    let (pairs, rest) = tallies.split_at_mut(n);
    let loads = &mut rest[..n];
    pairs.fill(0);
    loads.fill(0);
    for source in 0..n {
        for (low, block) in blocks(n, most) {
            let task = Task { source, low, block };
            let area = pass(work, input, task)?;
            add_rows(&area, task, pairs, loads);
        }
    }
    Some((pairs, loads))
}

/// Operation 5.
pub fn loads(
    input: PlanInput,
    pairs: &mut [u64],
    loads: &mut [u64],
    work: &mut [u64],
) -> Answer<()> {
    check(input)?;
    known_turnaround(input.turnaround)?;
    let n = input.stations;
    long_enough(pairs.len(), n)?;
    long_enough(loads.len(), n)?;
    long_enough(work.len(), work_length(input))?;
    let (pairs, loads) = (&mut pairs[..n], &mut loads[..n]);
    let work = &mut work[..work_length(input)];
    let answer = match tally(work, input) {
        Some((pair_sums, load_sums)) => {
            pairs.copy_from_slice(pair_sums);
            loads.copy_from_slice(load_sums);
            Ok(())
        }
        None => {
            pairs.fill(0);
            loads.fill(0);
            Err(CallFault::TooMany.into())
        }
    };
    work.fill(0);
    answer
}
