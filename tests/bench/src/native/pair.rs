//! Operation 4, pair.

use lister::answer::{Answer, CallFault};
use lister::plan::{Ends, PlanInput};

use super::pass::{blocks, most_columns, pass, Part, Task, NO_WALK};
use super::plan::{check, check_pair, work_length};

/// Stores the through counts of a block of stations to a destination.
fn store(through: &mut [u64], area: &Part, task: Task, destination: usize) {
    let through = &mut through[task.low..][..task.block];
    if area.hops[destination] == NO_WALK {
        through.fill(0);
        return;
    }
    let count = area.counts[destination];
    for (through, avoiding) in through.iter_mut().zip(area.row(destination)) {
        *through = count - avoiding;
    }
    if (task.low..task.low + task.block).contains(&destination) {
        through[destination - task.low] = 0;
    }
}

/// The through counts of a pair, and its hops and count. None where a count is over 2^64 - 1.
fn throughs(
    through: &mut [u64],
    work: &mut [u64],
    input: PlanInput,
    (source, destination): Ends,
) -> Option<(u64, u64)> {
    let n = input.stations;
    let mut answer = (NO_WALK, 0);
    for (low, block) in blocks(n, most_columns(input, 4 * (input.slots + 1))) {
        let task = Task { source, low, block };
        let area = pass(work, input, task)?;
        store(through, &area, task, destination);
        answer = (area.hops[destination], area.counts[destination]);
    }
    Some(answer)
}

/// Operation 4: hops, count, and in the table how many of the paths have each station inside.
pub fn pair(
    input: PlanInput,
    ends: Ends,
    through: &mut [u64],
    work: &mut [u64],
) -> Answer<(u64, u64)> {
    check(input)?;
    let n = input.stations;
    check_pair(input, ends, (through.len(), n), work.len())?;
    let through = &mut through[..n];
    let work = &mut work[..work_length(input)];
    let answer = throughs(through, work, input, ends);
    if answer.is_none() {
        through.fill(0);
    }
    work.fill(0);
    answer.ok_or(CallFault::TooMany.into())
}
