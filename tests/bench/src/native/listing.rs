//! Operations 7 and 8, first way and next way.

use lister::answer::{Answer, CallFault};
use lister::plan::{Ends, PlanInput};
use lister::ways::{Found, Way};

use super::pass::{pass, Task, NO_WALK};
use super::plan::{check, check_pair, work_length};
use super::ways::{complete, first_path, next_path, offered, Pair};

/// The pair with its hops, or none where it has no path.
pub fn question<'a>(
    input: PlanInput<'a>,
    (source, destination): Ends,
    work: &mut [u64],
) -> Answer<Option<Pair<'a>>> {
    let task = Task {
        source,
        low: 0,
        block: 0,
    };
    let area = pass(work, input, task).ok_or(CallFault::TooMany)?;
    let hops = area.hops[destination];
    let pair = Pair {
        input,
        source,
        destination,
        hops: hops as usize,
    };
    Ok((hops != NO_WALK).then_some(pair))
}

/// First way once 1 to 8 are excluded.
fn first_work(input: PlanInput, ends: Ends, buffer: &mut [u16], work: &mut [u64]) -> Answer<Found> {
    let Some(pair) = question(input, ends, work)? else {
        return Ok(Found::NoWalk);
    };
    complete(work, input, pair.destination);
    first_path(buffer, work, pair);
    Ok(Found::Walk(pair.hops as u16))
}

/// Next way once 1 to 8 are excluded.
fn next_work(input: PlanInput, ends: Ends, buffer: &mut [u16], work: &mut [u64]) -> Answer<Found> {
    let pair = question(input, ends, work)?;
    let pair = pair.filter(|pair| offered(buffer, *pair));
    let pair = pair.ok_or(CallFault::NotShortest)?;
    complete(work, input, pair.destination);
    if next_path(buffer, work, pair) {
        Ok(Found::Walk(pair.hops as u16))
    } else {
        Ok(Found::Last)
    }
}

/// Operation 7 or 8: 1 to 8, its work, and the work area cleared after it.
pub fn way(
    way: Way,
    input: PlanInput,
    ends: Ends,
    buffer: &mut [u16],
    work: &mut [u64],
) -> Answer<Found> {
    check(input)?;
    check_pair(input, ends, (buffer.len(), input.slots), work.len())?;
    let work = &mut work[..work_length(input)];
    let answer = match way {
        Way::First => first_work(input, ends, buffer, work),
        Way::Next => next_work(input, ends, buffer, work),
    };
    work.fill(0);
    answer
}
