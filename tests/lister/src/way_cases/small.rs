//! Small plans of reach-cases, between any two stations: all ways, and on some plans mixed traces.

use super::{marks, Arguments, Case, Step};
use crate::cases::{plan_bytes, Record};
use crate::random::Random;
use crate::reach_cases::{self, small_cases};
use crate::traces::contents;
use crate::ways::Way;

/// The seed of the mixed traces; each label names it.
pub const SEED: u64 = 3;
/// The largest n.
const MOST_STATIONS: u16 = 6;
/// Of so many plans in turn, one has mixed traces too.
const PLANS_A_TURN: usize = 6;

pub fn cases() -> Vec<Case> {
    let mut random = Random::new(SEED);
    let mixed_name = format!("mixed, seed {SEED}");
    let mut cases = Vec::new();
    for (index, plan) in plans().iter().enumerate() {
        let traces = |name: &str| every_pair(plan, name).into_iter();
        cases.extend(traces("all ways").map(|case| listing(case, index)));
        if index % PLANS_A_TURN == 0 {
            cases.extend(traces(&mixed_name).map(|case| mixed(&mut random, case, 12)));
        }
    }
    cases
}

/// The plans of few stations, each once.
fn plans() -> Vec<reach_cases::Case> {
    let mut plans = small_cases();
    plans.retain(|plan| plan.stations <= MOST_STATIONS);
    plans.dedup_by_key(|plan| (plan.stations, plan.slots, plan.bytes.clone()));
    plans
}

/// A trace without steps for each two different stations of a plan.
fn every_pair(plan: &reach_cases::Case, name: &str) -> Vec<Case> {
    let (plan_name, _) = plan.label.split_once(", from").expect("a source");
    let label = format!("{plan_name}, {name}");
    Case::every_pair(&label, (plan.stations, plan.slots), &plan.bytes)
}

/// First way, next way until "last", and once more; next way once where there is no way.
pub fn listing(case: Case, index: usize) -> Case {
    let length = usize::from(case.pair.slots) + index % 3;
    let times = case.list.len() + 1;
    let case = case.holding(marks(length)).longer_scratch(index % 4);
    case.first().next(times)
}

/// Records with cause 3 (the first), 4 (the second) and 5 (the last two) at every n above 1.
const DAMAGED: [Record; 4] = [(0, 0, 1), (1, 1, 1), (1, 0, 1), (1, 0, 1)];

/// A call with a cause of refusal from 1 to 8; the damaged records stand behind the plan.
fn refused_call(random: &mut Random, pair: Arguments) -> Arguments {
    let mut call = pair;
    let damaged = |first: u16, count: u16| Arguments {
        plan_from: pair.plan_length + 6 * first,
        plan_length: 6 * count,
        ..pair
    };
    match random.below(10) {
        0 => call.stations = [0, 257, 65535][random.below(3)],
        1 => call.slots = [0, 256, 65535][random.below(3)],
        2 => call.plan_length += random.between(1, 5) as u16,
        3 => call = damaged(0, 1),
        4 => call = damaged(1, 1),
        5 => call = damaged(2, 2),
        6 if random.below(2) == 0 => call.source = call.stations,
        6 => call.destination += call.stations,
        7 => call.destination = call.source,
        8 => call.buffer_length = call.slots - 1,
        _ => call.scratch_length -= 1,
    }
    call
}

/// One step: a call, a refused call, or a write behind the pair's hops.
fn mixed_step(random: &mut Random, case: &Case) -> Step {
    let length = case.contents.len();
    let hops = case.list.first().map_or(0, Vec::len);
    let way = if random.below(4) == 0 {
        Way::First
    } else {
        Way::Next
    };
    let mut call = case.pair;
    match random.below(5) {
        0 => Step::Call(way, refused_call(random, call)),
        1 if hops < length => {
            let most = [9, 65536][random.below(2)];
            Step::Write(
                random.between(hops, length - 1) as u16,
                random.below(most) as u16,
            )
        }
        _ => {
            call.buffer_length = random.between(call.slots.into(), length) as u16;
            call.scratch_length += random.below(3);
            Step::Call(way, call)
        }
    }
}

/// The trace with any steps, up to so many, on a buffer that holds anything.
pub fn mixed(random: &mut Random, mut case: Case, most: usize) -> Case {
    let length = usize::from(case.pair.slots) + random.below(3);
    let contents = contents(random, &case.list, length);
    case.bytes.extend(plan_bytes(&DAMAGED));
    let case = case.holding(contents).marked(random.between(1, 99) as u16);
    let steps = (0..random.between(1, most)).map(|_| mixed_step(random, &case));
    Case {
        steps: steps.collect(),
        ..case.clone()
    }
}
