//! The verdict where readings are dropped: lists of walks that call at a station twice and three times, and of paths
//! where readings are kept; cause 14, T around h, cause 9 for some h alone, and drawn plans.

use super::refusals::CHANGES;
use super::{Case, Judged};
use crate::lists::{prefixes, with_walks_changed};
use crate::pair_cases::LabelledPlan;
use crate::plans::pairs;
use crate::random::Random;
use crate::reach_cases::bytes_with_cause;
use crate::stale::{
    detours_around, drawn_stale_plans, ladders_around, plan_a, StalePlan, KNOWN_TERMS, STALE_PLANS,
    WRONG_TERMS, WRONG_TURNAROUND_TERMS,
};

pub fn cases() -> Vec<Case> {
    [
        examples(),
        kept(),
        terms(),
        before_keeping(),
        keeping_before_call(),
        around(),
        ladders(),
        drawn(),
    ]
    .concat()
}

/// From the first station to the last of the plans by hand: the prefixes and the lists with a walk changed, and of the
/// first plan every list near the complete one.
fn examples() -> Vec<Case> {
    let mut cases = STALE_PLANS[0].labelled().near((0, 3));
    for stale in &STALE_PLANS[1..] {
        let (plan, ends) = (stale.labelled(), (0, stale.last() as u16));
        let walks = plan.paths(ends);
        let lists = [prefixes(&walks.concat()), with_walks_changed(&walks)].concat();
        cases.extend(lists.into_iter().map(|list| plan.judged(ends, list)));
    }
    cases.into_iter().map(|case| case.stating(0)).collect()
}

/// The plans by hand with the list of units that keep every reading, where that is another one.
fn kept() -> Vec<Case> {
    let others = STALE_PLANS.iter().filter(|plan| plan.there != plan.kept);
    let case = |stale: &StalePlan| {
        let list = ("walks of h 255".to_string(), stale.kept.concat());
        let ends = (0, stale.last() as u16);
        stale.labelled().judged(ends, list).stating(0)
    };
    others.map(case).collect()
}

/// Plan A's complete list from 0 to 4 by g = 1 and h = 255, with other g and h; on 3 entries more than the named
/// ones.
fn call(label: &str, terms: (u16, u16)) -> Case {
    let list = vec![0, 4, 10, 1, 5, 10, 1, 8, 10];
    let case = plan_a(label, terms).judged((0, 4), ("list of 9".to_string(), list));
    case.marked(999, 3)
}

/// Plan A with g and h in their limits, and with h outside of them.
fn terms() -> Vec<Case> {
    let known = KNOWN_TERMS.map(|terms| call("plan A", terms).stating(0));
    let wrong = WRONG_TERMS.map(|terms| call("14 for plan A", terms).stating(14));
    known.into_iter().chain(wrong).collect()
}

/// Causes 1 to 5 each with 14, and 12 with 14.
fn before_keeping() -> Vec<Case> {
    let mut cases = Vec::new();
    for cause in 1..=5 {
        for terms in [(1, 0), (16, 15), (1, 256)] {
            let mut case = call(&format!("{cause} before 14"), terms);
            match cause {
                1 => case.call.stations = 257,
                _ => case.call.bytes = bytes_with_cause(cause),
            }
            cases.push(case.stating(cause));
        }
    }
    cases.extend(WRONG_TURNAROUND_TERMS.map(|terms| call("12 before 14", terms).stating(12)));
    cases
}

/// 14 with those of the call and with 9; then the first ones with h in its limits.
fn keeping_before_call() -> Vec<Case> {
    let mut cases = Vec::new();
    for (terms, refused) in [((1, 0), true), ((2, 65535), true), ((16, 16), false)] {
        for (number, words, (source, destination), scratch) in CHANGES {
            let mut case = call(&format!("14 before {words}"), terms).lent(scratch);
            case.call.operation = Judged {
                source,
                destination,
            };
            cases.push(case.stating(if refused { 14 } else { number }));
        }
    }
    let (ladder, _) = ladders_around().remove(5);
    for keeping in [0, 256] {
        let label = format!("14 before 9, g 1, h {keeping}");
        let plan = LabelledPlan {
            label,
            ..ladder.clone()
        };
        let list = ("empty list".to_string(), Vec::new());
        let case = plan.keeping_for(keeping).judged((0, 130), list);
        cases.push(case.stating(14));
    }
    cases
}

/// Detours with T around h: the walk with the detour and the one without.
fn around() -> Vec<Case> {
    let lists = [("detour", vec![0, 1, 2, 3]), ("no detour", vec![0, 3])];
    let mut cases = Vec::new();
    for plan in detours_around() {
        for (words, list) in &lists {
            let list = (words.to_string(), list.clone());
            cases.push(plan.judged((0, 3), list).stating(0));
        }
    }
    cases
}

/// Cause 9 for some h alone.
fn ladders() -> Vec<Case> {
    let ladders = ladders_around().into_iter();
    let case = |(plan, number): (LabelledPlan, u8)| {
        let list = ("list of 1".to_string(), vec![0]);
        plan.judged((0, 1), list).marked(4321, 8).stating(number)
    };
    ladders.map(case).collect()
}

/// The seed of the lists.
const SEED: u64 = 28;

/// Drawn plans: the complete list of each pair with walks of two hops or more, and one near it.
fn drawn() -> Vec<Case> {
    let mut random = Random::new(SEED);
    let mut cases = Vec::new();
    for plan in drawn_stale_plans(8) {
        for (source, destination) in pairs(plan.sizes.0.into()) {
            let ends = (source as u16, destination as u16);
            let walks = plan.paths(ends);
            if walks.first().map_or(0, Vec::len) >= 2 {
                let near = plan.near(ends);
                let complete = walks.concat().len();
                let other = (complete + random.between(1, near.len() - 1)) % near.len();
                cases.extend([complete, other].map(|at| near[at].clone()));
            }
        }
    }
    cases
}
