//! Through set where readings are dropped: small plans, cause 14, T around h, cause 9 for some h alone, blocks of
//! detours, and drawn plans.

use super::small::of_plan;
use super::{all_sets, Case};
use crate::pair_cases::LabelledPlan;
use crate::random::Random;
use crate::reach_cases::bytes_with_cause;
use crate::stale::{
    self, detours_around, drawn_stale_plans, ladders_around, some_detours, stale_blocks,
    KNOWN_TERMS, STALE_PLANS, WRONG_TERMS, WRONG_TURNAROUND_TERMS,
};

pub fn cases() -> Vec<Case> {
    [
        examples(),
        terms(),
        before_keeping(),
        keeping_before_call(),
        around(),
        ladders(),
        blocks(),
        drawn(),
    ]
    .concat()
}

/// Plan A from 0 to 3 with the set of stations 1 and 2, on a longer scratch.
fn plan_a(label: &str, terms: (u16, u16)) -> Case {
    let case = stale::plan_a(label, terms).through((0, 3), &[1, 2]);
    case.marked(900 + terms.1 % 50, 3)
}

/// From the first station to the last of the plans by hand: every set of those of 4 stations in which a walk calls
/// twice at one; of the others all stations, and each one and each two neighbours between the ends.
fn examples() -> Vec<Case> {
    let mut cases = Vec::new();
    for stale in STALE_PLANS {
        let (plan, last) = (stale.labelled(), stale.last());
        let ends = (0, last as u16);
        if last == 3 && stale.calls_twice() {
            cases.extend(all_sets(4).map(|members| plan.through(ends, &members)));
            continue;
        }
        let all: Vec<usize> = (0..=last).collect();
        let inner = &all[1..last];
        cases.push(plan.through(ends, &all));
        cases.extend(inner.iter().map(|member| plan.through(ends, &[*member])));
        cases.extend(inner.windows(2).map(|members| plan.through(ends, members)));
    }
    cases.into_iter().map(|case| case.stating(0)).collect()
}

/// Plan A with g and h in their limits, and with h outside of them.
fn terms() -> Vec<Case> {
    let known = KNOWN_TERMS.map(|terms| plan_a("plan A", terms).stating(0));
    let wrong = WRONG_TERMS.map(|terms| plan_a("14 for plan A", terms).stating(14));
    known.into_iter().chain(wrong).collect()
}

/// Causes 1 to 5 each with 14, and with 6, 7, 8 and 11 too; and 12 with 14.
fn before_keeping() -> Vec<Case> {
    let mut cases = Vec::new();
    for cause in 1..=5 {
        let faulty = |before: &str, terms: (u16, u16)| {
            let mut case = plan_a(&format!("{cause} before {before}"), terms);
            match cause {
                1 => case.stations = 257,
                _ => case.bytes = bytes_with_cause(cause),
            }
            case.stating(cause)
        };
        cases.extend([(1, 0), (16, 15), (1, 256)].map(|terms| faulty("14", terms)));
        let mut all = faulty("14, 6, 7, 8 and 11", (3, 2));
        (all.source, all.destination) = (300, 300);
        cases.push(all.of_set(vec![2]).lent(1));
    }
    cases.extend(WRONG_TURNAROUND_TERMS.map(|terms| plan_a("12 before 14", terms).stating(12)));
    cases
}

/// 14 with 6, 7, 8 and 11, each alone and all, and with 9; then the first ones with h in its limits.
fn keeping_before_call() -> Vec<Case> {
    let mut cases = Vec::new();
    for (terms, refused) in [((1, 0), true), ((2, 65535), true), ((16, 16), false)] {
        let mut push = |before: &str, ends: (u16, u16), change: fn(Case) -> Case, other: u8| {
            let mut case = plan_a(&format!("14 before {before}"), terms);
            (case.source, case.destination) = ends;
            cases.push(change(case).stating(if refused { 14 } else { other }));
        };
        push("6 of the source", (5, 0), |case| case, 6);
        push("6 of the destination", (0, 65535), |case| case, 6);
        push("7", (2, 2), |case| case, 7);
        push("8 of the set", (0, 3), |case| case.of_set(vec![1; 4]), 8);
        push("8 of the scratch", (0, 3), |case| case.lent(99), 8);
        let wrong_set = |case: Case| case.of_set(vec![0, 1, 2, 0, 0]);
        push("11", (0, 3), wrong_set, 11);
        let all = |case: Case| case.of_set(vec![2; 4]).lent(0);
        push("6, 8 and 11", (5, 0), all, 6);
        push("8 and 11", (0, 3), all, 8);
    }
    let (ladder, _) = ladders_around().remove(5);
    for (before, keeping, byte) in [("9", 0, 1), ("11 and 9", 256, 2)] {
        let label = format!("14 before {before}, g 1, h {keeping}");
        let plan = LabelledPlan {
            label,
            ..ladder.clone()
        };
        let mut case = plan.keeping_for(keeping).through((0, 130), &[1, 2]);
        case.set[130] = byte;
        cases.push(case.stating(14));
    }
    cases
}

/// Detours with T around h, and plans of detours: the station of the detour, and both stations between the ends.
fn around() -> Vec<Case> {
    let mut cases = Vec::new();
    for plan in detours_around() {
        cases.extend([plan.through((0, 3), &[2]), plan.through((0, 3), &[1, 2])]);
    }
    for plan in some_detours(61) {
        cases.push(plan.through((0, 3), &[2]));
    }
    cases.into_iter().map(|case| case.stating(0)).collect()
}

/// Cause 9 for some h alone: a layer, and a station of each of two layers.
fn ladders() -> Vec<Case> {
    let mut cases = Vec::new();
    for (plan, number) in ladders_around() {
        for members in [[31, 32], [1, 3]] {
            let case = plan.through((0, 64), &members);
            cases.push(case.marked(7, 2).stating(number));
        }
    }
    cases
}

/// A detour for each two stations: all, every station that is called at twice, and half of all.
fn blocks() -> Vec<Case> {
    let mut cases = Vec::new();
    for plan in stale_blocks() {
        let last = usize::from(plan.sizes.0) - 1;
        let ends = (0, last as u16);
        let through = |members: Vec<usize>, words: &str| {
            let case = plan.through(ends, &members);
            case.labelled(words).stating(0)
        };
        cases.push(through((0..=last).collect(), ""));
        cases.push(through((1..last).step_by(2).collect(), ", twice"));
        cases.push(through((last / 2..=last).collect(), ", half"));
    }
    cases
}

/// The seed of the members.
const SEED: u64 = 27;

/// Drawn plans, and stations drawn.
fn drawn() -> Vec<Case> {
    let mut random = Random::new(SEED);
    let mut cases = Vec::new();
    for plan in drawn_stale_plans(8) {
        cases.extend(of_plan(&mut random, &plan));
    }
    cases
}
