//! Partial loads where readings are dropped: small plans, 14 alone and with every other number, T around h, cause 9
//! for some h and k alone, blocks of detours, and drawn plans.

use crate::pair_cases::{Case, LabelledPlan};
use crate::random::Random;
use crate::stale::{
    detours_around, drawn_stale_plans, ladder_with_gap, ladders_around, plan_a, stale_blocks,
    terms_text, KNOWN_TERMS, STALE_PLANS, WRONG_TERMS, WRONG_TURNAROUND_TERMS,
};

pub fn cases() -> Vec<Case> {
    [
        examples(),
        terms(),
        before_keeping(),
        keeping_before_call(),
        too_many(),
        blocks(),
        drawn(),
    ]
    .concat()
}

/// Every number of sources on the plans by hand, and the first and all on detours with T around h.
fn examples() -> Vec<Case> {
    let plans = STALE_PLANS.iter().map(|plan| plan.labelled());
    let mut cases: Vec<Case> = plans.flat_map(|plan| plan.every_partial()).collect();
    for plan in detours_around() {
        cases.extend([1, 4].map(|sources| plan.longer_partial(sources).stating(0)));
    }
    cases
}

/// Plan A with g and h in their limits, and with h outside of them, whatever k is: 14 comes before 13.
fn terms() -> Vec<Case> {
    let mut cases = Vec::new();
    for terms in KNOWN_TERMS {
        let plan = plan_a("plan A", terms);
        cases.extend([(2, 0), (5, 0), (6, 13)].map(|(sources, number)| {
            let case = plan.longer_partial(sources);
            case.stating(number)
        }));
    }
    for terms in WRONG_TERMS {
        let plan = plan_a("14 for plan A", terms);
        cases.extend([5, u64::MAX].map(|k| plan.longer_partial(k).stating(14)));
    }
    cases
}

/// Causes 1 to 5 each with 14, and with 14, 13 and 8; and 12 with 14 and 13.
fn before_keeping() -> Vec<Case> {
    let mut cases = Vec::new();
    for cause in 1..=5 {
        for (before, sources) in [("14", 5), ("14 and 13", 6)] {
            for terms in [(1, 0), (16, 272)] {
                let plan = plan_a(&format!("{cause} before {before}"), terms);
                let case = plan.longer_partial(sources).faulty(cause);
                cases.push(match sources {
                    6 => case.lent([4, 4, 99]),
                    _ => case,
                });
            }
        }
    }
    for terms in WRONG_TURNAROUND_TERMS {
        let plan = plan_a("12 before 14", terms);
        cases.extend([5, 6].map(|sources| plan.longer_partial(sources).stating(12)));
    }
    cases
}

/// 14 with 8 of each table and of all, with and without 13; then 8 and 13 with h in its limits.
fn keeping_before_call() -> Vec<Case> {
    let mut cases = Vec::new();
    for short in [&[0][..], &[1], &[2], &[0, 1, 2]] {
        for (terms, sources, number) in [
            ((1, 0), 5, 14),
            ((2, 65535), 0, 14),
            ((1, 256), 6, 14),
            ((16, 16), 5, 8),
            ((16, 16), 6, 13),
        ] {
            let plan = plan_a(&format!("14 before 8 of {short:?}"), terms);
            cases.push(plan.partial(sources).shorter(short).stating(number));
        }
    }
    cases
}

/// Cause 9 for some h alone: of the first source, and of one behind others; and 14 before it.
fn too_many() -> Vec<Case> {
    let mut cases = Vec::new();
    for (plan, number) in ladders_around() {
        cases.extend([(0, 0), (1, number)].map(|(k, number)| {
            let case = plan.longer_partial(k);
            case.stating(number)
        }));
    }
    for (keeping, number) in [(1, 0), (2, 9)] {
        let label = format!("gap, source 64, {}", terms_text((1, keeping)));
        let builder = ladder_with_gap(65, 32).with_source(64);
        let plan = LabelledPlan::built(&label, &builder).keeping_for(keeping);
        cases.extend([(64, 0), (65, number), (132, 13)].map(|(k, number)| {
            let case = plan.longer_partial(k);
            case.stating(number)
        }));
    }
    let (ladder, _) = ladders_around().remove(5);
    for keeping in [0, 256] {
        let label = format!("14 before 9, g 1, h {keeping}");
        let plan = LabelledPlan {
            label,
            ..ladder.clone()
        };
        let plan = plan.keeping_for(keeping);
        cases.extend([1, 132].map(|k| plan.longer_partial(k).stating(14)));
    }
    cases
}

/// A detour for each two stations, from the first one and from several.
fn blocks() -> Vec<Case> {
    let plans = stale_blocks().into_iter();
    let of_plan = |plan: LabelledPlan| {
        let half = u64::from(plan.sizes.0) / 2;
        [1, half].map(|sources| plan.longer_partial(sources).stating(0))
    };
    plans.flat_map(of_plan).collect()
}

/// The seed of numbers of sources and of marks.
const SEED: u64 = 26;

/// Drawn plans, some with every number of sources and some with one drawn.
fn drawn() -> Vec<Case> {
    let mut random = Random::new(SEED);
    let mut cases = Vec::new();
    for (index, plan) in drawn_stale_plans(12).iter().enumerate() {
        let stations = usize::from(plan.sizes.0);
        let sources = match index % 3 {
            0 => 0..=stations + 1,
            _ => {
                let drawn = random.between(1, stations);
                drawn..=drawn
            }
        };
        let mark = random.below(65536) as u16;
        cases.extend(sources.map(|sources| plan.partial(sources as u64).marked(mark)));
    }
    cases
}
