//! Plan A with every set from 0 to 4, other pairs, plans with one direction alone, and plans without
//! contacts.

use super::{all_sets, Case};
use crate::cases::{doubled, PLAN_A};
use crate::one_way::ONE_WAY_PLANS;
use crate::pair_cases::LabelledPlan;
use crate::plans::pairs;

pub fn cases() -> Vec<Case> {
    let plan_a = LabelledPlan::of_records("plan A", (5, 4), &PLAN_A);
    let mut cases: Vec<Case> = all_sets(5)
        .map(|members| plan_a.through((0, 4), &members))
        .collect();
    for (source, destination) in pairs(5) {
        let ends = (source as u16, destination as u16);
        if ends == (0, 4) {
            continue;
        }
        cases.extend([
            plan_a.through(ends, &[0, 1, 2, 3, 4]),
            plan_a.through(ends, &[source.min(destination), source.max(destination)]),
            plan_a.through(ends, &[3]),
        ]);
    }
    cases.extend(longer_sets(&plan_a));
    cases.extend(one_way());
    let ten = doubled(&[(1, 0, 1), (1, 1, 2)]);
    let ten = LabelledPlan::of_records("P10 two contacts in slot 1", (3, 1), &ten);
    let two = doubled(&[(1, 0, 1), (2, 1, 2)]);
    let two = LabelledPlan::of_records("two contacts in turn", (3, 2), &two);
    let empty = LabelledPlan::of_records("empty plan", (3, 1), &[]);
    for plan in [ten, two, empty] {
        cases.extend(all_sets(3).map(|members| plan.through((0, 2), &members)));
    }
    let smallest = doubled(&[(1, 0, 1)]);
    let smallest = LabelledPlan::of_records("two stations", (2, 1), &smallest);
    cases.extend(all_sets(2).map(|members| smallest.through((1, 0), &members)));
    cases.into_iter().map(|case| case.stating(0)).collect()
}

/// Plans with one direction alone, there and back: all stations, each one that is neither the first nor
/// the last, and all of these.
fn one_way() -> Vec<Case> {
    let mut cases = Vec::new();
    for plan in ONE_WAY_PLANS {
        let (labelled, last) = (plan.labelled(), plan.last());
        let all: Vec<usize> = (0..=last.into()).collect();
        let inner = &all[1..last.into()];
        for ends in [(0, last), (last, 0)] {
            cases.push(labelled.through(ends, &all));
            cases.extend(
                inner
                    .iter()
                    .map(|member| labelled.through(ends, &[*member])),
            );
            if inner.len() != 1 {
                cases.push(labelled.through(ends, inner));
            }
        }
    }
    cases
}

/// Sets with further bytes, which are not looked at, and longer scratch.
fn longer_sets(plan: &LabelledPlan) -> Vec<Case> {
    let one = |words: &str, behind: &[u8]| {
        let case = plan.through((0, 4), &[2]).behind(behind);
        case.labelled(words)
    };
    vec![
        one(", a 1 behind", &[1]),
        one(", a 2 behind", &[2]),
        one(", 255 and 0 behind", &[255, 0]),
        one(", 300 bytes behind", &[7; 300]),
        one(", longer", &[1, 9]).marked(4321, 3),
        one(", mark 0", &[]).marked(0, 2),
        one(", mark 65535", &[]).marked(65535, 40),
    ]
}
