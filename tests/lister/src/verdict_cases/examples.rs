//! Lists near the complete ones of plan A, of plans with one direction alone, of plans with turnarounds, and of
//! plans without a path; then plan A on a longer scratch.

use super::Case;
use crate::cases::PLAN_A;
use crate::one_way::ONE_WAY_PLANS;
use crate::pair_cases::LabelledPlan;
use crate::plans::pairs;
use crate::turned::TURNED_PLANS;

pub fn cases() -> Vec<Case> {
    let cases = [plan_a(), one_way(), turned(), no_path(), longer()].concat();
    cases.into_iter().map(|case| case.stating(0)).collect()
}

fn labelled_plan_a(label: &str, turnaround: u16) -> LabelledPlan {
    LabelledPlan::of_records(label, (5, 4), &PLAN_A).turning(turnaround)
}

/// Plan A: every pair with g = 1, and two pairs with larger ones.
fn plan_a() -> Vec<Case> {
    let plan = labelled_plan_a("plan A", 1);
    let all = pairs(5).map(|(source, destination)| (source as u16, destination as u16));
    let mut cases: Vec<Case> = all.flat_map(|ends| plan.near(ends)).collect();
    for turnaround in [2, 3] {
        let label = format!("plan A, g {turnaround}");
        let plan = labelled_plan_a(&label, turnaround);
        cases.extend([(0, 3), (1, 4)].iter().flat_map(|ends| plan.near(*ends)));
    }
    cases
}

/// Plans with one direction alone, there and back, with g = 1.
fn one_way() -> Vec<Case> {
    let mut cases = Vec::new();
    for plan in ONE_WAY_PLANS {
        for ends in [(0, plan.last()), (plan.last(), 0)] {
            cases.extend(plan.labelled().turning(1).near(ends));
        }
    }
    cases
}

/// Plans with turnarounds, from the first station to the last.
fn turned() -> Vec<Case> {
    let plans = TURNED_PLANS.iter();
    plans
        .flat_map(|plan| plan.labelled().near((0, plan.last())))
        .collect()
}

/// Plans in which the pair has no path: the empty list, and lists of one entry and of two.
fn no_path() -> Vec<Case> {
    let empty = LabelledPlan::of_records("empty plan", (3, 1), &[]);
    let away = LabelledPlan::of_records("records of others", (4, 2), &[(1, 0, 1), (2, 1, 3)]);
    let late = LabelledPlan::of_records("too soon, g 2", (3, 2), &[(1, 0, 1), (2, 1, 2)]);
    let mut cases = Vec::new();
    for plan in [empty.turning(1), away.turning(1), late.turning(2)] {
        for list in [&[][..], &[0], &[1], &[2], &[65535], &[0, 1], &[0, 0]] {
            let words = format!("list {list:?}");
            cases.push(plan.judged((0, 2), (words, list.to_vec())));
        }
    }
    cases
}

/// Plan A with g = 1 on a longer scratch, which holds several marks.
fn longer() -> Vec<Case> {
    let mut cases = Vec::new();
    for (mark, more) in [(0, 2), (1, 1), (4321, 3), (65535, 40)] {
        for (words, list) in [
            ("all", &[0, 4, 10, 1, 5, 10, 1, 8, 10][..]),
            ("two paths", &[0, 4, 10, 1, 5, 10]),
            ("no path", &[]),
            ("a path cut", &[0, 4]),
        ] {
            let plan = labelled_plan_a(&format!("longer, mark {mark}"), 1);
            let case = plan.judged((0, 4), (words.to_string(), list.to_vec()));
            cases.push(case.marked(mark, more));
        }
    }
    cases
}
