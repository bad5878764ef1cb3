//! Ladders: lists of the first of up to 2^63 paths, and cause 9. Where a label names no turnaround it is 1.

use super::Case;
use crate::fast_ways;
use crate::means::COUNT_LIMIT;
use crate::pair_cases::LabelledPlan;
use crate::plan::read;
use crate::reach_cases::{falling_ladder, spaced_ladder, spaced_sent_ladder, Builder};
use crate::ways::CompleteList;

pub fn cases() -> Vec<Case> {
    [accepted(), too_many(), other_sources()].concat()
}

/// Some paths of a pair, by their places.
fn some_paths(plan: &LabelledPlan, ends: (u16, u16), places: &[u128]) -> Vec<Vec<u16>> {
    let accepted = read(plan.owned().input()).expect("a valid plan");
    let ends = (ends.0.into(), ends.1.into());
    let paths = fast_ways::list(COUNT_LIMIT, accepted, ends).expect("few walks");
    places.iter().map(|place| paths.walk(*place)).collect()
}

/// Lists of the first three paths and of the last one of 2^63, from 0 to the last station.
fn first_and_last(label: &str, builder: &Builder) -> Vec<Case> {
    let plan = LabelledPlan::built(label, builder);
    let ends = (0, builder.sizes().0 - 1);
    let paths = some_paths(&plan, ends, &[0, 1, 2, (1 << 63) - 1]);
    let [one, two, three, last] = [0, 1, 2, 3].map(|at| paths[at].as_slice());
    let cut = &three[..three.len() - 1];
    let case = |(words, parts): (&str, &[&[u16]])| {
        plan.judged(ends, (words.to_string(), parts.concat()))
            .stating(0)
    };
    [
        ("no path", &[][..]),
        ("first path", &[one]),
        ("first two paths", &[one, two]),
        ("first three paths", &[one, two, three]),
        ("third path cut", &[one, two, cut]),
        ("second path missing", &[one, three]),
        ("first path twice", &[one, one]),
        ("first two swapped", &[two, one]),
        ("second path alone", &[two]),
        ("last path alone", &[last]),
        ("first and last path", &[one, last]),
    ]
    .map(case)
    .to_vec()
}

fn accepted() -> Vec<Case> {
    [
        first_and_last("ladder of 64 layers", &spaced_ladder(1, 64, 2)),
        first_and_last("sent ladder of 64 layers", &spaced_sent_ladder(1, 64, 2)),
        first_and_last("spaced ladder of 64, g 3", &spaced_sent_ladder(3, 64, 2)),
    ]
    .concat()
}

/// 65 layers: 9, whatever the list and the destination.
fn too_many() -> Vec<Case> {
    let mut cases = Vec::new();
    for (label, builder) in [
        ("ladder of 65 layers", spaced_ladder(1, 65, 2)),
        ("falling ladder of 65 layers", falling_ladder(65)),
        ("spaced ladder of 65, g 3", spaced_sent_ladder(3, 65, 2)),
    ] {
        let plan = LabelledPlan::built(label, &builder);
        for (ends, list) in [
            ((0, 130), vec![]),
            ((0, 1), vec![]),
            ((0, 1), vec![0]),
            ((0, 130), vec![65535; 65]),
        ] {
            let words = format!("list of {}", list.len());
            let case = plan.judged(ends, (words, list));
            cases.push(case.marked(4321, 8).stating(9));
        }
    }
    cases
}

/// 65 layers from sources with fewer walks: only the source named is worked on. The pair 130, 128 has one path.
fn other_sources() -> Vec<Case> {
    let plan = LabelledPlan::built("ladder of 65 layers", &spaced_ladder(1, 65, 2));
    let mut cases = Vec::new();
    for ends in [(1, 130), (130, 128)] {
        let first = some_paths(&plan, ends, &[0]).concat();
        for (words, list) in [("no path", Vec::new()), ("first path", first)] {
            cases.push(plan.judged(ends, (words.to_string(), list)).stating(0));
        }
    }
    cases
}
