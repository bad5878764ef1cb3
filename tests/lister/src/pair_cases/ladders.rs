//! Ladders.

use super::{Case, LabelledPlan};
use crate::reach_cases::{falling_ladder, ladder, sent_ladder};

pub fn cases() -> Vec<Case> {
    [
        accepted_ladders(),
        too_many(),
        other_sources(),
        other_widths(),
        one_way(),
    ]
    .concat()
}

/// A ladder of so many layers of two.
fn on(layers: usize, label: &str) -> LabelledPlan {
    let label = format!("ladder of {layers} layers{label}");
    LabelledPlan::built(&label, &ladder(layers, 2))
}

/// The last station of such a ladder.
fn last(layers: usize) -> u16 {
    2 * layers as u16
}

/// 64 layers.
fn accepted_ladders() -> Vec<Case> {
    let plan = on(64, "");
    let mut cases = vec![
        plan.pair(0, last(64)),
        plan.pair(0, last(64) - 1),
        plan.pair(0, last(64) / 2),
        plan.pair(last(64), 0),
        plan.loads(),
        plan.busiest(),
    ];
    let plan = on(64, ", longer");
    for case in [plan.pair(0, last(64)), plan.loads()] {
        cases.push(case.longer([7, 6, 8]).marked(4321));
    }
    cases.into_iter().map(|case| case.stating(0)).collect()
}

/// 65 layers: the source has 2^64 walks to the last two, whatever the destination.
fn too_many() -> Vec<Case> {
    let (plan, longer) = (on(65, ""), on(65, ", longer"));
    let mut cases = vec![
        plan.pair(0, last(65)),
        plan.pair(0, 1),
        plan.pair(0, 64),
        plan.loads(),
        plan.busiest(),
    ];
    for case in [longer.pair(0, last(65)), longer.loads(), longer.busiest()] {
        cases.push(case.longer([7, 6, 8]).marked(4321));
    }
    cases.into_iter().map(|case| case.stating(9)).collect()
}

/// 65 layers from other sources, which have fewer walks: pair works on its source alone.
fn other_sources() -> Vec<Case> {
    let plan = on(65, "");
    let pairs = [
        (1, 130),
        (2, 129),
        (3, 130),
        (64, 130),
        (129, 130),
        (130, 0),
    ];
    let case = |(source, destination): (u16, u16)| plan.pair(source, destination).stating(0);
    pairs.into_iter().map(case).collect()
}

/// 64 and 65 layers of two whose stations send to the next layer alone.
fn one_way() -> Vec<Case> {
    let mut cases = Vec::new();
    for (layers, number) in [(64, 0), (65, 9)] {
        for (name, builder, end) in [
            ("sent", sent_ladder(layers, 2), last(layers)),
            ("falling", falling_ladder(layers), 1),
        ] {
            let label = format!("{name} ladder of {layers} layers");
            let plan = LabelledPlan::built(&label, &builder);
            cases.push(plan.pair(0, end).stating(number));
            cases.push(plan.pair(end, 0).stating(0));
            cases.push(plan.loads().stating(number));
        }
    }
    cases
}

/// Ladders of other widths whose stations send to the next layer alone, the last accepted one and the
/// first that is not.
fn other_widths() -> Vec<Case> {
    let mut cases = Vec::new();
    for (width, layers, number) in [(3, 41, 0), (3, 42, 9), (7, 23, 0), (7, 24, 9)] {
        let label = format!("sent ladder of {layers} layers, {width} wide");
        let plan = LabelledPlan::built(&label, &sent_ladder(layers, width));
        cases.push(plan.pair(0, (width * layers) as u16).stating(number));
        cases.push(plan.loads().stating(number));
    }
    cases
}
