//! Ladders, and plans around 2^64 walks from one source.

use super::Case;
use crate::pair_cases::{mixed_ladders, LabelledPlan};
use crate::plan::LEAST_TURNAROUND;
use crate::random::Random;
use crate::reach_cases::{exact_plans, falling_ladder, ladder, sent_ladder};

pub fn cases() -> Vec<Case> {
    [
        accepted(),
        too_many(),
        other_sources(),
        other_widths(),
        one_way(),
        exact(),
        mixed(),
    ]
    .concat()
}

/// A ladder of so many layers of two.
fn on(layers: usize, label: &str) -> LabelledPlan {
    let label = format!("ladder of {layers} layers{label}");
    LabelledPlan::built(&label, &ladder(layers, 2))
}

/// The two stations of a layer.
fn layer(at: usize) -> [usize; 2] {
    [2 * at - 1, 2 * at]
}

/// 64 layers, from 0 to 128: 2^63 paths, each with one station of each layer interior.
fn accepted() -> Vec<Case> {
    let plan = on(64, "");
    let through = |members: &[usize]| plan.through((0, 128), members);
    let first_of_each: Vec<usize> = (1..64).map(|at| layer(at)[0]).collect();
    let all: Vec<usize> = (0..129).collect();
    let inner = &all[1..127];
    let mut cases = vec![
        through(&[]),
        through(&[0, 128]),
        through(&[1]),
        through(&[126]),
        through(&[1, 2, 3]),
        through(&[1, 3, 5, 7]),
        through(&first_of_each).labelled(", one of each layer"),
        through(inner).labelled(", all interior ones"),
        through(&all),
    ];
    cases.extend([1, 32, 63].map(|at| through(&layer(at)).labelled(", a layer")));
    cases.push(plan.through((128, 0), &all));
    cases.push(plan.through((0, 64), &layer(31)));
    cases.push(plan.through((0, 64), &layer(33)));
    let longer = on(64, ", longer").through((0, 128), &layer(9));
    cases.push(longer.behind(&[2, 1, 255]).marked(4321, 8));
    cases.into_iter().map(|case| case.stating(0)).collect()
}

/// 65 layers: the source has 2^64 walks to the last two, whatever the destination and the set.
fn too_many() -> Vec<Case> {
    let plan = on(65, "");
    let mut cases = vec![
        plan.through((0, 130), &[]),
        plan.through((0, 130), &layer(20)),
        plan.through((0, 1), &[]),
    ];
    let longer = on(65, ", longer").through((0, 130), &layer(9));
    cases.push(longer.behind(&[2, 1, 255]).marked(4321, 8));
    cases.into_iter().map(|case| case.stating(9)).collect()
}

/// 65 layers from other sources, which have fewer walks: only the source named is worked on.
fn other_sources() -> Vec<Case> {
    let plan = on(65, "");
    let cases = vec![
        plan.through((1, 130), &layer(2)),
        plan.through((1, 130), &[2]),
        plan.through((1, 130), &[3]),
        plan.through((3, 130), &[1, 2, 4, 5]),
        plan.through((129, 130), &[0]),
        plan.through((130, 0), &layer(64)),
    ];
    cases.into_iter().map(|case| case.stating(0)).collect()
}

/// 64 and 65 layers of two whose stations send to the next layer alone.
fn one_way() -> Vec<Case> {
    let mut cases = Vec::new();
    for (layers, number) in [(64, 0), (65, 9)] {
        let last = 2 * layers as u16;
        for (name, builder, end) in [
            ("sent", sent_ladder(layers, 2), last),
            ("falling", falling_ladder(layers), 1),
        ] {
            let label = format!("{name} ladder of {layers} layers");
            let plan = LabelledPlan::built(&label, &builder);
            for members in [&layer(9)[..], &[5]] {
                cases.push(plan.through((0, end), members).stating(number));
            }
            cases.push(plan.through((end, 0), &[5]).stating(0));
        }
    }
    cases
}

/// Ladders of other widths whose stations send to the next layer alone, the last accepted one and the
/// first that is not.
fn other_widths() -> Vec<Case> {
    let mut cases = Vec::new();
    for (width, layers, number) in [(3, 41, 0), (3, 42, 9), (7, 23, 0), (7, 24, 9)] {
        let label = format!("sent ladder of {layers} layers, {width} wide");
        let plan = LabelledPlan::built(&label, &sent_ladder(layers, width));
        let end = (width * layers) as u16;
        let layer: Vec<usize> = (1..=width).collect();
        let sets = [layer.as_slice(), &layer[1..], &[1, 1 + width]];
        cases.extend(sets.map(|members| plan.through((0, end), members).stating(number)));
    }
    cases
}

/// The plans around 2^64 of reach-cases, with all stations and with one.
fn exact() -> Vec<Case> {
    let mut cases = Vec::new();
    for exact in exact_plans(64, LEAST_TURNAROUND) {
        let plan = LabelledPlan::built(&exact.label, &exact.builder);
        let stations = usize::from(exact.builder.sizes().0);
        let ends = (0, stations as u16 - 1);
        let all: Vec<usize> = (0..stations).collect();
        for members in [&all[..], &all[1..2]] {
            let case = plan.through(ends, members).stating(exact.number);
            cases.push(case.marked(7, 2));
        }
    }
    cases
}

/// The seed of the members; each label names it.
const SEED: u64 = 7;

/// Ladders with counts that are no powers of two, with stations drawn.
fn mixed() -> Vec<Case> {
    let mut random = Random::new(SEED);
    let mut cases = Vec::new();
    for mixed in mixed_ladders() {
        let plan = LabelledPlan::built(&mixed.label, &mixed.builder);
        let stations = usize::from(mixed.builder.sizes().0);
        for end in mixed.last {
            for odds in [2, 10, 30] {
                let members = (0..stations).filter(|_| random.below(odds) == 0);
                let members: Vec<usize> = members.collect();
                let case = plan.through((0, end as u16), &members);
                cases.push(case.labelled(&format!(", drawn {odds}")));
            }
        }
    }
    cases
}
