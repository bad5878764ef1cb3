//! Cause 9 looks at appearances alone, at every one of them: the plans around 2^64 walks of
//! reach-cases, and plans in which the earliest slot and later ones differ.

use crate::pair_cases::{Case, LabelledPlan};
use crate::plan::LEAST_TURNAROUND;
use crate::reach_cases::{exact_plans, ladder, sent_ladder, Builder};

pub fn cases() -> Vec<Case> {
    let mut cases = known_plans();
    cases.extend(arrivals());
    let longer = |case: Case| case.longer([3, 0, 2]);
    cases.into_iter().map(longer).collect()
}

/// From the source of a plan to its last station, and to station 1, which is reached in slot 1.
pub fn to_two(label: &str, builder: &Builder, number: u8) -> [Case; 2] {
    let plan = LabelledPlan::built(label, builder);
    let end = builder.sizes().0 - 1;
    [end, 1].map(|end| plan.foremost(0, end).stating(number))
}

fn known_plans() -> Vec<Case> {
    let plans = exact_plans(64, LEAST_TURNAROUND).into_iter();
    let two = plans.flat_map(|plan| to_two(&plan.label, &plan.builder, plan.of_appearances));
    two.collect()
}

/// The layers of a ladder whose last two stations have 2^63 walks each, in slot 64.
const LAYERS: usize = 64;

/// A label; the slots in which a station behind the ladder hears the first of these two, the second,
/// and the source; the number of foremost where it sends to them too, and where it does not.
type Behind = (&'static str, [&'static [usize]; 3], u8, u8);

/// The plans. In a label "then" is in the slot in which the station behind the ladder is reached.
const BEHIND: [Behind; 8] = [
    ("2^63 then, 2^63 later", [&[65], &[66], &[]], 0, 0),
    ("2^63 then, one hop later", [&[65], &[], &[66]], 0, 0),
    (
        "2^63 then and later, sent back",
        [&[65, 67], &[66], &[]],
        9,
        0,
    ),
    ("2^64 then", [&[65], &[65], &[]], 9, 9),
    ("2^64 then, one hop later", [&[65], &[65], &[66]], 9, 9),
    ("2^64 and one hop then", [&[65], &[65], &[65]], 0, 0),
    ("2^63 then, 2^64 later", [&[65, 66], &[66], &[]], 9, 9),
    ("one hop then, 2^64 later", [&[66], &[66], &[65]], 9, 9),
];

fn arrivals() -> Vec<Case> {
    let mut cases = Vec::new();
    for (label, heard, of_both, of_one) in BEHIND {
        let [both, one] = [
            behind(ladder(LAYERS, 2), heard, Builder::meet),
            behind(sent_ladder(LAYERS, 2), heard, Builder::send),
        ];
        cases.extend(to_two(&format!("arrival, {label}"), &both, of_both));
        let [to_end, _] = to_two(&format!("one-way arrival, {label}"), &one, of_one);
        cases.push(to_end);
    }
    cases
}

/// A ladder with a station behind it that hears the last two and the source in these slots.
fn behind(
    mut builder: Builder,
    heard: [&[usize]; 3],
    join: fn(&mut Builder, usize, usize, usize),
) -> Builder {
    let end = builder.station();
    let others = [end - 2, end - 1, 0];
    for (other, slots) in others.into_iter().zip(heard) {
        for slot in slots {
            join(&mut builder, *slot, other, end);
        }
    }
    builder
}
