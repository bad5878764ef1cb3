//! Lists of up to 65,535 entries, with g = 1: complete, a beginning, right so far and then wrong, wrong at once.

use super::{Case, LONGEST_LIST};
use crate::lists::NearList;
use crate::pair_cases::LabelledPlan;
use crate::reach_cases::{spaced_sent_ladder, Builder};

pub fn cases() -> Vec<Case> {
    let cases = [longest(), right_so_far()].concat();
    cases.into_iter().map(|case| case.stating(0)).collect()
}

/// The plan of a builder, whose walks are listed.
fn listed(label: &str, builder: &Builder) -> LabelledPlan {
    let plan = LabelledPlan::new(label, builder.sizes(), builder.bytes());
    plan.turning(builder.turnaround() as u16)
}

/// 3 × 17 × 257 paths of 5 hops from 0 to the last station: the slot of the second hop is one of 3, that of the
/// third one of 17; the fourth is to one of 16 stations in one of 16 slots, or to another in the first of them.
fn many_paths() -> Builder {
    let mut builder = Builder::turning(1);
    let [one, two, three] = [(); 3].map(|()| builder.station());
    let (inner, other) = (builder.layer(16), builder.station());
    let last = builder.station();
    builder.send(1, 0, one);
    (2..=4).for_each(|slot| builder.send(slot, one, two));
    (5..=21).for_each(|slot| builder.send(slot, two, three));
    builder.send(22, three, other);
    for station in &inner {
        (22..=37).for_each(|slot| builder.send(slot, three, *station));
    }
    builder.hear_all(38, last, &inner);
    builder.send(38, other, last);
    builder
}

/// A complete list of the most entries, and such lists with a change.
fn longest() -> Vec<Case> {
    let builder = many_paths();
    let plan = listed("13107 paths", &builder);
    let ends = (0, builder.sizes().0 - 1);
    let all = plan.paths(ends).concat();
    assert_eq!(all.len(), LONGEST_LIST);
    let changed = |words: &str, place: usize| {
        let mut list = all.clone();
        list[place] += 1;
        (words.to_string(), list)
    };
    let prefix = |words: &str, length: usize| (words.to_string(), all[..length].to_vec());
    let lists: [NearList; 4] = [
        prefix("all", all.len()),
        prefix("all but the last path", all.len() - 5),
        changed("first entry changed", 0),
        changed("last entry changed", all.len() - 1),
    ];
    lists.map(|list| plan.judged(ends, list)).to_vec()
}

/// The first 65,535 entries of a list of 114,688: they end inside of a path.
fn right_so_far() -> Vec<Case> {
    let plan = listed("8192 paths", &spaced_sent_ladder(1, 14, 2));
    let ends = (0, 28);
    let mut all = plan.paths(ends).concat();
    assert_eq!(all.len(), 8192 * 14);
    all.truncate(LONGEST_LIST);
    vec![plan.judged(ends, ("cut inside a path".to_string(), all))]
}
