//! Cause 9 looks at the sources below k alone: plans in which one source, at any place, has counts around
//! 2^64, and one in which several have too many.

use crate::pair_cases::{Case, LabelledPlan};
use crate::reach_cases::{
    exact_plans, ladder, most_turnaround, sent_ladder, spaced_sent_ladder, Builder, Exact,
};

pub fn cases() -> Vec<Case> {
    let mut cases = Vec::new();
    for source in [0, 1, 64, 129, 130] {
        let label = format!("ladder of 65 layers from {source}");
        let builder = ladder(65, 2).with_source(source);
        cases.extend(around(&label, &builder, source, 9));
    }
    let sent = sent_ladder(65, 2).with_source(77);
    cases.extend(around("sent ladder from 77", &sent, 77, 9));
    let spaced = spaced_sent_ladder(3, 65, 2).with_source(50);
    cases.extend(around("spaced ladder from 50, g 3", &spaced, 50, 9));
    cases.extend(exact());
    cases.extend(several());
    cases
}

/// No source, those below one that has so many walks, that one too, all, and one more than there are. The
/// number is that of the source's counts.
fn around(label: &str, builder: &Builder, source: usize, number: u8) -> Vec<Case> {
    let plan = LabelledPlan::built(label, builder);
    let (stations, source) = (u64::from(builder.sizes().0), source as u64);
    let mut numbers = vec![(0, 0), (source, 0), (source + 1, number)];
    numbers.extend([(stations, number), (stations + 1, 13)]);
    numbers.dedup();
    let stated = |(sources, number): (u64, u8)| plan.longer_partial(sources).stating(number);
    numbers.into_iter().map(stated).collect()
}

/// Some of the plans around 2^64 walks, with their source behind other stations.
fn exact() -> Vec<Case> {
    let chosen = |(index, exact): (usize, Exact)| (index % 4 == 1).then_some(exact);
    let of_each = |plans: Vec<Exact>| plans.into_iter().enumerate().filter_map(chosen);
    let plans = of_each(exact_plans(64, 1)).chain(of_each(exact_plans(64, 2)));
    let plans = plans.chain(most_turnaround().into_iter().take(2));
    let mut cases = Vec::new();
    for (index, exact) in plans.enumerate() {
        let source = 1 + index % 5;
        let builder = exact.builder.with_source(source);
        let plan = LabelledPlan::built(&exact.label, &builder);
        let source = source as u64;
        cases.push(plan.longer_partial(source).stating(0));
        cases.push(plan.longer_partial(source + 1).stating(exact.number));
    }
    cases
}

/// A row of 67 stations, each meeting the next in two slots: the first three have too many walks, with 2^66,
/// 2^65 and 2^64 to the last; in the other order the last three.
fn several() -> Vec<Case> {
    let mut builder = Builder::start();
    builder.slot_ladder(66, 2);
    let plan = |label: &str, builder: &Builder| LabelledPlan::built(label, builder);
    let first = plan("three with too many, the first", &builder);
    let last = plan("three with too many, the last", &builder.reversed());
    let stated = |sources: u64, least: u64| match sources {
        68 => 13,
        _ if sources >= least => 9,
        _ => 0,
    };
    let mut cases = Vec::new();
    for (plan, least) in [(first, 1), (last, 65)] {
        for sources in [0, 1, 2, 3, 64, 65, 66, 67, 68] {
            let case = plan.longer_partial(sources).marked(4321);
            cases.push(case.stating(stated(sources, least)));
        }
    }
    cases
}
