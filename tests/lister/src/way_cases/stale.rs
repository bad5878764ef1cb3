//! Traces where readings are dropped: small plans, walks of another h offered, cause 14, refused calls with another h
//! than the trace's, T around h, ladders, and drawn plans.

use super::examples::{plan_a, replies, whole_list};
use super::refusals::{beside_ladder, interrupted, too_many, with_records};
use super::small::{listing, mixed};
use super::turnarounds::{every_pair, first_and_last, other_turnarounds, spaced, stating};
use super::{marks, Arguments, Case, Step};
use crate::fast_ways;
use crate::means::{Counting, COUNT_LIMIT};
use crate::one_way::WalkList;
use crate::pair_cases::LabelledPlan;
use crate::plan::read;
use crate::random::Random;
use crate::stale::{
    detours_around, drawn_stale_plans, ladders_around, StalePlan, STALE_PLANS, WRONG_TERMS,
};
use crate::ways::{CompleteList, Way};

pub fn cases() -> Vec<Case> {
    [
        examples(),
        starts(),
        interrupted(14),
        vec![before_not_offered(), two_causes(), refused_beside()],
        around(),
        ladders(),
        drawn(),
    ]
    .concat()
}

/// A trace without steps from the first station to the last of a plan by hand.
fn on(stale: &StalePlan) -> Case {
    Case::on_plan(&stale.labelled(), (0, stale.last() as u16))
}

/// The whole list of the plans by hand.
fn examples() -> Vec<Case> {
    let whole = |stale: &StalePlan| stating(whole_list(on(stale)), replies(stale.there));
    STALE_PLANS.iter().map(whole).collect()
}

/// The buffer begins with a walk that units with h = 255 have and these do not: 10, then the whole list.
fn starts() -> Vec<Case> {
    let mut cases = Vec::new();
    for stale in STALE_PLANS {
        let other = stale.kept.iter().find(|walk| !stale.there.contains(walk));
        let Some(walk) = other else {
            continue;
        };
        let case = on(&stale).beginning(walk, stale.sizes.1);
        let label = format!("{}, offered", case.label);
        let times = case.list.len() + 1;
        let case = Case { label, ..case }.next(1).first().next(times);
        let mut stated = replies(stale.there);
        stated.pop();
        stated.insert(0, "refused 10".to_string());
        cases.push(stating(case, stated));
    }
    cases
}

/// The buffer begins with no path: 14 comes before 10.
fn before_not_offered() -> Case {
    let mut case = plan_a("14 before 10", (0, 4)).holding(marks(5));
    let pair = case.pair;
    let mut stated = Vec::new();
    for (turnaround, keeping) in WRONG_TERMS {
        let call = Arguments {
            turnaround,
            keeping,
            ..pair
        };
        case = case.then(Step::Call(Way::Next, call));
        stated.push("refused 14");
    }
    stated.push("refused 10");
    case.next(1).stating(&stated)
}

/// 14 with each other number in one call, between the ways: 1 to 5 and 12 come before it, the others behind it.
fn two_causes() -> Case {
    let mut case = beside_ladder("14 and another cause in one call").first();
    let pair = case.pair;
    let twice = with_records(&mut case, &[(1, 0, 1), (1, 0, 1)]);
    let ladder = too_many(&mut case);
    let with = |call: Arguments, keeping: u16, change: fn(&mut Arguments)| {
        let mut call = Arguments { keeping, ..call };
        change(&mut call);
        call
    };
    let calls = [
        (1, with(pair, 0, |call| call.stations = 0)),
        (1, with(pair, 256, |call| call.slots = 256)),
        (2, with(pair, 256, |call| call.plan_length = 71)),
        (3, with(pair, 0, |call| call.slots = 3)),
        (4, with(pair, 65535, |call| call.stations = 4)),
        (5, with(twice, 0, |_| {})),
        (12, with(pair, 0, |call| call.turnaround = 17)),
        (12, with(pair, 256, |call| call.turnaround = 0)),
        (14, with(pair, 0, |call| call.source = 5)),
        (14, with(pair, 256, |call| call.destination = 65535)),
        (14, with(pair, 65535, |call| call.destination = 0)),
        (14, with(pair, 0, |call| call.buffer_length = 3)),
        (14, with(pair, 256, |call| call.scratch_length = 0)),
        (14, with(pair, 15, |call| call.turnaround = 16)),
        (14, with(ladder, 0, |_| {})),
        (14, with(ladder, 256, |call| call.destination = 131)),
    ];
    let mut stated = vec!["path 3".to_string()];
    for (number, call) in calls {
        case = case.then(Step::Call(Way::Next, call));
        case = case.then(Step::Call(Way::First, call));
        stated.extend([(); 2].map(|_| format!("refused {number}")));
    }
    stated.push("path 3".to_string());
    stating(case.next(1), stated)
}

/// A trace of three walks with h = 3: refused calls with other h, 9 from a ladder with 255, and calls with 14.
fn refused_beside() -> Case {
    let stale = STALE_PLANS.iter().find(|plan| plan.there.len() == 3);
    let case = on(stale.expect("three walks"));
    let mut case = Case {
        label: "three walks, h 3, refused calls with another h".to_string(),
        counting: Counting::Fast,
        ..case.holding(marks(66)).longer_scratch(3)
    };
    let pair = case.pair;
    let ladder = too_many(&mut case);
    assert_eq!((pair.keeping, ladder.keeping), (3, 255));
    let with = |keeping: u16, change: fn(&mut Arguments)| {
        let mut call = Arguments { keeping, ..pair };
        change(&mut call);
        call
    };
    let calls = [
        (9, ladder),
        (14, with(0, |_| {})),
        (6, with(255, |call| call.source = 4)),
        (7, with(1, |call| call.destination = 0)),
        (8, with(5, |call| call.buffer_length = 5)),
        (14, with(256, |_| {})),
        (8, with(255, |call| call.scratch_length = 111)),
        (1, with(1, |call| call.slots = 0)),
        (14, with(65535, |_| {})),
    ];
    let mut stated = Vec::new();
    for round in calls.chunks(3) {
        case = match stated.is_empty() {
            true => case.first(),
            false => case.next(1),
        };
        stated.push("path 4".to_string());
        for (number, call) in round {
            case = case.then(Step::Call(Way::Next, *call));
            case = case.then(Step::Call(Way::First, *call));
            stated.extend([(); 2].map(|_| format!("refused {number}")));
        }
    }
    stated.push("last".to_string());
    stating(case.next(1), stated)
}

/// Detours with T around h: four hops where what is heard first is dropped, two otherwise.
fn around() -> Vec<Case> {
    let whole = |plan: LabelledPlan| {
        let dropped = plan.sizes.1 == plan.keeping + 2;
        let there: WalkList = match dropped {
            true => &[&[0, 1, 2, 3]],
            false => &[&[0, 3]],
        };
        stating(whole_list(Case::on_plan(&plan, (0, 3))), replies(there))
    };
    detours_around().into_iter().map(whole).collect()
}

/// The first and the last ways of ladders with g = h, and cause 9 for some h alone.
fn ladders() -> Vec<Case> {
    let mut cases = Vec::new();
    for turnaround in [1, 3] {
        let mut bare = spaced(turnaround, 64);
        bare.pair.keeping = turnaround as u16;
        bare.label += &format!(", h {turnaround}");
        cases.extend(first_and_last(bare));
    }
    for (plan, number) in ladders_around() {
        let accepted = read(plan.owned().input()).expect("a valid plan");
        let list = fast_ways::list(COUNT_LIMIT, accepted, (0, 1)).unwrap_or(None);
        let mut case = Case::unlisted(&plan.label, plan.sizes, plan.bytes, (0, 1));
        case.pair.keeping = plan.keeping;
        case.list = (0..list.count()).map(|place| list.walk(place)).collect();
        let case = case.first().next(1);
        cases.push(match number {
            9 => case.stating(&["refused 9"; 2]),
            _ => case.stating(&["path 1", "last"]),
        });
    }
    cases
}

/// The seed of the traces; each label names it.
const SEED: u64 = 29;

/// Drawn plans: whole lists, and mixed traces with refused calls of other g and h.
fn drawn() -> Vec<Case> {
    let mut random = Random::new(SEED);
    let mut cases = Vec::new();
    for (index, plan) in drawn_stale_plans(12).iter().enumerate() {
        for (at, ends) in every_pair(plan).into_iter().enumerate() {
            let case = Case::on_plan(plan, ends);
            let named = |name: &str| Case {
                label: format!("{}, {name}", case.label),
                ..case.clone()
            };
            match (index + at) % 4 {
                0 => cases.push(listing(named("all ways"), index)),
                1 => {
                    let mixed = mixed(&mut random, named("mixed"), 12);
                    let mixed = other_turnarounds(&mut random, mixed);
                    cases.push(other_keepings(&mut random, mixed));
                }
                _ => {}
            }
        }
    }
    cases
}

/// The trace with any h in half of its refused calls, and with one outside of its limits in some of its others,
/// which are then refused.
pub fn other_keepings(random: &mut Random, mut case: Case) -> Case {
    let pair = case.pair;
    for step in &mut case.steps {
        let Step::Call(_, call) = step else {
            continue;
        };
        let wrong = match random.below(3) {
            0 => pair.turnaround - 1,
            1 => 256 + pair.keeping,
            _ => u16::MAX,
        };
        if call.is_refused(pair) {
            call.keeping = match random.below(4) {
                0 => wrong,
                1 => random.between(1, 255) as u16,
                _ => call.keeping,
            };
        } else if random.below(8) == 0 {
            call.keeping = wrong;
        }
    }
    case
}
