//! P4, P6, P7 and P10, every pair of plan A and of plans with one direction alone.

use super::Case;
use crate::cases::{doubled, plan_bytes, PLAN_A};
use crate::one_way::{OneWayPlan, WalkList, ONE_WAY_PLANS};

pub fn cases() -> Vec<Case> {
    let mut cases = named_examples();
    cases.extend(every_pair());
    cases.extend(ONE_WAY_PLANS.iter().flat_map(one_way));
    cases
}

/// A trace without steps on plan A.
pub fn plan_a(label: &str, stations: (u16, u16)) -> Case {
    Case::on_records(label, (5, 4), &PLAN_A, stations)
}

fn named_examples() -> Vec<Case> {
    let p10 = |label: &str, stations: (u16, u16)| {
        let two = doubled(&[(1, 0, 1), (1, 1, 2)]);
        Case::on_records(label, (3, 1), &two, stations)
    };
    vec![
        plan_a("P4 plan A, 0 to 4, then last twice", (0, 4))
            .first()
            .next(4)
            .stating(&["path 3", "path 3", "path 3", "last", "last"]),
        plan_a("P6 plan A, 2 to 1", (2, 1))
            .first()
            .next(1)
            .first()
            .stating(&["none", "refused 10", "none"]),
        plan_a("P7 plan A, after 1 8 10", (0, 4))
            .beginning(&[1, 8, 10], 4)
            .next(2)
            .stating(&["last", "last"]),
        plan_a("P7 plan A, offered 0 5 10", (0, 4))
            .beginning(&[0, 5, 10], 4)
            .next(2)
            .first()
            .next(1)
            .stating(&["refused 10", "refused 10", "path 3", "path 3"]),
        p10("P10 two contacts in slot 1, 0 to 2", (0, 2))
            .first()
            .next(1)
            .first()
            .stating(&["none", "refused 10", "none"]),
        p10("P10 two contacts in slot 1, 2 to 1", (2, 1))
            .first()
            .next(2)
            .stating(&["path 1", "last", "last"]),
    ]
}

/// The whole list, "last" twice, and the first way again.
pub fn whole_list(case: Case) -> Case {
    let times = case.list.len() + 1;
    let length = usize::from(case.pair.slots) + 2;
    let case = case.beginning(&[], length).longer_scratch(3);
    case.first().next(times).first()
}

/// The replies of a whole list.
pub fn replies(list: WalkList) -> Vec<String> {
    let Some(path) = list.first() else {
        return ["none", "refused 10", "none"].map(str::to_string).to_vec();
    };
    let path = format!("path {}", path.len());
    let mut replies = vec![path.clone(); list.len()];
    replies.extend(["last".to_string(), "last".to_string(), path]);
    replies
}

/// Plan A between any two stations.
fn every_pair() -> Vec<Case> {
    let cases = Case::every_pair("plan A", (5, 4), &plan_bytes(&PLAN_A));
    cases.into_iter().map(whole_list).collect()
}

/// A plan with one direction alone between any two stations, with the replies for its first and its
/// last one.
fn one_way(plan: &OneWayPlan) -> Vec<Case> {
    let stated = |case: Case| {
        let list = match (case.pair.source, case.pair.destination) {
            (0, end) if end == plan.last() => plan.there,
            (end, 0) if end == plan.last() => plan.back,
            _ => return case,
        };
        let stated = replies(list);
        Case { stated, ..case }
    };
    let cases = Case::every_pair(plan.label, plan.sizes, &plan_bytes(plan.records));
    cases.into_iter().map(whole_list).map(stated).collect()
}
