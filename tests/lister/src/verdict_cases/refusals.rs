//! The refusals of the verdict, alone and two in one call, and a scratch of every length near the named one. A list
//! is never too short.

use super::{Case, Judged};
use crate::cases::PLAN_A;
use crate::lent::scratch_length;
use crate::pair_cases::LabelledPlan;
use crate::plan::within_limits;
use crate::reach_cases::{bytes_with_cause, plan_faults, spaced_sent_ladder};
use crate::set_cases::UNKNOWN_PAIRS;
use crate::turned::WRONG_TURNAROUNDS;

pub fn cases() -> Vec<Case> {
    [
        plans(),
        plan_before_call(),
        turnarounds(),
        turnaround_before_call(),
        stations(),
        same_station(),
        lengths(),
        station_before_length(),
        before_too_many(),
    ]
    .concat()
}

/// The lists of the calls: plan A's complete one from 0 to 4, none, a beginning, and what is no position.
const LISTS: [&[u16]; 4] = [
    &[0, 4, 10, 1, 5, 10, 1, 8, 10],
    &[],
    &[0, 4, 10],
    &[65535, 12],
];

/// Plan A with g = 1 from 0 to 4 with one of the lists, on 3 entries more than the named ones.
fn call(label: &str, list: usize) -> Case {
    let plan = LabelledPlan::of_records(label, (5, 4), &PLAN_A).turning(1);
    let list = LISTS[list % LISTS.len()];
    let words = format!("list of {}", list.len());
    plan.judged((0, 4), (words, list.to_vec())).marked(999, 3)
}

impl Case {
    /// The case with another pair; the label keeps the first one.
    fn of_pair(mut self, (source, destination): (u16, u16)) -> Case {
        self.call.operation = Judged {
            source,
            destination,
        };
        self
    }

    /// The case with another turnaround.
    fn turning(self, turnaround: u16) -> Case {
        self.on(|call| call.turning(turnaround))
    }

    /// The case with one of the causes 1 to 5.
    fn faulty(mut self, cause: u8) -> Case {
        match cause {
            1 => self.call.stations = 257,
            _ => self.call.bytes = bytes_with_cause(cause),
        }
        self.stating(cause)
    }
}

/// The scratch of plan A.
const SCRATCH: usize = 100;

/// Changes of a call that give 6, 7 and 8: the number, the words, the pair, and the scratch.
pub const CHANGES: [(u8, &str, (u16, u16), usize); 7] = [
    (6, "6 of the source", (5, 0), SCRATCH),
    (6, "6 of the destination", (0, 65535), SCRATCH),
    (6, "6 and 7", (300, 300), SCRATCH),
    (7, "7", (2, 2), SCRATCH),
    (8, "8", (0, 4), SCRATCH - 1),
    (6, "6, 7 and 8", (5, 5), 0),
    (7, "7 and 8", (3, 3), 1),
];

/// Causes 1 to 5; where n and T have no named length, on that of plan A.
fn plans() -> Vec<Case> {
    let mut cases = Vec::new();
    for (index, fault) in plan_faults().into_iter().enumerate() {
        let sizes = (fault.stations, fault.slots);
        let mut case = call(&fault.label, index);
        (case.call.stations, case.call.slots) = sizes;
        case.call.bytes = fault.bytes;
        case.call.counting = fault.counting;
        if within_limits(sizes.0.into(), sizes.1.into()).is_ok() {
            case = case.lent(scratch_length(sizes.0.into(), sizes.1.into()) + 3);
        }
        cases.push(case.stating(fault.stated.unwrap_or(0)));
    }
    cases
}

/// Causes 1 to 5 each with 12, and with those of the call.
fn plan_before_call() -> Vec<Case> {
    let mut cases = Vec::new();
    for cause in 1..=5 {
        for turnaround in [1, 0] {
            for (index, (_, words, ends, scratch)) in CHANGES.into_iter().enumerate() {
                let label = format!("{cause} before {words}, g {turnaround}");
                let case = call(&label, index).of_pair(ends).lent(scratch);
                cases.push(case.turning(turnaround).faulty(cause));
            }
        }
        let label = format!("{cause} before 12");
        cases.push(call(&label, 0).turning(17).faulty(cause));
    }
    cases
}

/// Cause 12.
fn turnarounds() -> Vec<Case> {
    let mut cases = Vec::new();
    for turnaround in WRONG_TURNAROUNDS {
        for list in 0..LISTS.len() {
            let case = call(&format!("12 for g {turnaround}"), list);
            cases.push(case.turning(turnaround).stating(12));
        }
    }
    cases
}

/// 12 with those of the call; then these with a turnaround in its limits.
fn turnaround_before_call() -> Vec<Case> {
    let mut cases = Vec::new();
    for turnaround in [0, 17, 65535, 16] {
        for (index, (number, words, ends, scratch)) in CHANGES.into_iter().enumerate() {
            let label = format!("12 before {words}, g {turnaround}");
            let case = call(&label, index).of_pair(ends).lent(scratch);
            let number = if turnaround == 16 { number } else { 12 };
            cases.push(case.turning(turnaround).stating(number));
        }
    }
    cases
}

/// Cause 6.
fn stations() -> Vec<Case> {
    let case = |(index, ends): (usize, (u16, u16))| {
        let label = format!("6 for {} to {}", ends.0, ends.1);
        call(&label, index).of_pair(ends).stating(6)
    };
    UNKNOWN_PAIRS.into_iter().enumerate().map(case).collect()
}

/// Cause 7: each station of plan A.
fn same_station() -> Vec<Case> {
    let case = |station: u16| {
        let case = call(&format!("7 for {station}"), station.into());
        case.of_pair((station, station)).stating(7)
    };
    (0..5).map(case).collect()
}

/// Cause 8: each list with a scratch too short, exactly long enough, and longer.
fn lengths() -> Vec<Case> {
    let mut cases = Vec::new();
    for list in 0..LISTS.len() {
        for (length, number) in [
            (0, 8),
            (1, 8),
            (25, 8),
            (80, 8),
            (99, 8),
            (100, 0),
            (140, 0),
        ] {
            let case = call(&format!("a scratch of {length}"), list);
            cases.push(case.lent(length).stating(number));
        }
    }
    cases
}

/// 6, 7 and 8 with each other.
fn station_before_length() -> Vec<Case> {
    let changes = CHANGES.into_iter().enumerate();
    let case = |(index, (number, words, ends, scratch)): (usize, (u8, &str, (u16, u16), usize))| {
        let case = call(&format!("the first of {words}"), index);
        case.of_pair(ends).lent(scratch).stating(number)
    };
    changes.map(case).collect()
}

/// 12, 6, 7 and 8 with 9: a ladder of 65 layers, with g = 1 but for 12.
fn before_too_many() -> Vec<Case> {
    let on = |label: &str, ends: (u16, u16)| {
        let ladder = spaced_sent_ladder(1, 65, 2);
        let plan = LabelledPlan::built(&format!("{label} before 9"), &ladder);
        plan.judged(ends, ("empty list".to_string(), Vec::new()))
    };
    let scratch = on("", (0, 130)).call.lengths[0];
    vec![
        on("12", (0, 130)).turning(17).marked(995, 4).stating(12),
        on("6", (0, 131)).stating(6),
        on("6", (131, 0)).stating(6),
        on("7", (0, 0)).stating(7),
        on("8", (0, 130)).lent(scratch - 1).stating(8),
        on("nothing", (0, 130)).marked(994, 4).stating(9),
    ]
}
