//! The refusals of take in and take out, alone and several in one call, and tables of lengths around 255.

use super::{table, Case};
use crate::band::Taking;
use crate::cases::PLAN_A;
use crate::pair_cases::LabelledPlan;
use crate::reach_cases::{bytes_with_cause, plan_faults};

pub fn cases() -> Vec<Case> {
    [plans(), plan_before_call(), lengths()].concat()
}

/// Both operations.
const TAKINGS: [Taking; 2] = [Taking::In(9), Taking::Out];

/// A table in which plan A fits, or has 15 and 16.
fn fitting(fits: bool) -> Vec<u16> {
    match fits {
        true => table(5, &[]),
        false => table(5, &[(1, 0), (2, 65535)]),
    }
}

/// Causes 1 to 5, in turn taking in and out, in turn on a table that is right and on one that has the operation's own
/// number too.
fn plans() -> Vec<Case> {
    let mut cases = Vec::new();
    for (index, fault) in plan_faults().into_iter().enumerate() {
        let plan = LabelledPlan::new(&fault.label, (fault.stations, fault.slots), fault.bytes);
        let (taking, fits) = (TAKINGS[index % 2], index % 4 < 2);
        let case = plan.taken(taking, fitting(fits));
        cases.push(case.stating(fault.stated.unwrap_or(0)));
    }
    cases
}

/// Plan A, or with one of the causes 1 to 5.
fn with_cause(label: &str, cause: Option<u8>) -> LabelledPlan {
    match cause {
        None => LabelledPlan::of_records(label, (5, 4), &PLAN_A),
        Some(1) => LabelledPlan::of_records(label, (5, 256), &PLAN_A),
        Some(cause) => LabelledPlan::new(label, (5, 4), bytes_with_cause(cause)),
    }
}

/// Causes 1 to 5 each with 8, with 15 or 16, and with both; then 8 with 15 or 16, and each of them alone.
fn plan_before_call() -> Vec<Case> {
    let mut cases = Vec::new();
    for cause in [Some(1), Some(2), Some(3), Some(4), Some(5), None] {
        for taking in TAKINGS {
            let own = match taking {
                Taking::In(_) => 15,
                Taking::Out => 16,
            };
            for (words, length, fits, number) in [
                ("8".to_string(), 254, true, 8),
                (own.to_string(), 255, false, own),
                (format!("8 and {own}"), 254, false, 8),
            ] {
                let label = match cause {
                    Some(cause) => format!("{cause} before {words}"),
                    None => format!("{words} of plan A"),
                };
                let lent = fitting(fits)[..length].to_vec();
                let case = with_cause(&label, cause).taken(taking, lent);
                cases.push(case.stating(cause.unwrap_or(number)));
            }
        }
    }
    cases
}

/// Tables of lengths around 255 and far from it; T never counts.
fn lengths() -> Vec<Case> {
    let mut cases = Vec::new();
    for (length, number) in [
        (0, 8),
        (1, 8),
        (4, 8),
        (128, 8),
        (254, 8),
        (255, 0),
        (256, 0),
        (300, 0),
    ] {
        for slots in [4, 255] {
            let label = format!("T {slots}, {length} entries");
            let plan = LabelledPlan::of_records(&label, (5, slots), &PLAN_A);
            for taking in TAKINGS {
                let case = plan.taken(taking, vec![5; length]);
                cases.push(case.stating(number));
            }
        }
    }
    cases
}
