//! The refusals of through set, alone and two in one call, and memory of every length near the named
//! one.

use super::Case;
use crate::cases::PLAN_A;
use crate::lent::scratch_length;
use crate::pair_cases::LabelledPlan;
use crate::plan::within_limits;
use crate::reach_cases::{bytes_with_cause, plan_faults, sent_ladder};

pub fn cases() -> Vec<Case> {
    [
        plans(),
        plan_before_call(),
        stations(),
        same_station(),
        lengths(),
        set_bytes(),
        two_in_the_call(),
        before_too_many(),
    ]
    .concat()
}

fn plan_a(label: &str) -> LabelledPlan {
    LabelledPlan::of_records(label, (5, 4), &PLAN_A)
}

/// Plan A from 0 to 4 with the set of stations 1 and 2.
fn one_call(label: &str) -> Case {
    plan_a(label).through((0, 4), &[1, 2])
}

/// The scratch of plan A.
const SCRATCH: usize = 100;

/// Causes 1 to 5; where n and T have no named lengths, on those of plan A.
fn plans() -> Vec<Case> {
    let mut cases = Vec::new();
    for fault in plan_faults() {
        let sizes = (fault.stations, fault.slots);
        let mut plan = LabelledPlan::new(&fault.label, (5, 4), fault.bytes);
        plan.counting = fault.counting;
        let mut case = plan.through((0, 4), &[1, 2]);
        (case.stations, case.slots) = sizes;
        if within_limits(sizes.0.into(), sizes.1.into()).is_ok() {
            case.set = vec![1; sizes.0.into()];
            case.scratch = scratch_length(sizes.0.into(), sizes.1.into());
        }
        let case = case.behind(&[2, 3]).marked(999, 3);
        cases.push(case.stating(fault.stated.unwrap_or(0)));
    }
    cases
}

/// Causes 1 to 5 each with 6, 7, 8 and 11.
fn plan_before_call() -> Vec<Case> {
    let mut cases = Vec::new();
    for cause in 1..=5 {
        let faulty = |before: &str, ends: (u16, u16)| {
            let label = format!("{cause} before {before}");
            let plan = match cause {
                1 => plan_a(&label),
                _ => LabelledPlan::new(&label, (5, 4), bytes_with_cause(cause)),
            };
            let mut case = plan.through(ends, &[1, 2]).stating(cause);
            case.stations = if cause == 1 { 257 } else { 5 };
            case
        };
        cases.extend([
            faulty("6", (0, 257)),
            faulty("6", (65535, 0)),
            faulty("7", (2, 2)),
            faulty("8 of the set", (0, 4)).of_set(vec![1; 4]),
            faulty("8 of the scratch", (0, 4)).lent(SCRATCH - 1),
            faulty("8 of both", (0, 4)).of_set(Vec::new()).lent(0),
            faulty("11", (0, 4)).of_set(vec![0, 1, 2, 0, 0]),
            faulty("6, 7, 8 and 11", (300, 300)).of_set(vec![2]).lent(2),
        ]);
    }
    cases
}

/// Pairs in which a station is not one of plan A's: either, both, and both equal.
pub const UNKNOWN_PAIRS: [(u16, u16); 9] = [
    (5, 0),
    (0, 5),
    (5, 6),
    (4, 256),
    (256, 4),
    (65535, 4),
    (0, 65535),
    (5, 5),
    (65535, 65535),
];

/// Cause 6.
fn stations() -> Vec<Case> {
    let case = |ends: (u16, u16)| {
        let case = plan_a("6 for stations of plan A").through(ends, &[1]);
        case.behind(&[1, 1]).marked(998, 1).stating(6)
    };
    UNKNOWN_PAIRS.into_iter().map(case).collect()
}

/// Cause 7: each station of plan A, one without contacts, and the only one.
fn same_station() -> Vec<Case> {
    let label = "7 for stations of plan A";
    let of_plan_a = |station: u16| plan_a(label).through((station, station), &[1]);
    let mut cases: Vec<Case> = (0..5).map(of_plan_a).collect();
    let empty = LabelledPlan::of_records("7 for an empty plan", (1, 1), &[]);
    cases.push(empty.through((0, 0), &[0]));
    let alone = LabelledPlan::of_records("7 for a station alone", (6, 4), &PLAN_A);
    cases.push(alone.through((5, 5), &[5]));
    let with_memory = |case: Case| case.marked(997, 2).stating(7);
    cases.into_iter().map(with_memory).collect()
}

/// Cause 8: the set and the scratch too short, exactly long enough, and longer.
fn lengths() -> Vec<Case> {
    let mut cases = Vec::new();
    for length in [0, 1, 4] {
        let label = format!("8 for a set of {length}");
        let set = vec![1; length];
        let case = one_call(&label).of_set(set.clone());
        cases.push(case.stating(8));
        let case = one_call(&format!("{label}, scratch longer"));
        cases.push(case.of_set(set).marked(501, 9).stating(8));
    }
    for length in [0, 1, 25, 80, 99] {
        let case = one_call(&format!("8 for a scratch of {length}"));
        cases.push(case.lent(length).stating(8));
        let case = one_call(&format!("8 for a scratch of {length}, set longer"));
        cases.push(case.behind(&[1; 9]).lent(length).stating(8));
    }
    let both = one_call("8 for both").of_set(vec![1; 4]).lent(99);
    cases.push(both.stating(8));
    for more in [0, 1, 40] {
        let case = one_call(&format!("{more} entries more")).behind(&vec![1; more]);
        cases.push(case.marked(502, more).stating(0));
    }
    cases
}

/// Cause 11: each byte of the set, with each value that is next to 0 and 1 or to 256.
fn set_bytes() -> Vec<Case> {
    let mut cases = Vec::new();
    for place in 0..5 {
        for byte in [2, 3, 128, 254, 255] {
            let mut case = one_call(&format!("11 for {byte} at {place}"));
            case.set[place] = byte;
            cases.push(case.marked(996, 2).stating(11));
        }
    }
    let whole = |label: &str, set: &[u8]| one_call(label).of_set(set.to_vec());
    cases.extend([
        whole("11 for all bytes 2", &[2; 5]).stating(11),
        whole("11 for all bytes 255", &[255; 5]).stating(11),
        whole("11 and a 2 behind", &[0, 0, 0, 0, 2, 2]).stating(11),
        whole("a 2 just behind", &[0, 1, 1, 0, 0, 2]).stating(0),
        whole("a 255 just behind", &[0, 1, 1, 0, 0, 255]).stating(0),
    ]);
    let none = plan_a("11 for a pair without a path").through((4, 0), &[]);
    cases.push(none.of_set(vec![0, 0, 0, 0, 9]).stating(11));
    cases
}

/// Causes 6, 7 and 8 with each other and with 11.
fn two_in_the_call() -> Vec<Case> {
    let mut cases = Vec::new();
    let wrong = || vec![0, 1, 2, 0, 0];
    for (number, ends) in [(6, (5, 0)), (6, (0, 5)), (6, (5, 5)), (7, (3, 3))] {
        let on = |before: &str| {
            let plan = plan_a(&format!("{number} before {before}"));
            plan.through(ends, &[1, 2]).stating(number)
        };
        cases.extend([
            on("8 of the set").of_set(vec![1; 4]),
            on("8 of the scratch").lent(SCRATCH - 1),
            on("11").of_set(wrong()),
            on("8 and 11").of_set(vec![2]).lent(0),
        ]);
    }
    let on = |before: &str| one_call(&format!("8 before 11, {before}")).stating(8);
    cases.extend([
        on("short set").of_set(vec![0, 2, 0, 0]),
        on("short scratch").of_set(wrong()).lent(SCRATCH - 1),
        on("both short").of_set(vec![2; 4]).lent(SCRATCH - 1),
        on("no scratch").of_set(wrong()).lent(0),
    ]);
    cases
}

/// Causes 6, 7, 8 and 11 with 9: a ladder of 65 layers.
fn before_too_many() -> Vec<Case> {
    let on = |label: &str, ends: (u16, u16)| {
        let plan = LabelledPlan::built(&format!("{label} before 9"), &sent_ladder(65, 2));
        plan.through(ends, &[1, 2])
    };
    let set = on("", (0, 130)).set;
    let scratch = on("", (0, 130)).scratch;
    let short = set[..130].to_vec();
    let mut first = set.clone();
    first[0] = 2;
    let mut last = set;
    last[130] = 255;
    vec![
        on("6", (0, 131)).stating(6),
        on("6", (131, 0)).stating(6),
        on("7", (0, 0)).stating(7),
        on("8 of the set", (0, 130)).of_set(short).stating(8),
        on("8 of the scratch", (0, 130))
            .lent(scratch - 1)
            .stating(8),
        on("11 at the first", (0, 130))
            .of_set(first)
            .marked(995, 4)
            .stating(11),
        on("11 at the last", (0, 130))
            .of_set(last)
            .marked(994, 4)
            .stating(11),
    ]
}
