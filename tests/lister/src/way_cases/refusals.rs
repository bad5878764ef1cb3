//! Refused calls between those of the pair: the cursor and the buffer stay.

use super::examples::plan_a;
use super::ladders::ladder;
use super::{marks, Arguments, Case, Step};
use crate::cases::{plan_bytes, Record, PLAN_A};
use crate::means::Counting;
use crate::ways::Way;

pub fn cases() -> Vec<Case> {
    let mut cases: Vec<Case> = (1..=9).flat_map(interrupted).collect();
    cases.push(before_not_offered());
    cases.push(two_causes());
    cases
}

/// A refused call, with its name.
type Refused = (&'static str, Arguments);

/// Plan A from 0 to 4; the buffer and the scratch are longer than named.
fn listed(label: &str) -> Case {
    let case = plan_a(label, (0, 4)).holding(marks(6));
    case.longer_scratch(2).marked(31)
}

/// The same with a buffer that is long enough for the ladder of 65 layers.
pub fn beside_ladder(label: &str) -> Case {
    Case {
        counting: Counting::Fast,
        ..listed(label).holding(marks(66))
    }
}

/// The pair's call with records as its plan.
pub fn with_records(case: &mut Case, records: &[Record]) -> Arguments {
    case.with_plan(&plan_bytes(records))
}

/// First way or next way of the ladder of 65 layers.
pub fn too_many(case: &mut Case) -> Arguments {
    let ladder = ladder(65, 1);
    Arguments {
        plan_from: case.with_plan(&ladder.bytes).plan_from,
        scratch_length: ladder.pair.scratch_length + 1,
        ..ladder.pair
    }
}

/// Calls with the number; the case gets their plans.
pub fn refused_calls(case: &mut Case, number: u8) -> Vec<Refused> {
    let pair = case.pair;
    let with = |change: fn(&mut Arguments)| {
        let mut call = pair;
        change(&mut call);
        call
    };
    match number {
        1 => vec![
            ("n 0", with(|call| call.stations = 0)),
            ("n 257", with(|call| call.stations = 257)),
            ("n 65535", with(|call| call.stations = 65535)),
            ("T 0", with(|call| call.slots = 0)),
            ("T 256", with(|call| call.slots = 256)),
            ("T 65535", with(|call| call.slots = 65535)),
        ],
        2 => vec![
            ("71 bytes", with(|call| call.plan_length = 71)),
            ("1 byte", with(|call| call.plan_length = 1)),
            (
                "73 bytes",
                case.with_plan(&[plan_bytes(&PLAN_A).as_slice(), &[0]].concat()),
            ),
        ],
        3 => vec![
            ("T 3", with(|call| call.slots = 3)),
            ("slot 0", with_records(case, &[(0, 0, 1)])),
            ("slot 5", with_records(case, &[(1, 0, 2), (5, 0, 1)])),
            ("slot 65535", with_records(case, &[(65535, 0, 1)])),
        ],
        4 => vec![
            ("n 4", with(|call| call.stations = 4)),
            ("a = b", with_records(case, &[(1, 0, 1), (2, 3, 3)])),
            ("a = n", with_records(case, &[(1, 5, 4)])),
            ("b = n", with_records(case, &[(1, 4, 5)])),
        ],
        5 => vec![
            (
                "repeated record",
                with_records(case, &[(1, 0, 1), (1, 0, 1)]),
            ),
            ("falling slot", with_records(case, &[(2, 0, 1), (1, 0, 2)])),
        ],
        6 => vec![
            ("source n", with(|call| call.source = 5)),
            ("destination n", with(|call| call.destination = 5)),
            ("destination 65535", with(|call| call.destination = 65535)),
            (
                "both n",
                with(|call| (call.source, call.destination) = (5, 5)),
            ),
        ],
        7 => vec![
            ("0 to 0", with(|call| call.destination = 0)),
            ("4 to 4", with(|call| call.source = 4)),
        ],
        8 => vec![
            ("T - 1 entries", with(|call| call.buffer_length = 3)),
            ("no entry", with(|call| call.buffer_length = 0)),
            ("scratch one short", with(|call| call.scratch_length = 99)),
            ("no scratch", with(|call| call.scratch_length = 0)),
        ],
        9 => vec![("ladder of 65 layers", too_many(case))],
        12 => vec![
            ("g 0", with(|call| call.turnaround = 0)),
            ("g 17", with(|call| call.turnaround = 17)),
            ("g 256", with(|call| call.turnaround = 256)),
            ("g 65535", with(|call| call.turnaround = 65535)),
        ],
        _ => vec![
            ("h 0", with(|call| call.keeping = 0)),
            ("h 256", with(|call| call.keeping = 256)),
            ("h 257", with(|call| call.keeping = 257)),
            (
                "g 16, h 15",
                with(|call| (call.turnaround, call.keeping) = (16, 15)),
            ),
        ],
    }
}

/// For each two calls with the number a trace: they stand between the ways, as first way and as next way.
pub fn interrupted(number: u8) -> Vec<Case> {
    let mut start = match number {
        9 => beside_ladder(""),
        _ => listed(""),
    };
    let calls = refused_calls(&mut start, number);
    let trace = |calls: &[Refused]| {
        let names: Vec<&str> = calls.iter().map(|(name, _)| *name).collect();
        let label = format!("{number} between ways, {}", names.join(", "));
        let mut case = Case {
            label,
            ..start.clone()
        }
        .first();
        for (_, call) in calls {
            case = case
                .then(Step::Call(Way::First, *call))
                .then(Step::Call(Way::Next, *call))
                .next(1);
        }
        let refused = format!("refused {number}");
        let mut stated = vec!["path 3"];
        for _ in calls {
            stated.extend([refused.as_str(), &refused, "path 3"]);
        }
        stated.push(if calls.len() == 2 { "last" } else { "path 3" });
        case.next(1).stating(&stated)
    };
    calls.chunks(2).map(trace).collect()
}

/// The buffer begins with no path: each of 1 to 9 comes before 10.
fn before_not_offered() -> Case {
    let mut case = beside_ladder("1 to 9 before 10");
    let mut stated = Vec::new();
    for number in 1..=9 {
        for (_, call) in refused_calls(&mut case, number) {
            case = case.then(Step::Call(Way::Next, call));
            stated.push(format!("refused {number}"));
        }
    }
    stated.push("refused 10".to_string());
    let stated: Vec<&str> = stated.iter().map(String::as_str).collect();
    case.next(1).stating(&stated)
}

/// Two causes in one call, between the ways: the earlier number comes.
fn two_causes() -> Case {
    let mut case = beside_ladder("two causes in one call").first();
    let pair = case.pair;
    let twice = with_records(&mut case, &[(1, 0, 1), (1, 0, 1)]);
    let ladder = too_many(&mut case);
    let with = |mut call: Arguments, change: fn(&mut Arguments)| {
        change(&mut call);
        call
    };
    let calls = [
        (
            1,
            with(pair, |call| (call.stations, call.plan_length) = (0, 71)),
        ),
        (
            1,
            with(pair, |call| (call.slots, call.destination) = (0, 5)),
        ),
        (
            1,
            with(pair, |call| (call.slots, call.buffer_length) = (256, 3)),
        ),
        (
            2,
            with(pair, |call| (call.plan_length, call.slots) = (71, 3)),
        ),
        (
            2,
            with(pair, |call| (call.plan_length, call.source) = (71, 4)),
        ),
        (3, with(pair, |call| (call.slots, call.stations) = (3, 4))),
        (3, with(pair, |call| (call.slots, call.source) = (3, 4))),
        (
            4,
            with(pair, |call| (call.stations, call.destination) = (4, 4)),
        ),
        (
            4,
            with(pair, |call| (call.stations, call.scratch_length) = (4, 0)),
        ),
        (5, with(twice, |call| call.source = 5)),
        (5, with(twice, |call| call.buffer_length = 3)),
        (
            6,
            with(pair, |call| (call.source, call.destination) = (5, 5)),
        ),
        (
            6,
            with(pair, |call| (call.destination, call.buffer_length) = (5, 3)),
        ),
        (
            7,
            with(pair, |call| (call.source, call.scratch_length) = (4, 99)),
        ),
        (6, with(ladder, |call| call.destination = 131)),
        (7, with(ladder, |call| call.destination = 0)),
        (8, with(ladder, |call| call.buffer_length = 64)),
        (8, with(ladder, |call| call.scratch_length -= 2)),
    ];
    let mut stated = vec!["path 3".to_string()];
    for (number, call) in calls {
        case = case.then(Step::Call(Way::Next, call));
        stated.push(format!("refused {number}"));
    }
    stated.push("path 3".to_string());
    let stated: Vec<&str> = stated.iter().map(String::as_str).collect();
    case.next(1).stating(&stated)
}
