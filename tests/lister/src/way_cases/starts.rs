//! What the buffer begins with, starting over, the entries behind the hops, and lent beginnings of the buffer.

use std::ops::Range;

use super::examples::plan_a;
use super::{marks, Arguments, Case, Step};
use crate::cases::{plan_bytes, PLAN_A};
use crate::ways::Way;

pub fn cases() -> Vec<Case> {
    [
        on_a_path(),
        on_no_path(),
        no_records(),
        parts_of_plan_a(),
        starting_over(),
        behind_the_hops(),
        lent_beginnings(),
    ]
    .concat()
}

/// Plan A from 0 to 4, the buffer beginning with the entries.
fn offered(entries: &[u16]) -> Case {
    let words: Vec<String> = entries.iter().map(u16::to_string).collect();
    let label = format!("plan A, 0 to 4, offered {}", words.join(" "));
    plan_a(&label, (0, 4)).beginning(entries, 5)
}

/// Next way is the first call, and the buffer begins with a path.
fn on_a_path() -> Vec<Case> {
    vec![
        offered(&[0, 4, 10])
            .next(4)
            .stating(&["path 3", "path 3", "last", "last"]),
        offered(&[1, 5, 10])
            .next(3)
            .stating(&["path 3", "last", "last"]),
        offered(&[1, 8, 10])
            .next(1)
            .first()
            .next(3)
            .stating(&["last", "path 3", "path 3", "path 3", "last"]),
        plan_a("plan A, 0 to 3, on its second way", (0, 3))
            .beginning(&[1, 5], 4)
            .next(2)
            .stating(&["path 2", "last"]),
        plan_a("plan A, 4 to 3, on its one way", (4, 3))
            .beginning(&[11], 4)
            .next(2)
            .stating(&["last", "last"]),
    ]
}

/// The buffer begins with no path of the pair: 10 each time, until the first way is given.
fn on_no_path() -> Vec<Case> {
    let lists: [&[u16]; 19] = [
        &[0, 4],
        &[0, 4, 8],
        &[0, 5, 8],
        &[0, 8, 10],
        &[0, 10, 10],
        &[1, 4, 10],
        &[1, 5, 8, 10],
        &[1, 10, 10],
        &[4, 0, 10],
        &[4, 10],
        &[10, 4, 0],
        &[0, 0, 0, 0],
        &[61, 0, 4, 10],
        // One record of a path in its other direction.
        &[2, 4, 10],
        &[3, 5, 10],
        &[0, 6, 10],
        &[1, 7, 10],
        &[1, 9, 10],
        &[0, 4, 11],
    ];
    let case = |entries: &&[u16]| {
        let case = offered(entries).next(2).first().next(1);
        case.stating(&["refused 10", "refused 10", "path 3", "path 3"])
    };
    let mut cases: Vec<Case> = lists.iter().map(case).collect();
    cases.push(
        plan_a("plan A, 1 to 0, on no way", (1, 0))
            .beginning(&[0], 4)
            .next(1)
            .first()
            .next(1)
            .stating(&["refused 10", "path 1", "last"]),
    );
    cases.push(
        plan_a("plan A, 2 to 1, offered two contacts of one slot", (2, 1))
            .beginning(&[3, 0], 4)
            .next(1)
            .first()
            .stating(&["refused 10", "none"]),
    );
    cases
}

/// One entry of the last path is no position: m, the most records, the largest numbers.
fn no_records() -> Vec<Case> {
    let mut cases = Vec::new();
    for hop in 0..3 {
        for position in [12, 256, 8191, 8192, 32768, 65535] {
            let mut entries = [1, 8, 10];
            entries[hop] = position;
            let case = offered(&entries).next(1).first().next(1);
            cases.push(case.stating(&["refused 10", "path 3", "path 3"]));
        }
    }
    let all = offered(&[65535; 5]).next(2);
    cases.push(all.stating(&["refused 10", "refused 10"]));
    cases
}

/// Some records of plan A as the plan; a record behind or before them is none of it.
fn parts_of_plan_a() -> Vec<Case> {
    let on = |label: &str, part: Range<usize>, stations: (u16, u16)| {
        let mut case = Case::on_records(label, (5, 4), &PLAN_A[part.clone()], stations);
        case.bytes = plan_bytes(&PLAN_A);
        case.pair.plan_from = 6 * part.start as u16;
        case
    };
    vec![
        on("plan A, its first eight records, 0 to 3", 0..8, (0, 3))
            .beginning(&[1, 8], 4)
            .next(1)
            .first()
            .next(2)
            .stating(&["refused 10", "path 2", "path 2", "last"]),
        on("plan A, its last eleven records, 0 to 4", 1..12, (0, 4))
            .beginning(&[1, 5, 10], 4)
            .next(1)
            .first()
            .next(2)
            .stating(&["refused 10", "path 3", "path 3", "last"]),
    ]
}

/// First way starts over, before and behind the end.
fn starting_over() -> Vec<Case> {
    let start = plan_a("plan A, 0 to 4, starting over", (0, 4));
    let case = start.first().first().next(1).first().next(2).first();
    let case = case.next(3).first().next(1);
    vec![case.stating(&[
        "path 3", "path 3", "path 3", "path 3", "path 3", "path 3", "path 3", "path 3", "path 3",
        "last", "path 3", "path 3",
    ])]
}

/// The caller's entries behind the hops stay, and may be written between calls.
fn behind_the_hops() -> Vec<Case> {
    let write = |entry: u16, value: u16| Step::Write(entry, value);
    let kept = plan_a("plan A, 0 to 3, entries behind the hops", (0, 3))
        .holding(marks(7))
        .first()
        .then(write(2, 65535))
        .then(write(6, 0))
        .next(1)
        .then(write(2, 5))
        .next(1)
        .then(write(3, 1))
        .then(write(3, 4))
        .then(write(4, 2))
        .next(1)
        .first()
        .then(write(5, 3))
        .next(1);
    let one_hop = plan_a("plan A, 3 to 4, entries behind the hop", (3, 4))
        .then(write(1, 2))
        .then(write(3, 65535))
        .first()
        .then(write(1, 4))
        .next(1)
        .then(write(2, 4))
        .next(1);
    let no_path = plan_a("plan A, 4 to 0, entries written between", (4, 0))
        .first()
        .then(write(3, 5))
        .next(1)
        .first();
    vec![
        kept.stating(&["path 2", "path 2", "path 2", "last", "path 2", "path 2"]),
        one_hop.stating(&["path 1", "last", "last"]),
        no_path.stating(&["none", "refused 10", "none"]),
    ]
}

/// Each call is lent another beginning of the buffer: T entries, more, and too few.
fn lent_beginnings() -> Vec<Case> {
    let on = |label: &str, stations: (u16, u16), calls: &[(Way, u16)]| {
        let case = plan_a(label, stations).holding(marks(9));
        let lend = |case: Case, (way, buffer_length): &(Way, u16)| {
            let arguments = Arguments {
                buffer_length: *buffer_length,
                ..case.pair
            };
            case.then(Step::Call(*way, arguments))
        };
        calls.iter().fold(case, lend)
    };
    let (first, next) = (Way::First, Way::Next);
    vec![
        on(
            "plan A, 0 to 4, lent beginnings",
            (0, 4),
            &[(first, 4), (next, 9), (next, 5), (next, 4), (next, 8)],
        )
        .stating(&["path 3", "path 3", "path 3", "last", "last"]),
        on(
            "plan A, 0 to 4, lent beginnings of 0 to T - 1",
            (0, 4),
            &[
                (first, 3),
                (first, 4),
                (next, 3),
                (next, 0),
                (next, 4),
                (first, 1),
                (next, 6),
            ],
        )
        .stating(&[
            "refused 8",
            "path 3",
            "refused 8",
            "refused 8",
            "path 3",
            "refused 8",
            "path 3",
        ]),
        on(
            "plan A, 0 to 1, one hop and T - 1 entries lent",
            (0, 1),
            &[
                (first, 3),
                (first, 4),
                (next, 3),
                (next, 1),
                (next, 4),
                (next, 5),
            ],
        )
        .stating(&[
            "refused 8",
            "path 1",
            "refused 8",
            "refused 8",
            "last",
            "last",
        ]),
        on(
            "plan A, 2 to 1, no way and T - 1 entries lent",
            (2, 1),
            &[(first, 3), (first, 4), (next, 3), (next, 4), (first, 9)],
        )
        .stating(&["refused 8", "none", "refused 8", "refused 10", "none"]),
    ]
}
