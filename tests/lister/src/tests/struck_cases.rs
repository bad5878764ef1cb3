//! The files of struck-cases.

use std::collections::BTreeMap;
use std::sync::OnceLock;

use super::call_files;
use super::read_back::{assert_labels, assert_stdout, entries_of, longest, with_outcomes};
use crate::files::Filed;
use crate::reach_cases::LONGEST_PLAN;
use crate::struck_cases::{all_cases, Case, Outcome, Position, LONGEST_LABEL, LONGEST_TABLES};

/// All cases with their outcomes, made once.
fn cases() -> &'static [(Case, Outcome)] {
    static CASES: OnceLock<Vec<(Case, Outcome)>> = OnceLock::new();
    CASES.get_or_init(|| with_outcomes(all_cases(), Case::outcome))
}

#[test]
fn stated_numbers_are_those_of_the_lister() {
    let mut seen = BTreeMap::new();
    for (case, outcome) in cases() {
        let generated = ["small ", "generated ", "drawn "];
        let is_generated = generated.iter().any(|word| case.label.starts_with(word));
        assert_eq!(case.stated.is_none(), is_generated, "{}", case.label);
        if let Some(stated) = case.stated {
            assert_eq!(outcome.number, stated, "{}", case.label);
            *seen.entry(stated).or_insert(0) += 1;
        }
    }
    let numbers: Vec<u8> = seen.keys().copied().collect();
    assert_eq!(numbers, [0, 1, 2, 3, 4, 5, 8, 9, 12, 14, 17]);
    assert!(seen.values().all(|times| *times > 15), "{seen:?}");
}

#[test]
fn labels_are_short_printable_and_distinct() {
    let labels = cases().iter().map(|(case, _)| case.label.as_str());
    assert_labels(labels, LONGEST_LABEL);
}

#[test]
fn lines_by_hand() {
    let behind = "5 .. 6: 999 | 100 .. 102: 999";
    let refused = "0 .. 6: 999 | 0 .. 102: 999";
    for (label, rest) in [
        (
            "plan A, g 1, h 255, position 10",
            "0 4 | 1: -1431655765 2: -2863311530 3: -12884901888 B",
        ),
        (
            "plan A, g 1, h 255, position 5",
            "0 4 | 1: 1431655766 2: -1431655764 B",
        ),
        ("plan A, g 1, h 255, position 9", "0 2 | 3: -4294967296 B"),
        ("plan A, g 1, h 255, position 12", "17 0 | R"),
        (
            "17 for plan A, g 1, h 255, position 18446744073709551615",
            "17 0 | R",
        ),
        (
            "17 for plan A, g 1, h 255, position 9223372036854775813",
            "17 0 | R",
        ),
        ("12, g 17, h 255, position 12", "12 0 | R"),
        ("14, g 2, h 1, position 3", "14 0 | R"),
        ("4 before 17, g 1, h 255, position 65535", "4 0 | R"),
        (
            "empty plan, n 1, T 1, position 0",
            "17 0 | 0 .. 2: 999 | 0 .. 10: 999",
        ),
        (
            "plan A, exactly long enough, g 1, h 255, position 2",
            "0 1 | |",
        ),
        ("8 of [0], position 12", "8 0 | 0 .. 3: 999 | 0 .. 99: 999"),
        ("8 of [1], position 10", "8 0 | 0 .. 4: 999 | 0 .. 98: 999"),
        (
            "a short cut, 1 carries its pair, g 1, h 255, position 2",
            "0 1 | 1: 4294967296 3 .. 4: 999 | 48 .. 50: 999",
        ),
        (
            "twice at 1, g 1, h 1, position 2",
            "0 3 | 1: -8589934592 2: -4294967296 4 .. 5: 999 | 80 .. 82: 999",
        ),
        (
            "9 at the last position, position 257",
            "9 0 | 131 .. 132: 999 | 34584 .. 34586: 999",
        ),
        (
            "short cut, (1, 0, 131), g 1, h 32, position 2",
            "9 0 | 132 .. 133: 4321 | 34848 .. 34850: 4321",
        ),
        (
            "n 256, T 255, empty plan, position 0",
            "17 0 | 0 .. 257: 999 | 0 .. 262146: 999",
        ),
    ] {
        let found = cases().iter().find(|(case, _)| case.label == label);
        let (case, outcome) = found.unwrap_or_else(|| panic!("no case {label}"));
        let rest = rest.replace('B', behind).replace('R', refused);
        assert_eq!(case.line(outcome), format!("{label}: {rest}"));
    }
}

#[test]
fn stdin_read_back_gives_the_cases() {
    call_files::assert_stdin(cases(), |case| case.lengths.to_vec());
}

/// The position is one number of 64 bits behind n, T, g and h.
#[test]
fn the_position_has_64_bits() {
    let mut above = 0;
    for (case, _) in cases() {
        let (stdin, Position(position)) = (case.stdin(), case.operation);
        assert_eq!(stdin[8..16], position.to_be_bytes(), "{}", case.label);
        above += usize::from(position > u16::MAX.into());
    }
    assert!(above > 20, "{above}");
}

#[test]
fn lines_read_back_give_the_outcomes() {
    let mut length = 0;
    for (case, outcome) in cases() {
        let line = case.line(outcome);
        length += line.len() + 1;
        let rest = line.strip_prefix(&case.label).unwrap();
        let [numbers, changes, scratch] = rest.split(" |").collect::<Vec<_>>()[..] else {
            panic!("{line}");
        };
        let read = Outcome {
            changes: entries_of(changes, case.lengths[0], 0),
            scratch: entries_of(scratch, case.lengths[1], 0),
            ..outcome.clone()
        };
        assert_eq!(read, *outcome, "{line}");
        let values = format!(": {} {}", outcome.number, outcome.pairs);
        assert_eq!(numbers, values, "{line}");
    }
    assert!(length < 450_000, "{length}");
}

#[test]
fn stdout_has_a_line_a_case() {
    assert_stdout(cases(), Case::line);
}

#[test]
fn cases_fit_the_program() {
    let lengths = |(case, _): &(Case, _)| {
        let [changes, scratch] = case.lengths;
        [changes, scratch, case.bytes.len()]
    };
    let [changes, scratch, plan] = longest(cases().iter().map(lengths));
    assert_eq!([changes, scratch], LONGEST_TABLES);
    assert!(plan <= LONGEST_PLAN, "{plan}");
    let full = |records: usize| {
        let has = |(case, _): &&(Case, _)| case.bytes.len() == 6 * records;
        cases().iter().filter(has).count()
    };
    assert!(full(8192) > 2 && full(8193) > 0);
}

/// What each number leaves: 9 clears the named parts, every other refusal nothing; entries behind stay.
#[test]
fn refused_calls_and_entries_behind_keep_the_marks() {
    for (case, outcome) in cases() {
        let named = [
            usize::from(case.stations),
            4 * usize::from(case.stations) * (usize::from(case.slots) + 1),
        ];
        let [changes, scratch] = match outcome.number {
            0 | 9 => named,
            _ => [0; 2],
        };
        let mark = case.mark;
        let marked = |entry: &u64| *entry == u64::from(mark);
        let behind = outcome.changes[changes..].iter();
        assert!(behind.copied().all(|entry| entry == i64::from(mark)));
        assert!(outcome.scratch[scratch..].iter().all(marked));
        assert!(outcome.scratch[..scratch].iter().all(|entry| *entry == 0));
        if outcome.number == 9 {
            assert!(outcome.changes[..changes].iter().all(|entry| *entry == 0));
        }
        assert_eq!(outcome.number == 0, outcome.pairs > 0, "{}", case.label);
    }
}

#[test]
fn listed_cases_are_counted_alike() {
    let compared = call_files::assert_counted_alike(cases(), Case::outcome);
    assert!(compared > 3000, "{compared}");
}

/// How many cases have a change above 0, one below 0, both, and none.
#[test]
fn changes_rise_fall_and_stay() {
    let mut seen = [0; 4];
    for (case, outcome) in cases() {
        if outcome.number == 0 {
            let changes = &outcome.changes[..case.stations.into()];
            let some = |holds: fn(&i64) -> bool| usize::from(changes.iter().any(holds));
            let (up, down) = (some(|change| *change > 0), some(|change| *change < 0));
            seen[2 * up + down] += 1;
        }
    }
    assert!(seen.iter().all(|count| *count > 50), "{seen:?}");
}

#[test]
fn files_are_the_same_each_time() {
    let again = all_cases();
    assert!(cases().iter().map(|(case, _)| case).eq(again.iter()));
}
