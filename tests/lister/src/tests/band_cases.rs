//! The files of band-cases.

use std::collections::BTreeMap;
use std::sync::OnceLock;

use super::read_back::{
    assert_labels, assert_stdout, entries_of, longest, take, take_number, with_outcomes,
};
use crate::band::{Taking, BAND_SLOTS};
use crate::band_cases::{all_cases, Case, Outcome, LONGEST_LABEL, LONGEST_TABLE};
use crate::files::stdin_bytes;
use crate::reach_cases::LONGEST_PLAN;

/// All cases with their outcomes, made once.
fn cases() -> &'static [(Case, Outcome)] {
    static CASES: OnceLock<Vec<(Case, Outcome)>> = OnceLock::new();
    CASES.get_or_init(|| with_outcomes(all_cases(), Case::outcome))
}

/// The kind of a taking, and its c.
fn kind(taking: Taking) -> (usize, usize) {
    match taking {
        Taking::In(channels) => (0, channels.into()),
        Taking::Out => (1, 0),
    }
}

#[test]
fn stated_numbers_are_those_of_the_lister() {
    let mut seen = BTreeMap::new();
    for (case, outcome) in cases() {
        let label = &case.label;
        assert_eq!(
            case.stated.is_none(),
            label.starts_with("drawn "),
            "{label}"
        );
        if let Some(stated) = case.stated {
            assert_eq!(outcome.number, stated, "{label}");
            *seen.entry((kind(case.taking).0, stated)).or_insert(0) += 1;
        }
    }
    let numbers = |last: u8| [0, 1, 2, 3, 4, 5, 8, last];
    let expected = [(0, numbers(15)), (1, numbers(16))];
    let expected = expected.map(|(kind, numbers)| numbers.map(|number| (kind, number)));
    let keys: Vec<(usize, u8)> = seen.keys().copied().collect();
    assert_eq!(keys, expected.concat());
    assert!(seen.values().all(|times| *times > 3), "{seen:?}");
}

/// The drawn cases have both answers of each operation.
#[test]
fn drawn_cases_have_both_answers() {
    let drawn = cases().iter().filter(|(case, _)| case.stated.is_none());
    let mut seen: Vec<(usize, u8)> = drawn
        .map(|(case, outcome)| (kind(case.taking).0, outcome.number))
        .collect();
    seen.sort();
    seen.dedup();
    assert_eq!(seen, [(0, 0), (0, 15), (1, 0), (1, 16)]);
}

#[test]
fn refused_calls_and_entries_behind_keep_the_table() {
    let mut marks = 0;
    for (case, outcome) in cases() {
        let kept = if outcome.number == 0 { BAND_SLOTS } else { 0 };
        assert_eq!(outcome.table[kept..], case.table[kept..], "{}", case.label);
        marks += usize::from(outcome.number == 0 && case.table.len() > BAND_SLOTS);
    }
    assert!(marks > 50, "{marks}");
}

#[test]
fn labels_are_short_printable_and_distinct() {
    let labels = cases().iter().map(|(case, _)| case.label.as_str());
    assert_labels(labels, LONGEST_LABEL);
}

#[test]
fn lines_by_hand() {
    let behind = "255: 65535 257: 7";
    for (label, rest) in [
        ("plan A, in, c 4", "0 | 0 .. 1: 4 2 .. 3: 2 B"),
        ("plan A, in, c 3", "15 | B"),
        ("plan A, in, c 8, when in", "0 | 0 .. 1: 8 2 .. 3: 4 B"),
        ("plan A, out, when in", "0 | B"),
        ("plan A, out, when in twice", "0 | 0 .. 1: 4 2 .. 3: 2 B"),
        ("plan A, out", "16 | B"),
        ("doubled, in, c 2", "0 | 0: 2 2: 2 B"),
        (
            "empty plan, n 1, T 1, in, c 0, on ones",
            "15 | 0 .. 254: 1 B",
        ),
        (
            "three records, in, c 10, 10 in slot 255",
            "0 | 0: 5 1: 3 2: 4 3 .. 253: 3 254: 10 B",
        ),
        (
            "three records, in, c 10, 11 in slot 5",
            "15 | 0 .. 3: 3 4: 11 5 .. 254: 3 B",
        ),
        (
            "three records, out, 65535 behind",
            "0 | 1: 2 2: 1 3 .. 254: 2 255 .. 299: 65535",
        ),
        ("8 of plan A, in, c 9", "8 | 0 .. 253: 5"),
        ("T 4, 254 entries, out", "8 | 0 .. 253: 5"),
        (
            "T 255, 300 entries, out",
            "0 | 0 .. 1: 1 2 .. 3: 3 4 .. 299: 5",
        ),
        (
            "plan A, in, c 65535, 65531 in slot 1",
            "0 | 0: 65535 1: 4 2 .. 3: 2 B",
        ),
        ("plan A, in, c 4, 65532 in slot 1", "15 | 0: 65532 B"),
        (
            "8192 records in slot 1, in, c 65535, 57343 in it",
            "0 | 0: 65535 B",
        ),
        (
            "8192 records in slot 1, in, c 65535, 57344 in it",
            "15 | 0: 57344 B",
        ),
        (
            "8192 records in slot 255, out, 65535 in it",
            "0 | 0 .. 253: 1 254: 57343 B",
        ),
        ("T 255, row, in, c 1, on 0", "0 | 0 .. 254: 1 B"),
    ] {
        let found = cases().iter().find(|(case, _)| case.label == label);
        let (case, outcome) = found.unwrap_or_else(|| panic!("no case {label}"));
        let rest = rest.replace('B', behind);
        assert_eq!(case.line(outcome), format!("{label}: {rest}"));
    }
}

/// Asserts that the next case of standard input is a given one.
fn assert_read(stdin: &mut &[u8], case: &Case) {
    let head = [2; 7].map(|length| take_number(stdin, length));
    let (kind, channels) = kind(case.taking);
    let sizes = [case.stations, case.slots].map(usize::from);
    let lengths = [case.bytes.len(), case.label.len(), case.table.len()];
    let asked = [&[kind], &sizes[..], &[channels], &lengths].concat();
    assert_eq!(head, asked[..], "{}", case.label);
    assert_eq!(take(stdin, case.label.len()), case.label.as_bytes());
    assert_eq!(take(stdin, case.bytes.len()), case.bytes);
    for entry in &case.table {
        assert_eq!(take_number(stdin, 2), usize::from(*entry), "{}", case.label);
    }
}

#[test]
fn stdin_read_back_gives_the_cases() {
    let all: Vec<Case> = cases().iter().map(|(case, _)| case.clone()).collect();
    let stdin = stdin_bytes(&all);
    assert!(stdin.len() < 1_000_000, "{}", stdin.len());
    let mut rest = stdin.as_slice();
    for case in &all {
        assert_read(&mut rest, case);
    }
    assert!(rest.is_empty());
}

#[test]
fn lines_read_back_give_the_outcomes() {
    for (case, outcome) in cases() {
        let line = case.line(outcome);
        let rest = line.strip_prefix(&case.label).unwrap();
        let (number, runs) = rest.split_once(" |").unwrap();
        assert_eq!(number, format!(": {}", outcome.number), "{line}");
        let entries = outcome.table.iter().copied().map(u64::from);
        assert!(entries_of(runs, case.table.len(), 0)
            .into_iter()
            .eq(entries));
    }
}

#[test]
fn stdout_has_a_line_a_case() {
    assert_stdout(cases(), Case::line);
}

/// The tables have 254, 255 and 300 entries, among others; some plans have T 255, some 8,192 records.
#[test]
fn cases_fit_the_program() {
    let lengths = |(case, _): &(Case, _)| [case.bytes.len(), case.table.len()];
    let longest = longest(cases().iter().map(lengths));
    assert!(longest[0] <= LONGEST_PLAN, "{longest:?}");
    assert_eq!(longest[1], LONGEST_TABLE);
    let some = |holds: fn(&Case) -> bool| cases().iter().filter(|(case, _)| holds(case)).count();
    assert!(some(|case| case.table.len() == 254) > 10);
    assert!(some(|case| case.table.len() == 255) > 3);
    assert!(some(|case| case.slots == 255) > 20);
    assert!(some(|case| case.bytes.len() == 6 * 8192) > 10);
}

#[test]
fn cases_are_the_same_each_time() {
    let again = all_cases();
    assert!(cases().iter().map(|(case, _)| case).eq(again.iter()));
}
