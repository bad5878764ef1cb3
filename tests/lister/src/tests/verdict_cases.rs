//! The files of verdict-cases.

use std::collections::BTreeMap;
use std::sync::OnceLock;

use super::read_back::{
    assert_labels, assert_stdout, entries_of, longest, take, take_number, with_outcomes,
};
use crate::files::stdin_bytes;
use crate::means::Counting;
use crate::reach_cases::LONGEST_PLAN;
use crate::verdict_cases::{
    all_cases, Case, Outcome, LONGEST_LABEL, LONGEST_LIST, LONGEST_SCRATCH,
};
use crate::verdicts::{Verdict, VERDICTS};

/// All cases with their outcomes, made once.
fn cases() -> &'static [(Case, Outcome)] {
    static CASES: OnceLock<Vec<(Case, Outcome)>> = OnceLock::new();
    CASES.get_or_init(|| with_outcomes(all_cases(), Case::outcome))
}

#[test]
fn stated_numbers_are_those_of_the_lister() {
    let mut seen = BTreeMap::new();
    for (case, outcome) in cases() {
        if let Some(stated) = case.call.stated {
            assert_eq!(outcome.number, stated, "{}", case.call.label);
            *seen.entry(stated).or_insert(0) += 1;
        }
    }
    let numbers: Vec<u8> = seen.keys().copied().collect();
    assert_eq!(numbers, [0, 1, 2, 3, 4, 5, 6, 7, 8, 9, 12, 14]);
    assert!(seen.values().all(|times| *times > 4), "{seen:?}");
}

#[test]
fn hand_made_cases_state_their_numbers() {
    let generated = ["small ", "generated ", "drawn "];
    for (case, _) in cases() {
        let label = &case.call.label;
        let is_generated = generated.iter().any(|word| label.starts_with(word));
        assert_eq!(case.call.stated.is_none(), is_generated, "{label}");
    }
}

/// A label names g, or it is 1; those of 12 before 9 and of a cause before 12 have 17. It names h, or that is 255.
#[test]
fn cases_have_the_terms_of_their_label() {
    let mut seen = [0; 2];
    for (case, _) in cases() {
        let label = &case.call.label;
        let named = |before: &str| {
            let number = |part: &str| part.strip_prefix(before)?.parse().ok();
            label.split(", ").find_map(number)
        };
        let wrong = label.contains("before 12") || label.starts_with("12 before 9");
        let turnaround = named("g ").or(named("12 for g "));
        let turnaround = turnaround.unwrap_or(if wrong { 17 } else { 1 });
        let keeping = named("h ").unwrap_or(255);
        let terms = (case.call.turnaround, case.call.keeping);
        assert_eq!(terms, (turnaround, keeping), "{label}");
        seen[0] += usize::from(terms == (1, 255));
        seen[1] += usize::from(keeping < 255);
    }
    assert!(seen[0] > 3000 && seen[1] > 300, "{seen:?}");
}

/// A verdict stands beside 0 alone; each is there with lists of every kind.
#[test]
fn verdicts_stand_beside_accepted_calls() {
    let mut seen = BTreeMap::new();
    for (case, outcome) in cases() {
        assert_eq!(outcome.verdict.is_some(), outcome.number == 0);
        let long = case.list.len() >= LONGEST_LIST - 5;
        *seen.entry((outcome.verdict, long)).or_insert(0) += 1;
    }
    for verdict in VERDICTS {
        assert!(seen[&(Some(verdict), true)] > 0, "{seen:?}");
        assert!(seen[&(Some(verdict), false)] > 300, "{seen:?}");
    }
}

#[test]
fn labels_are_short_printable_and_distinct() {
    let labels = cases().iter().map(|(case, _)| case.call.label.as_str());
    assert_labels(labels, LONGEST_LABEL);
}

#[test]
fn lines_by_hand() {
    for (label, rest) in [
        ("plan A, 0 to 4, first 0 entries", "0 beginning |"),
        ("plan A, 0 to 4, first 3 entries", "0 beginning |"),
        ("plan A, 0 to 4, first 4 entries", "0 wrong |"),
        ("plan A, 0 to 4, first 9 entries", "0 complete |"),
        ("plan A, 0 to 4, 12 behind", "0 wrong |"),
        ("plan A, 0 to 4, path 1 missing", "0 wrong |"),
        ("plan A, 0 to 4, path 2 missing", "0 beginning |"),
        ("plan A, 0 to 4, path 1 twice", "0 wrong |"),
        ("plan A, 0 to 4, paths in the other order", "0 wrong |"),
        ("plan A, 0 to 4, first path behind all", "0 wrong |"),
        ("plan A, 2 to 1, first 0 entries", "0 complete |"),
        ("plan A, 2 to 1, 65535 behind", "0 wrong |"),
        ("plan A, g 2, 0 to 3, first 2 entries", "0 complete |"),
        ("plan A, g 2, 1 to 4, first 2 entries", "0 complete |"),
        ("plan A, g 3, 1 to 4, first 0 entries", "0 complete |"),
        ("empty plan, 0 to 2, list []", "0 complete |"),
        ("empty plan, 0 to 2, list [0]", "0 wrong |"),
        (
            "longer, mark 4321, 0 to 4, two paths",
            "0 beginning | 100 .. 102: 4321",
        ),
        ("7 for 3, 0 to 4, list of 2", "7 | 0 .. 102: 999"),
        ("a scratch of 99, 0 to 4, list of 9", "8 | 0 .. 98: 999"),
        ("12 for g 17, 0 to 4, list of 0", "12 | 0 .. 102: 999"),
        (
            "14 for plan A, g 3, h 2, 0 to 4, list of 9",
            "14 | 0 .. 102: 999",
        ),
        (
            "twice at 1, no path, g 1, h 1, 0 to 3, first 4 entries",
            "0 complete |",
        ),
        (
            "twice at 1, no path, g 1, h 1, 0 to 3, walks of h 255",
            "0 wrong |",
        ),
        (
            "three walks with one detour, g 1, h 3, 0 to 3, first 8 entries",
            "0 beginning |",
        ),
        (
            "three walks with one detour, g 1, h 3, 0 to 3, path 1 missing",
            "0 wrong |",
        ),
        (
            "nothing before 9, 0 to 130, empty list",
            "9 | 34584 .. 34587: 994",
        ),
        ("ladder of 64 layers, 0 to 128, first path", "0 beginning |"),
        (
            "ladder of 64 layers, 0 to 128, last path alone",
            "0 wrong |",
        ),
        (
            "ladder of 65 layers, 130 to 128, first path",
            "0 complete |",
        ),
        ("13107 paths, 0 to 21, all", "0 complete |"),
        ("13107 paths, 0 to 21, last entry changed", "0 wrong |"),
        (
            "13107 paths, 0 to 21, all but the last path",
            "0 beginning |",
        ),
        ("8192 paths, 0 to 28, cut inside a path", "0 wrong |"),
        (
            "n 256, T 255, row, 0 to 255, first 255 entries",
            "0 complete |",
        ),
        (
            "n 256, T 255, row, 0 to 255, first 254 entries",
            "0 wrong |",
        ),
    ] {
        let found = cases().iter().find(|(case, _)| case.call.label == label);
        let (case, outcome) = found.unwrap_or_else(|| panic!("no case {label}"));
        assert_eq!(case.line(outcome), format!("{label}: {rest}"));
    }
}

/// Asserts that the next case of standard input is a given one.
fn assert_read(stdin: &mut &[u8], Case { call, list }: &Case) {
    let head = [2; 9].map(|length| take_number(stdin, length));
    let scratch = take_number(stdin, 4);
    let asked = [
        call.stations.into(),
        call.slots.into(),
        call.turnaround.into(),
        call.keeping.into(),
        call.operation.source.into(),
        call.operation.destination.into(),
        call.bytes.len(),
        call.label.len(),
        call.mark.into(),
    ];
    assert_eq!((head, [scratch]), (asked, call.lengths), "{}", call.label);
    assert_eq!(take(stdin, call.label.len()), call.label.as_bytes());
    assert_eq!(take(stdin, call.bytes.len()), call.bytes);
    let length = take_number(stdin, 2);
    let entries: Vec<u16> = (0..length).map(|_| take_number(stdin, 2) as u16).collect();
    assert_eq!(entries, *list, "{}", call.label);
}

#[test]
fn stdin_read_back_gives_the_cases() {
    let all: Vec<Case> = cases().iter().map(|(case, _)| case.clone()).collect();
    let stdin = stdin_bytes(&all);
    assert!(stdin.len() < 1_650_000, "{}", stdin.len());
    let mut rest = stdin.as_slice();
    for case in &all {
        assert_read(&mut rest, case);
    }
    assert!(rest.is_empty());
}

#[test]
fn lines_read_back_give_the_outcomes() {
    for (case, outcome) in cases() {
        let line = case.line(outcome);
        let rest = line.strip_prefix(&case.call.label).unwrap();
        let (answer, runs) = rest.split_once(" |").unwrap();
        let word = outcome.verdict.map_or("", Verdict::word);
        let expected = format!(": {} {word}", outcome.number);
        assert_eq!(answer, expected.trim_end(), "{line}");
        let scratch = entries_of(runs, case.call.lengths[0], 0);
        assert_eq!(scratch, outcome.scratch, "{line}");
    }
}

#[test]
fn stdout_has_a_line_a_case() {
    assert_stdout(cases(), Case::line);
}

#[test]
fn cases_fit_the_program() {
    let lengths = |(Case { call, list }, _): &(Case, _)| {
        let [scratch] = call.lengths;
        [call.bytes.len(), list.len(), scratch]
    };
    let longest = longest(cases().iter().map(lengths));
    assert!(longest[0] <= LONGEST_PLAN, "{longest:?}");
    assert_eq!(longest[1..], [LONGEST_LIST, LONGEST_SCRATCH]);
}

#[test]
fn listed_cases_are_judged_alike_path_by_path() {
    let mut compared = 0;
    for (case, outcome) in cases() {
        if case.call.counting == Counting::Listed {
            let mut counted = case.clone();
            counted.call.counting = Counting::Fast;
            assert_eq!(counted.outcome(), *outcome, "{}", case.call.label);
            compared += 1;
        }
    }
    assert!(compared > 3000, "{compared}");
}

#[test]
fn cases_are_the_same_each_time() {
    let again = all_cases();
    assert!(cases().iter().map(|(case, _)| case).eq(again.iter()));
}
