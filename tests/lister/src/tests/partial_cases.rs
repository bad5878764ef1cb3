//! The files of partial-cases.

use std::collections::{BTreeMap, BTreeSet};
use std::sync::OnceLock;

use super::call_files::{self, Made};
use super::read_back::assert_labels;
use crate::files::Filed;
use crate::pair_cases::{Case, Operation, LONGEST_LABEL, LONGEST_TABLES};
use crate::partial_cases::all_cases;

/// All cases with their outcomes, made once.
fn cases() -> &'static Made {
    static CASES: OnceLock<Made> = OnceLock::new();
    CASES.get_or_init(|| call_files::made(all_cases()))
}

/// The number of sources of a case.
fn sources(case: &Case) -> u64 {
    let Operation::PartialLoads(sources) = case.operation else {
        panic!("{}", case.label);
    };
    sources
}

#[test]
fn stated_numbers_are_those_of_the_lister() {
    let seen = call_files::assert_stated(cases()).into_iter();
    for (number, seen) in seen.enumerate() {
        let known = ![6, 7, 10, 11].contains(&number);
        assert_eq!(seen > 20, known, "{number}: {seen}");
    }
}

#[test]
fn hand_made_cases_state_their_numbers() {
    call_files::assert_hand_made_are_stated(cases());
}

#[test]
fn labels_are_short_printable_and_distinct() {
    let labels = cases().iter().map(|(case, _)| case.label.as_str());
    assert_labels(labels, LONGEST_LABEL);
}

#[test]
fn lines_by_hand() {
    let marks = "5 .. 6: 999 |";
    let first = "1: 2863311530 2: 5726623060";
    let behind = "5: 999 | 100 .. 102: 999";
    let lines = [
        ("plan A, k 0", &*format!("0 | {marks} {behind}")),
        (
            "plan A, k 1",
            &format!("0 | 1 .. 2: 2 3: 1 {marks} {first} 3: 4294967296 {behind}"),
        ),
        (
            "plan A, k 2",
            &format!("0 | 1 .. 2: 2 3: 3 {marks} {first} 3: 12884901888 {behind}"),
        ),
        (
            "plan A, k 5",
            &format!("0 | 1 .. 2: 2 3: 4 {marks} {first} 3: 17179869184 {behind}"),
        ),
        (
            "plan A, k 6",
            "13 | 0 .. 6: 999 | 0 .. 5: 999 | 0 .. 102: 999",
        ),
        (
            "13 for plan A, k 18446744073709551615",
            "13 | 0 .. 6: 999 | 0 .. 5: 999 | 0 .. 102: 999",
        ),
        (
            "12 for g 17, k 6",
            "12 | 0 .. 6: 999 | 0 .. 5: 999 | 0 .. 102: 999",
        ),
        (
            "14 for plan A, g 2, h 1, k 18446744073709551615",
            "14 | 0 .. 6: 999 | 0 .. 5: 999 | 0 .. 102: 999",
        ),
        (
            "twice at 1, no path, g 1, h 1, k 1",
            "0 | 1: 2 2: 1 4 .. 5: 999 | 1: 8589934592 2: 4294967296 4: 999 | 80 .. 82: 999",
        ),
        ("plan A, exactly long enough, k 0", "0 | | |"),
        (
            "plan A, g 2, k 1",
            "0 | 2: 1 5 .. 6: 999 | 2: 4294967296 5: 999 | 100 .. 102: 999",
        ),
        (
            "8 with short tables [1], k 0",
            "8 | 0 .. 6: 999 | 0 .. 3: 999 | 0 .. 102: 999",
        ),
        (
            "ladder of 65 layers from 64, k 65",
            "9 | 131 .. 132: 999 | 131: 999 | 34584 .. 34586: 999",
        ),
        (
            "ladder of 65 layers from 0, k 0",
            "0 | 131 .. 132: 999 | 131: 999 | 34584 .. 34586: 999",
        ),
        (
            "three with too many, the last, k 65",
            "9 | 67 .. 68: 4321 | 67: 4321 | 35644 .. 35646: 4321",
        ),
    ];
    call_files::assert_lines(cases(), &lines);
}

#[test]
fn stdin_read_back_gives_the_cases() {
    call_files::assert_stdin(cases(), |case| case.lengths.to_vec());
}

/// The number of sources is one number of 64 bits behind n, T, g and h.
#[test]
fn the_number_of_sources_has_64_bits() {
    let mut above = 0;
    for (case, _) in cases() {
        let stdin = case.stdin();
        assert_eq!(stdin[8..16], sources(case).to_be_bytes(), "{}", case.label);
        above += usize::from(sources(case) > u16::MAX.into());
    }
    assert!(above > 20, "{above}");
}

#[test]
fn lines_read_back_give_the_outcomes() {
    let length = call_files::assert_read_back(cases());
    assert!(length < 450_000, "{length}");
}

#[test]
fn stdout_has_a_line_a_case() {
    call_files::assert_stdout(cases());
}

#[test]
fn cases_fit_the_program() {
    let longest = call_files::longest_tables(cases());
    assert!((0..3).all(|table| longest[table] <= LONGEST_TABLES[table]));
    assert_eq!([longest[0], longest[2]], [320, 262_200]);
}

#[test]
fn listed_cases_are_counted_alike() {
    let compared = call_files::assert_counted_alike(cases(), Case::outcome);
    assert!(compared > 1500, "{compared}");
}

/// How many plans have different loads for two accepted numbers of sources.
#[test]
fn numbers_of_sources_tell_apart() {
    let mut of_plans: BTreeMap<_, BTreeSet<Vec<u64>>> = BTreeMap::new();
    for (case, outcome) in cases() {
        if outcome.number == 0 {
            let terms = (case.turnaround, case.keeping);
            let plan = (&case.bytes, case.stations, case.slots, terms);
            let loads = outcome.buffers[1][..case.stations.into()].to_vec();
            of_plans.entry(plan).or_default().insert(loads);
        }
    }
    let apart = of_plans.values().filter(|loads| loads.len() > 1).count();
    assert!(apart > 100, "{apart} of {}", of_plans.len());
}

/// Without a source all is 0, whatever the plan.
#[test]
fn no_source_gives_zeros() {
    let mut seen = 0;
    for (case, outcome) in cases() {
        if sources(case) == 0 && outcome.number == 0 {
            let named = usize::from(case.stations);
            let zeros = |table: usize| outcome.buffers[table][..named].iter().all(|x| *x == 0);
            assert!(zeros(0) && zeros(1), "{}", case.label);
            seen += 1;
        }
    }
    assert!(seen > 100, "{seen}");
}

#[test]
fn files_are_the_same_each_time() {
    call_files::assert_same_each_time(cases(), all_cases());
}
