//! The files of set-cases.

use std::sync::OnceLock;

use super::read_back::{
    assert_labels, assert_stdout, entries_of, longest, take, take_number, with_outcomes,
};
use crate::files::stdin_bytes;
use crate::means::{Counting, COUNTED};
use crate::reach_cases::LONGEST_PLAN;
use crate::set_cases::{all_cases, Case, Outcome, LONGEST_LABEL, LONGEST_SCRATCH, LONGEST_SET};

/// All cases with their outcomes, made once.
fn cases() -> &'static [(Case, Outcome)] {
    static CASES: OnceLock<Vec<(Case, Outcome)>> = OnceLock::new();
    CASES.get_or_init(|| with_outcomes(all_cases(), Case::outcome))
}

#[test]
fn stated_numbers_are_those_of_the_lister() {
    let mut seen = [0; 15];
    for (case, outcome) in cases() {
        if let Some(stated) = case.stated {
            assert_eq!(outcome.number, stated, "{}", case.label);
            seen[usize::from(stated)] += 1;
        }
    }
    for (number, seen) in seen.into_iter().enumerate() {
        let known = ![10, 13].contains(&number);
        assert_eq!(seen > 4, known, "{number}: {seen}");
    }
}

#[test]
fn hand_made_cases_state_their_numbers() {
    let generated = ["small ", "generated ", "mixed ladder", "drawn "];
    for (case, _) in cases() {
        let is_generated = generated.iter().any(|word| case.label.starts_with(word));
        assert_eq!(case.stated.is_none(), is_generated, "{}", case.label);
    }
}

#[test]
fn labels_are_short_printable_and_distinct() {
    let labels = cases().iter().map(|(case, _)| case.label.as_str());
    assert_labels(labels, LONGEST_LABEL);
}

#[test]
fn lines_by_hand() {
    for (label, rest) in [
        ("plan A, 0 to 4, set 1 2", "0 3 |"),
        ("plan A, 0 to 4, set 2", "0 2 |"),
        ("plan A, 0 to 4, set 0 4", "0 0 |"),
        ("plan A, 0 to 4, empty set", "0 0 |"),
        ("plan A, 0 to 4, set of all", "0 3 |"),
        ("plan A, 0 to 4, set 2, longer", "0 2 | 100 .. 102: 4321"),
        (
            "7 for stations of plan A, 3 to 3, set 1",
            "7 0 | 0 .. 101: 997",
        ),
        ("11 for 2 at 4, 0 to 4, set 1 2", "11 0 | 0 .. 101: 996"),
        ("a 2 just behind, 0 to 4, set 1 2", "0 3 |"),
        (
            "11 at the last before 9, 0 to 130, set 1 2",
            "11 0 | 0 .. 34587: 994",
        ),
        (
            "ladder of 64 layers, 0 to 128, set 63 64, a layer",
            "0 9223372036854775808 |",
        ),
        (
            "ladder of 64 layers, 0 to 128, set 1",
            "0 4611686018427387904 |",
        ),
        (
            "ladder of 64 layers, 0 to 128, set of 63, one of each layer",
            "0 9223372036854775807 |",
        ),
        (
            "ladder of 65 layers, longer, 0 to 130, set 17 18",
            "9 0 | 34584 .. 34591: 4321",
        ),
        ("n 256, T 255, row, 0 to 255, set 254", "0 1 |"),
        ("n 256, T 2, 0 to 255, set of 128", "0 127 |"),
        (
            "12 for plan A, g 17, 0 to 3, set 1 2",
            "12 0 | 0 .. 102: 917",
        ),
        ("longer, g 2, 0 to 3, set 1 2", "0 1 | 100 .. 102: 902"),
        ("every slot, g 2, 0 to 2, set 1", "0 3 |"),
        ("twice at 1, no path, g 1, h 1, 0 to 3, set 1", "0 1 |"),
        ("twice at 1, no path, g 1, h 1, 0 to 3, set 1 2", "0 1 |"),
        (
            "three times at 1, 2 and 3 in turn, g 1, h 1, 0 to 4, set 2",
            "0 3 |",
        ),
        (
            "three times at 1, 2 and 3 in turn, g 1, h 1, 0 to 4, set 2 3",
            "0 4 |",
        ),
        (
            "14 for plan A, g 1, h 0, 0 to 3, set 1 2",
            "14 0 | 0 .. 102: 900",
        ),
    ] {
        let found = cases().iter().find(|(case, _)| case.label == label);
        let (case, outcome) = found.unwrap_or_else(|| panic!("no case {label}"));
        assert_eq!(case.line(outcome), format!("{label}: {rest}"));
    }
}

/// Asserts that the next case of standard input is a given one.
fn assert_read(stdin: &mut &[u8], case: &Case) {
    let head = [2; 10].map(|length| take_number(stdin, length));
    let scratch = take_number(stdin, 4);
    let call = [
        case.stations.into(),
        case.slots.into(),
        case.turnaround.into(),
        case.keeping.into(),
        case.source.into(),
        case.destination.into(),
        case.bytes.len(),
        case.label.len(),
        case.mark.into(),
        case.set.len(),
    ];
    assert_eq!((head, scratch), (call, case.scratch), "{}", case.label);
    assert_eq!(take(stdin, case.label.len()), case.label.as_bytes());
    assert_eq!(take(stdin, case.bytes.len()), case.bytes);
    assert_eq!(take(stdin, case.set.len()), case.set);
}

#[test]
fn stdin_read_back_gives_the_cases() {
    let all: Vec<Case> = cases().iter().map(|(case, _)| case.clone()).collect();
    let stdin = stdin_bytes(&all);
    assert!(stdin.len() < 1_250_000, "{}", stdin.len());
    let mut rest = stdin.as_slice();
    for case in &all {
        assert_read(&mut rest, case);
    }
    assert!(rest.is_empty());
}

#[test]
fn lines_read_back_give_the_outcomes() {
    for (case, outcome) in cases() {
        let line = case.line(outcome);
        let rest = line.strip_prefix(&case.label).unwrap();
        let (numbers, runs) = rest.split_once(" |").unwrap();
        let expected = format!(": {} {}", outcome.number, outcome.count);
        assert_eq!(numbers, expected, "{line}");
        let scratch = entries_of(runs, case.scratch, 0);
        assert_eq!(scratch, outcome.scratch, "{line}");
    }
}

#[test]
fn stdout_has_a_line_a_case() {
    assert_stdout(cases(), Case::line);
}

#[test]
fn cases_fit_the_program() {
    let lengths = |(case, _): &(Case, _)| [case.bytes.len(), case.set.len(), case.scratch];
    let longest = longest(cases().iter().map(lengths));
    assert!(longest[0] <= LONGEST_PLAN, "{longest:?}");
    assert_eq!(longest[1..], [LONGEST_SET, LONGEST_SCRATCH]);
}

#[test]
fn listed_cases_are_counted_alike() {
    let mut compared = 0;
    for (case, outcome) in cases() {
        if case.counting == Counting::Listed {
            let counted = Case {
                counting: Counting::Fast,
                ..case.clone()
            };
            assert_eq!(counted.outcome(), *outcome, "{}", case.label);
            compared += 1;
        }
    }
    assert!(compared > 1500, "{compared}");
}

#[test]
fn sets_of_one_are_through_counts_and_no_count_is_above_the_pairs() {
    let mut seen = [0; 2];
    for (case, outcome) in cases() {
        if outcome.number != 0 {
            continue;
        }
        let mut through = vec![0; case.stations.into()];
        let mut scratch = vec![0; case.scratch];
        let pair = COUNTED.pair(case.input(), case.ends(), &mut through, &mut scratch);
        assert!(outcome.count <= pair.unwrap().count, "{}", case.label);
        let set = &case.set[..case.stations.into()];
        let members: Vec<usize> = (0..set.len()).filter(|v| set[*v] == 1).collect();
        let sum = members.iter().map(|v| u128::from(through[*v])).sum();
        assert!(u128::from(outcome.count) <= sum, "{}", case.label);
        if let [member] = members[..] {
            assert_eq!(outcome.count, through[member], "{}", case.label);
            seen[0] += usize::from(outcome.count > 0);
        }
        seen[1] += usize::from(u128::from(outcome.count) < sum);
    }
    assert!(seen.iter().all(|count| *count > 50), "{seen:?}");
}

#[test]
fn files_are_the_same_each_time() {
    let all: Vec<Case> = cases().iter().map(|(case, _)| case.clone()).collect();
    assert_eq!(all_cases(), all);
}
