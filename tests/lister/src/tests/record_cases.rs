//! The files of record-cases.

use std::collections::BTreeSet;

use super::read_back::{assert_labels, assert_stdout, longest, take, take_number, with_outcomes};
use crate::drawing_bits;
use crate::files::{stdin_bytes, stdout_text};
use crate::record_cases::{all_cases, Case, LONGEST_BYTES, LONGEST_LABEL};

/// The readings stated by hand are those of both ways; only generated cases state none.
#[test]
fn stated_readings_are_those_of_the_lister() {
    let mut seen = [0; 2];
    for case in all_cases() {
        let found = case.outcome();
        assert_eq!(found, drawing_bits::read(&case.bytes), "{}", case.label);
        let generated = ["exponent ", "drawn "];
        let generated = generated.iter().any(|word| case.label.starts_with(word));
        let generated = generated || case.label.contains(" but for bit ");
        assert_eq!(case.stated.is_none(), generated, "{}", case.label);
        if let Some(stated) = case.stated {
            assert_eq!(found, stated, "{}", case.label);
            seen[usize::from(found.is_some())] += 1;
        }
    }
    assert!(seen[0] > 150 && seen[1] > 150, "{seen:?}");
}

#[test]
fn generated_cases_are_of_both_kinds() {
    for word in ["exponent ", "drawn ", "255 281474976710656 "] {
        let mut seen = [0; 2];
        for case in all_cases() {
            if case.label.starts_with(word) {
                seen[usize::from(case.outcome().is_some())] += 1;
            }
        }
        assert!(seen.iter().all(|count| *count > 20), "{word}: {seen:?}");
    }
}

#[test]
fn labels_are_short_printable_and_distinct() {
    let cases = all_cases();
    assert_labels(cases.iter().map(|case| case.label.as_str()), LONGEST_LABEL);
}

#[test]
fn lines_by_hand() {
    let stdout = stdout_text(&all_cases());
    let lines: BTreeSet<&str> = stdout.lines().collect();
    for line in [
        "plan A, station 1: 1 2863311530 2",
        "plan A, station 4: 4 0 0",
        "load 0, pairs 1: 2 0 1",
        "0 bytes: foreign",
        "18 bytes: 12 7516192768 3",
        "36 bytes: foreign",
        "station 255: 255 12884901888 5",
        "station 256 of a record: foreign",
        "station 65535 of an idle one: foreign",
        "minus zero, low beside 0: foreign",
        "minus zero, both: foreign",
        "infinity, high: foreign",
        "a quiet nan, low: foreign",
        "2^-33, high beside 0: foreign",
        "a high equal to the low, load 1: foreign",
        "a high 1 below the low, load 4294967296: foreign",
        "a high 1 above the low, load 562949953421311: 8 562949953421311 1",
        "more load than pairs can have: 5 562949953421311 1",
        "low byte first, all three: foreign",
        "limits, load 562949953421311, pairs 562949953421311: 255 562949953421311 562949953421311",
        "limits, load 562949953421312, pairs 1: foreign",
        "limits, load 0, pairs 562949953421312: foreign",
        "exponent 991, fraction 0, high: 32 0 1",
        "exponent 990, fraction 0, high: foreign",
        "exponent 1040, fraction 0, low: foreign",
        "exponent 1041, fraction 0, high beside 2^16: foreign",
    ] {
        assert!(lines.contains(line), "{line}");
    }
}

#[test]
fn stdin_read_back_gives_the_cases() {
    let cases = all_cases();
    let stdin = stdin_bytes(&cases);
    assert!(stdin.len() < 150_000, "{}", stdin.len());
    let mut rest = stdin.as_slice();
    for case in &cases {
        for number in [case.bytes.len(), case.label.len()] {
            assert_eq!(take_number(&mut rest, 2), number, "{}", case.label);
        }
        assert_eq!(take(&mut rest, case.label.len()), case.label.as_bytes());
        assert_eq!(take(&mut rest, case.bytes.len()), case.bytes);
    }
    assert!(rest.is_empty());
}

#[test]
fn stdout_has_a_line_a_case() {
    let made = with_outcomes(all_cases(), Case::outcome);
    assert_stdout(&made, Case::line);
    let lines = stdout_text(&all_cases());
    assert_eq!(lines.lines().count(), made.len());
}

#[test]
fn cases_fit_the_program() {
    let cases = all_cases();
    let [bytes] = longest(cases.iter().map(|case| [case.bytes.len()]));
    assert_eq!(bytes, LONGEST_BYTES);
    let lengths: BTreeSet<usize> = cases.iter().map(|case| case.bytes.len()).collect();
    assert!([0, 17, 18, 19, 36]
        .iter()
        .all(|length| lengths.contains(length)));
}

#[test]
fn files_are_the_same_each_time() {
    assert_eq!(all_cases(), all_cases());
}
