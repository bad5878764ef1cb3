//! What holds of each file of cases of one call on lent tables: pair-cases, foremost-cases and partial-cases; some of it
//! of struck-cases and drawn-cases too.

use std::fmt::Debug;

use super::read_back::{entries_of, take, take_number};
use crate::call_cases::{CallCase, Called};
use crate::files::{stdout_text, Filed};
use crate::means::Counting;
use crate::pair_cases::{Case, Outcome};
use crate::reach_cases::LONGEST_PLAN;

/// Cases with their outcomes.
pub type Made = Vec<(Case, Outcome)>;

/// The cases with their outcomes.
pub fn made(cases: Vec<Case>) -> Made {
    let with_outcome = |case: Case| {
        let outcome = case.outcome();
        (case, outcome)
    };
    cases.into_iter().map(with_outcome).collect()
}

/// The cases without their outcomes.
fn all(made: &Made) -> Vec<Case> {
    made.iter().map(|(case, _)| case.clone()).collect()
}

/// The case with a label, and its outcome.
pub fn labelled<'a>(made: &'a Made, label: &str) -> &'a (Case, Outcome) {
    let found = made.iter().find(|(case, _)| case.label == label);
    found.unwrap_or_else(|| panic!("no case {label}"))
}

/// Asserts that the numbers stated by hand are those of the lister; gives how many cases state each.
pub fn assert_stated(made: &Made) -> [usize; 15] {
    let mut seen = [0; 15];
    for (case, outcome) in made {
        if let Some(stated) = case.stated {
            assert_eq!(outcome.number, stated, "{}", case.label);
            seen[usize::from(stated)] += 1;
        }
    }
    seen
}

/// Asserts that the cases fit a program of one operation, and that some plans have the most records and some one
/// more; gives the most entries of each table.
pub fn longest_tables(made: &Made) -> Vec<usize> {
    let mut longest = vec![0; made[0].1.buffers.len()];
    let mut records = [0; 2];
    for (case, outcome) in made {
        assert!(case.operation.kind().is_none(), "{}", case.label);
        assert!(case.bytes.len() <= LONGEST_PLAN, "{}", case.label);
        let left: Vec<usize> = outcome.buffers.iter().map(Vec::len).collect();
        assert_eq!(left, case.lent_lengths(), "{}", case.label);
        for (most, length) in longest.iter_mut().zip(left) {
            *most = length.max(*most);
        }
        for (seen, full) in records.iter_mut().zip([8192, 8193]) {
            *seen += usize::from(case.bytes.len() == 6 * full);
        }
    }
    assert!(records.iter().all(|count| *count > 0), "{records:?}");
    longest
}

/// Asserts that a case has no number stated exactly if it is generated.
pub fn assert_hand_made_are_stated(made: &Made) {
    let generated = ["small ", "generated ", "mixed ladder", "drawn "];
    for (case, _) in made {
        let is_generated = generated.iter().any(|word| case.label.starts_with(word));
        assert_eq!(case.stated.is_none(), is_generated, "{}", case.label);
    }
}

/// Asserts the lines of some labels.
pub fn assert_lines(made: &Made, lines: &[(&str, &str)]) {
    for (label, rest) in lines {
        let (case, outcome) = labelled(made, label);
        assert_eq!(case.line(outcome), format!("{label}: {rest}"));
    }
}

/// Asserts that standard input, read back, has the cases; `lengths` are those in the head of a case.
pub fn assert_stdin<O: Called, R, const TABLES: usize>(
    made: &[(CallCase<O, TABLES>, R)],
    lengths: fn(&CallCase<O, TABLES>) -> Vec<usize>,
) where
    CallCase<O, TABLES>: Filed,
{
    let stdin: Vec<u8> = made.iter().flat_map(|(case, _)| case.stdin()).collect();
    assert!(stdin.len() < 1_850_000, "{}", stdin.len());
    let mut rest = stdin.as_slice();
    for (case, _) in made {
        let kind = case.operation.kind().map(usize::from);
        let behind = case.operation.words().into_iter().map(usize::from);
        let mut head = Vec::from_iter(kind);
        head.extend([case.stations, case.slots, case.turnaround].map(usize::from));
        let keeping = case.operation.has_keeping().then_some(case.keeping);
        head.extend(keeping.map(usize::from));
        head.extend(behind);
        head.extend([case.bytes.len(), case.label.len(), case.mark.into()]);
        let lengths = lengths(case);
        for (numbers, bytes) in [(head, 2), (lengths, 4)] {
            for number in numbers {
                assert_eq!(take_number(&mut rest, bytes), number, "{}", case.label);
            }
        }
        assert_eq!(take(&mut rest, case.label.len()), case.label.as_bytes());
        assert_eq!(take(&mut rest, case.bytes.len()), case.bytes);
    }
    assert!(rest.is_empty());
}

/// Asserts that the lines, read back, give the outcomes; gives the length of all.
pub fn assert_read_back(made: &Made) -> usize {
    let mut length = 0;
    for (case, outcome) in made {
        let line = case.line(outcome);
        length += line.len() + 1;
        let rest = line.strip_prefix(&case.label).unwrap();
        let mut parts = rest.strip_prefix(": ").unwrap().split(" |");
        let numbers: Vec<u64> = parts
            .next()
            .unwrap()
            .split(' ')
            .map(|word| word.parse().unwrap())
            .collect();
        assert_eq!(numbers[0], u64::from(outcome.number), "{line}");
        assert_eq!(numbers[1..], outcome.values, "{line}");
        let lengths = outcome.buffers.iter().map(Vec::len);
        let buffers: Vec<Vec<u64>> = parts
            .zip(lengths)
            .map(|(runs, length)| entries_of(runs, length, 0))
            .collect();
        assert_eq!(buffers, outcome.buffers, "{line}");
    }
    length
}

/// Asserts that the expected output has a line for each of the first cases.
pub fn assert_stdout(made: &Made) {
    let first = made[..40].to_vec();
    let lines = first
        .iter()
        .map(|(case, outcome)| case.line(outcome) + "\n");
    assert_eq!(stdout_text(&all(&first)), lines.collect::<String>());
}

/// Asserts that the listed cases are answered alike by numbers of walks; gives how many there are.
pub fn assert_counted_alike<O: Called, R: Debug + PartialEq, const TABLES: usize>(
    made: &[(CallCase<O, TABLES>, R)],
    of_case: fn(&CallCase<O, TABLES>) -> R,
) -> usize {
    let listed = made.iter();
    let listed = listed.filter(|(case, _)| case.counting == Counting::Listed);
    let mut compared = 0;
    for (case, outcome) in listed {
        let counted = CallCase {
            counting: Counting::Fast,
            ..case.clone()
        };
        assert_eq!(of_case(&counted), *outcome, "{}", case.label);
        compared += 1;
    }
    compared
}

/// Asserts that making the cases again gives the same.
pub fn assert_same_each_time(made: &Made, again: Vec<Case>) {
    assert_eq!(all(made), again);
}
