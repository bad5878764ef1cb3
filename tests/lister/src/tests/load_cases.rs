//! The files of load-cases and of one-slot-cases.

use std::collections::BTreeSet;
use std::sync::OnceLock;

use super::read_back::{assert_labels, both_print, labelled_texts, number_of, with_outcomes};
use crate::files::{stdin_bytes, stdout_text};
use crate::load_cases::{
    all_cases, all_inputs, one_slot_cases, rare_path, Case, RarePath, LONGEST_INPUT, LONGEST_LABEL,
    LONGEST_TEXT, RARE_PATHS, RARE_TWO_SLOTS,
};
use crate::load_program::{accepted_plan, load_text, load_text_by};
use crate::loads::share;

/// All cases and their texts, made once.
fn cases() -> &'static [(Case, String)] {
    static CASES: OnceLock<Vec<(Case, String)>> = OnceLock::new();
    CASES.get_or_init(|| with_outcomes(all_cases(), Case::text))
}

/// The numbers of the lines below a heading: station, pairs, load.
fn lines_of(text: &str) -> Vec<[u64; 3]> {
    let numbers = |line: &str| {
        let numbers = line.split(' ').map(|word| word.parse().unwrap());
        numbers.collect::<Vec<u64>>().try_into().unwrap()
    };
    text.lines().skip(1).map(numbers).collect()
}

#[test]
fn stated_numbers_are_those_of_the_texts() {
    let mut seen = [0; 13];
    for (case, text) in cases() {
        let number = number_of(text);
        if let Some(stated) = case.stated {
            assert_eq!(number, stated, "{}", case.label);
            seen[usize::from(stated)] += 1;
        }
    }
    assert!(seen[..6].iter().all(|count| *count > 20), "{seen:?}");
    assert!(seen[9] == 2 && seen[12] > 100, "{seen:?}");
}

#[test]
fn stated_numbers_of_one_slot_are_those_of_the_texts() {
    let mut seen = [0; 10];
    for case in one_slot_cases() {
        if let Some(stated) = case.0.stated {
            let number = number_of(&load_text(1, &case.0.bytes));
            assert_eq!(number, stated, "{}", case.0.label);
            seen[usize::from(stated)] += 1;
        }
    }
    assert!(seen[..6].iter().all(|count| *count > 20), "{seen:?}");
    assert!(seen[9] == 2, "{seen:?}");
}

/// The case with a label, and its text.
fn labelled(label: &str) -> &'static (Case, String) {
    let found = cases().iter().find(|(case, _)| case.label == label);
    found.unwrap_or_else(|| panic!("no case {label}"))
}

#[test]
fn texts_by_hand() {
    let plan_a = "stations 5 slots 4 contacts 12\n0 0 0\n";
    for (label, text) in [
        (
            "plan A, g 1",
            format!("{plan_a}1 2 2863311530\n2 2 5726623060\n3 4 17179869184\n4 0 0\n"),
        ),
        (
            "plan A, g 2",
            format!("{plan_a}1 0 0\n2 1 4294967296\n3 2 8589934592\n4 0 0\n"),
        ),
        (
            "plan A, g 3",
            format!("{plan_a}1 0 0\n2 0 0\n3 0 0\n4 0 0\n"),
        ),
        ("plan A, g 0", "refused 12\n".to_string()),
        ("plan A, g 17", "refused 12\n".to_string()),
        ("plan A, g 257", "refused 12\n".to_string()),
        ("empty input, g 65535", "refused 12\n".to_string()),
        ("plan A backwards, g 17", "refused 3\n".to_string()),
        ("1 before 12, T 0, g 17", "refused 1\n".to_string()),
        ("2 before 12, 1 byte, g 0", "refused 2\n".to_string()),
        (
            "counts over 2^64, 627 records, g 1",
            "refused 9\n".to_string(),
        ),
        (
            "counts over 2^64, 627 records, g 17",
            "refused 12\n".to_string(),
        ),
    ] {
        assert_eq!(labelled(label).1, text, "{label}");
    }
}

/// With g = 2 a path of h hops has as many choices of slots as there are of h among 64 − h, below 2^42, and of two
/// stations in 8 layers: no count is near 2^64.
#[test]
fn counts_over_the_limit_are_below_it_with_turnaround_2() {
    let (_, text) = labelled("counts over 2^64, 627 records, g 2");
    assert_eq!(number_of(text), 0);
    assert!(lines_of(text).iter().any(|line| line[2] > 1 << 32));
}

/// Every cause of an input is told with every turnaround; 0 and 9 become 12 outside of the limits.
#[test]
fn only_accepted_inputs_depend_on_the_turnaround() {
    let mut refused = 0;
    for input in all_inputs().into_iter().step_by(3) {
        let number = |turnaround: usize| number_of(&load_text(turnaround, &input.bytes));
        let first = number(1);
        for turnaround in [0, 17] {
            let expected = match first {
                0 | 9 => 12,
                _ => first,
            };
            assert_eq!(number(turnaround), expected, "{}", input.label);
        }
        if ![0, 9].contains(&first) {
            assert_eq!(number(2), first, "{}", input.label);
            refused += 1;
        }
    }
    assert!(refused > 100, "{refused}");
}

#[test]
fn every_turnaround_has_cases() {
    let seen: BTreeSet<u16> = cases().iter().map(|case| case.0.turnaround).collect();
    assert!((0..=18).all(|turnaround| seen.contains(&turnaround)));
    assert!([256, 257, 65535].iter().all(|far| seen.contains(far)));
    for (case, _) in cases() {
        let named = format!(", g {}", case.turnaround);
        assert!(case.label.ends_with(&named), "{}", case.label);
    }
}

/// Many of the inputs with loads print others with g = 1.
#[test]
fn the_programs_print_different_texts() {
    let mut different = 0;
    for (case, text) in cases().iter().filter(|case| case.0.turnaround == 2) {
        different += usize::from(load_text(1, &case.bytes) != *text);
    }
    assert!(different > 150, "{different}");
}

#[test]
fn texts_have_their_form() {
    for (case, text) in cases() {
        let number = number_of(text);
        if number > 0 {
            assert_eq!(*text, format!("refused {number}\n"));
            continue;
        }
        let plan = accepted_plan(case.turnaround.into(), &case.bytes).unwrap();
        let contacts = case.bytes.len() / 6;
        let (stations, slots) = (plan.stations, plan.slots);
        let heading = format!("stations {stations} slots {slots} contacts {contacts}\n");
        let lines = lines_of(text);
        let line = |[station, pairs, load]: &[u64; 3]| format!("{station} {pairs} {load}\n");
        let below: String = lines.iter().map(line).collect();
        assert_eq!(*text, heading + &below, "{}", case.label);
        let numbered = lines.iter().map(|line| line[0] as usize);
        assert!(numbered.eq(0..stations), "{}", case.label);
    }
}

#[test]
fn labels_are_short_printable_and_distinct() {
    let labels = cases().iter().map(|(case, _)| case.label.as_str());
    assert_labels(labels, LONGEST_LABEL);
    let one_slot = one_slot_cases();
    assert_labels(
        one_slot.iter().map(|case| case.0.label.as_str()),
        LONGEST_LABEL,
    );
}

#[test]
fn lengths_of_the_inputs() {
    let lengths: BTreeSet<usize> = cases().iter().map(|case| case.0.bytes.len()).collect();
    assert!(lengths.iter().all(|length| *length <= LONGEST_INPUT));
    for length in [0, 1, 5, 6, 7, 6_144, 6_145, 6_150, LONGEST_INPUT] {
        assert!(lengths.contains(&length), "{length}");
    }
    let at_limits = |text: &str| text.starts_with("stations 32 slots 63 contacts 1024\n");
    assert!(cases().iter().any(|case| at_limits(&case.1)));
}

#[test]
fn loads_have_every_number_of_digits() {
    let lines: Vec<[u64; 3]> = cases().iter().flat_map(|case| lines_of(&case.1)).collect();
    let digits_at = |place: usize| -> BTreeSet<usize> {
        let numbers = lines.iter().map(|line| line[place].to_string().len());
        numbers.collect()
    };
    assert_eq!(digits_at(0), (1..=2).collect());
    assert_eq!(digits_at(1), (1..=3).collect());
    assert_eq!(digits_at(2), (1..=13).collect());
    let small = lines.iter().filter(|line| line[1] > 0 && line[2] < 10);
    assert!(small.count() >= 2);
}

#[test]
fn rare_paths_have_one_pair_each() {
    for (turnaround, paths) in [(1, RARE_PATHS), (2, RARE_TWO_SLOTS)] {
        let mut digits = Vec::new();
        for (hops, slots) in paths {
            let (bytes, rare, count) = rare_path(RarePath {
                hops,
                slots,
                turnaround,
            });
            let load = share(1, count);
            let line = lines_of(&load_text(turnaround, &bytes))[rare];
            assert_eq!(line, [rare as u64, 1, load], "{hops} {slots}");
            digits.push(load.to_string().len());
        }
        assert_eq!(digits, [10, 9, 8, 7, 6, 5, 4, 3, 2, 1, 1]);
    }
}

#[test]
fn the_longest_text_is_attained_with_both_turnarounds() {
    let lengths = cases().iter().map(|case| case.1.len());
    assert_eq!(lengths.max(), Some(LONGEST_TEXT));
    for label in ["longest text, g 1", "longest text in odd slots, g 2"] {
        let (_, text) = labelled(label);
        assert_eq!(text.len(), LONGEST_TEXT);
        for [_, pairs, load] in lines_of(text) {
            assert!((100..1000).contains(&pairs));
            assert!((1_000_000_000_000..10_000_000_000_000).contains(&load));
        }
    }
}

#[test]
fn listed_and_counted_cases() {
    let mut seen = [0; 2];
    for (case, text) in cases() {
        let turnaround = case.turnaround.into();
        if let Ok(plan) = accepted_plan(turnaround, &case.bytes) {
            let by_means = |means| load_text_by(means, turnaround, &case.bytes);
            seen[usize::from(both_print(&plan, text, by_means))] += 1;
        }
    }
    let [counted, listed] = seen;
    assert!(listed > 100 && counted > 60, "{listed} {counted}");
}

#[test]
fn stdin_read_back_gives_stdout() {
    let all = all_cases();
    let stdin = stdin_bytes(&all);
    assert!(stdin.len() < 900_000);
    let read = labelled_texts(&stdin, |[_, _, turnaround], input| {
        load_text(turnaround, input)
    });
    assert!(read == (all.len(), stdout_text(&all)));
}

#[test]
fn stdin_of_one_slot_read_back_gives_stdout() {
    let all = one_slot_cases();
    let stdin = stdin_bytes(&all);
    let read = labelled_texts(&stdin, |[_, _], input| load_text(1, input));
    assert!(read == (all.len(), stdout_text(&all)));
}

#[test]
fn generated_cases_vary() {
    let of = |name: &str| -> Vec<&(Case, String)> {
        let all = cases().iter();
        all.filter(|case| case.0.label.starts_with(name)).collect()
    };
    for name in ["small ", "middle ", "large "] {
        let texts: BTreeSet<&str> = of(name).iter().map(|case| case.1.as_str()).collect();
        assert!(texts.len() >= 60, "{name}: {}", texts.len());
    }
    let numbers: BTreeSet<u8> = of("damaged ")
        .iter()
        .map(|case| number_of(&case.1))
        .collect();
    assert_eq!(numbers, (0..=5).collect());
}

#[test]
fn cases_are_the_same_each_time() {
    assert!(all_cases().iter().eq(cases().iter().map(|case| &case.0)));
    assert_eq!(one_slot_cases(), one_slot_cases());
}
