//! The files of check-cases.

use super::read_back::{assert_labels, take, take_number};
use crate::answer::number;
use crate::cases::{all_cases, generated_cases, LONGEST_LABEL};
use crate::files::{stdin_bytes, stdout_text};
use crate::plan::{check, contacts, Contact, PlanInput, KEPT, NO_TURNAROUND};
use crate::random::Random;

#[test]
fn stated_numbers_are_those_of_check() {
    let stated = all_cases().into_iter().filter(|case| case.stated.is_some());
    let mut seen = [0; 6];
    for case in stated {
        assert_eq!(Some(case.number()), case.stated, "{}", case.label);
        seen[usize::from(case.number())] += 1;
    }
    assert!(seen.iter().all(|count| *count > 5), "{seen:?}");
}

#[test]
fn generated_cases_meet_every_number() {
    let mut seen = [0; 6];
    for case in generated_cases() {
        seen[usize::from(case.number())] += 1;
        let valid = case.label.ends_with("valid");
        assert!(!valid || case.number() == 0, "{}", case.label);
    }
    assert!(seen.iter().all(|count| *count >= 10), "{seen:?}");
    assert!(seen[0] >= 200 && seen[0] < 300, "{seen:?}");
}

/// The generated plans have records that come with their other direction, and records that do not; in some
/// plans all do, in some none.
#[test]
fn generated_plans_have_one_direction_or_both() {
    let mut seen = [0; 3];
    let mut falling = 0;
    let valid = generated_cases();
    for case in valid.iter().filter(|case| case.number() == 0) {
        let records: Vec<Contact> = contacts(&case.bytes).collect();
        let turned = |contact: &Contact| Contact {
            slot: contact.slot,
            sender: contact.hearer,
            hearer: contact.sender,
        };
        let both = |contact: &&Contact| records.contains(&turned(contact));
        let with_both = records.iter().filter(both).count();
        falling += records.iter().filter(|c| c.sender > c.hearer).count();
        if records.len() > 3 {
            seen[0] += usize::from(with_both == 0);
            seen[1] += usize::from(0 < with_both && with_both < records.len());
            seen[2] += usize::from(with_both == records.len());
        }
    }
    assert!(seen.iter().all(|count| *count > 20), "{seen:?}");
    assert!(falling > 300, "{falling}");
}

#[test]
fn labels_are_short_printable_and_distinct() {
    let cases = all_cases();
    let labels = cases.iter().map(|case| case.label.as_str());
    assert_labels(labels, LONGEST_LABEL);
}

#[test]
fn stdin_read_back_gives_stdout() {
    let cases = all_cases();
    let stdin = stdin_bytes(&cases);
    let mut rest = stdin.as_slice();
    let mut stdout = Vec::new();
    let mut read = 0;
    while !rest.is_empty() {
        let stations = take_number(&mut rest, 2);
        let slots = take_number(&mut rest, 2);
        let plan_length = take_number(&mut rest, 2);
        let label_length = take_number(&mut rest, 2);
        let label = take(&mut rest, label_length);
        let bytes = take(&mut rest, plan_length);
        let answer = check(PlanInput {
            bytes,
            stations,
            slots,
            turnaround: NO_TURNAROUND,
            keeping: KEPT,
        });
        stdout.extend(label);
        stdout.extend(format!(" {}\n", number(&answer)).bytes());
        read += 1;
    }
    assert_eq!(read, cases.len());
    assert_eq!(stdout, stdout_text(&cases).into_bytes());
}

#[test]
fn sizes_of_the_files() {
    let cases = all_cases();
    assert!(stdin_bytes(&cases).len() < 400_000);
    assert!(cases.iter().all(|case| case.bytes.len() <= 49_158));
    let at_limit = |length: usize| {
        cases
            .iter()
            .filter(|case| case.bytes.len() == length)
            .count()
    };
    assert!([49_151, 49_152, 49_153, 49_158]
        .iter()
        .all(|length| at_limit(*length) > 0));
}

#[test]
fn files_are_the_same_each_time() {
    assert_eq!(stdin_bytes(&all_cases()), stdin_bytes(&all_cases()));
    assert_eq!(stdout_text(&all_cases()), stdout_text(&all_cases()));
}

#[test]
fn generator_gives_the_published_numbers() {
    let mut random = Random::new(1234567);
    let numbers = [random.number(), random.number(), random.number()];
    let published = [
        6457827717110365317,
        3203168211198807973,
        9817491932198370423,
    ];
    assert_eq!(numbers, published);
}
