//! The files of way-cases.

use std::collections::BTreeMap;
use std::sync::OnceLock;

use super::read_back::{assert_labels, take, take_number};
use super::support::Owned;
use crate::answer::number;
use crate::cursor::first_difference;
use crate::files::{stdin_bytes, stdout_text, Filed};
use crate::means::{Counting, COUNT_LIMIT, LISTED};
use crate::reach_cases::{ladder, sent_ladder, Builder};
use crate::way_cases::{
    all_cases, ladder_path, sent_ladder_path, Arguments, Case, Outcome, Step, LONGEST_BUFFER,
    LONGEST_LABEL, LONGEST_PLAN, LONGEST_SCRATCH,
};
use crate::ways::{walks_of_call, Found, Way};

/// All cases with what their calls answer and leave, made once.
fn cases() -> &'static [(Case, Vec<Outcome>)] {
    static CASES: OnceLock<Vec<(Case, Vec<Outcome>)>> = OnceLock::new();
    CASES.get_or_init(|| {
        let with_outcomes = |case: Case| {
            let outcomes = case.outcomes();
            (case, outcomes)
        };
        all_cases().into_iter().map(with_outcomes).collect()
    })
}

/// How often each reply occurs; the hops of a path are left out.
fn replies<'a>(outcomes: impl Iterator<Item = &'a Outcome>) -> BTreeMap<String, usize> {
    let mut replies = BTreeMap::new();
    for outcome in outcomes {
        let reply = match outcome.answer {
            Ok(Found::Walk(_)) => "path".to_string(),
            _ => outcome.reply(),
        };
        *replies.entry(reply).or_default() += 1;
    }
    replies
}

#[test]
fn stated_replies_are_those_of_the_cursor() {
    let stated = cases().iter().filter(|(case, _)| !case.stated.is_empty());
    for (case, outcomes) in stated.clone() {
        let replies: Vec<String> = outcomes.iter().map(Outcome::reply).collect();
        assert_eq!(replies, case.stated, "{}", case.label);
    }
    assert!(stated.clone().count() > 80);
    let replies = replies(stated.flat_map(|(_, outcomes)| outcomes));
    let words = ["path", "none", "last"].map(str::to_string).into_iter();
    let numbers = (1..=10).chain([12, 14]);
    for reply in words.chain(numbers.map(|number| format!("refused {number}"))) {
        assert!(replies[&reply] > 4, "{reply}: {replies:?}");
    }
}

#[test]
fn generated_traces_meet_every_reply() {
    let generated = |label: &str| label.contains("mixed") || label.contains("all ways");
    let generated = cases().iter().filter(|(case, _)| generated(&case.label));
    let replies = replies(generated.clone().flat_map(|(_, outcomes)| outcomes));
    assert_eq!(replies.len(), 14, "{replies:?}");
    for (reply, count) in &replies {
        let least = if reply == "refused 14" { 20 } else { 80 };
        assert!(*count > least, "{replies:?}");
    }
    assert!(replies["path"] > 1000, "{replies:?}");
    let ways = |least: usize| {
        let lists = generated.clone().map(|(case, _)| case.list.len());
        lists.filter(|length| *length >= least).count()
    };
    assert!(ways(0) - ways(1) > 300 && ways(1) > 500 && ways(3) > 100 && ways(10) > 5);
    let starts = |case: &Case| case.list.iter().any(|path| case.contents.starts_with(path));
    let on_a_path = generated.clone().filter(|(case, _)| starts(case)).count();
    assert!(on_a_path > 100, "{on_a_path}");
    let next_at_once = |case: &Case| matches!(case.steps[0], Step::Call(Way::Next, _));
    let at_once = generated.filter(|(case, _)| starts(case) && next_at_once(case));
    assert!(at_once.count() > 30);
}

#[test]
fn labels_are_short_printable_and_distinct() {
    let labels = cases().iter().map(|(case, _)| case.label.as_str());
    assert_labels(labels, LONGEST_LABEL);
}

#[test]
fn texts_by_hand() {
    for text in [
        "P4 plan A, 0 to 4, then last twice\n\
         path 3 | 0 4 10 63 |\n\
         path 3 | 1 5 10 63 |\n\
         path 3 | 1 8 10 63 |\n\
         last | 1 8 10 63 |\n\
         last | 1 8 10 63 |\n",
        "P6 plan A, 2 to 1\n\
         none | 60 61 62 63 |\n\
         refused 10 | 60 61 62 63 |\n\
         none | 60 61 62 63 |\n",
        "P7 plan A, after 1 8 10\n\
         last | 1 8 10 63 |\n\
         last | 1 8 10 63 |\n",
        "P7 plan A, offered 0 5 10\n\
         refused 10 | 0 5 10 63 |\n\
         refused 10 | 0 5 10 63 |\n\
         path 3 | 0 4 10 63 |\n\
         path 3 | 1 5 10 63 |\n",
        "P10 two contacts in slot 1, 0 to 2\n\
         none | 60 |\n\
         refused 10 | 60 |\n\
         none | 60 |\n",
        "plan A, 0 to 3, entries behind the hops\n\
         path 2 | 0 4 62 63 64 65 66 |\n\
         path 2 | 1 5 65535 63 64 65 0 |\n\
         path 2 | 1 8 5 63 64 65 0 |\n\
         last | 1 8 5 4 2 65 0 |\n\
         path 2 | 0 4 5 4 2 65 0 |\n\
         path 2 | 1 5 5 4 2 3 0 |\n",
        "plan A, 0 to 1, one hop and T - 1 entries lent\n\
         refused 8 | 60 61 62 63 64 65 66 67 68 | 0 .. 99: 7\n\
         path 1 | 0 61 62 63 64 65 66 67 68 |\n\
         refused 8 | 0 61 62 63 64 65 66 67 68 | 0 .. 99: 7\n\
         refused 8 | 0 61 62 63 64 65 66 67 68 | 0 .. 99: 7\n\
         last | 0 61 62 63 64 65 66 67 68 |\n\
         last | 0 61 62 63 64 65 66 67 68 |\n",
        "8 between ways, scratch one short, no scratch\n\
         path 3 | 0 4 10 63 64 65 | 100 .. 101: 31\n\
         refused 8 | 0 4 10 63 64 65 | 0 .. 98: 31\n\
         refused 8 | 0 4 10 63 64 65 | 0 .. 98: 31\n\
         path 3 | 1 5 10 63 64 65 | 100 .. 101: 31\n\
         refused 8 | 1 5 10 63 64 65 |\n\
         refused 8 | 1 5 10 63 64 65 |\n\
         path 3 | 1 8 10 63 64 65 | 100 .. 101: 31\n\
         last | 1 8 10 63 64 65 | 100 .. 101: 31\n",
    ] {
        let (label, _) = text.split_once('\n').unwrap();
        assert_eq!(text_of(label), text);
    }
    let ladder = text_of("ladder of 65 layers, to 130");
    assert!(
        ladder.ends_with(" 124 0 65535 | 34584 .. 34588: 7\n"),
        "{ladder}"
    );
    assert_eq!(ladder.matches("refused 9 | 60 61 62 ").count(), 3);
}

/// The text of the case with a label.
fn text_of(label: &str) -> String {
    let case = cases().iter().find(|(case, _)| case.label == label);
    case.map(|(case, _)| case.stdout()).unwrap_or_default()
}

#[test]
fn the_plain_operations_answer_as_the_cursor() {
    let listed = |case: &Case| case.counting == Counting::Listed;
    let listed = cases().iter().filter(|(case, _)| listed(case));
    for (case, outcomes) in listed {
        let mut buffer = case.contents.clone();
        let mut outcomes = outcomes.iter();
        for step in &case.steps {
            match step {
                Step::Write(entry, value) => buffer[usize::from(*entry)] = *value,
                Step::Call(way, arguments) => {
                    let call = arguments.call(&case.bytes);
                    let mut scratch = vec![case.mark.into(); call.scratch_length];
                    let lent = &mut buffer[..call.buffer_length];
                    let answer = LISTED.way(*way, call.input, call.ends(), lent, &mut scratch);
                    let outcome = Outcome {
                        answer,
                        buffer: buffer.clone(),
                        scratch,
                    };
                    assert_eq!(Some(&outcome), outcomes.next(), "{}", case.label);
                }
            }
        }
        assert_eq!(outcomes.next(), None);
        let list = case.list.clone();
        let difference = first_difference(COUNT_LIMIT, list, &case.contents, &case.trace());
        assert_eq!(difference, None, "{}", case.label);
    }
}

/// Whether a call names the pair of its trace.
fn names_pair(case: &Case, call: &Arguments) -> bool {
    let pair = Arguments {
        buffer_length: call.buffer_length,
        scratch_length: call.scratch_length,
        ..case.pair
    };
    pair == *call
}

#[test]
fn traces_keep_the_rules() {
    let mut others = 0;
    let mut other_turnarounds = [0; 15];
    let mut other_keepings = [0; 15];
    for (case, outcomes) in cases() {
        let hops = case.list.first().map_or(0, Vec::len);
        let mut outcomes = outcomes.iter();
        for step in &case.steps {
            match step {
                Step::Write(entry, _) => assert!(usize::from(*entry) >= hops, "{}", case.label),
                Step::Call(_, call) => {
                    let number = number(&outcomes.next().unwrap().answer);
                    let may_differ = (1..=9).contains(&number) || [12, 14].contains(&number);
                    assert!(may_differ || names_pair(case, call), "{}", case.label);
                    others += usize::from(!names_pair(case, call));
                    let turned = call.turnaround != case.pair.turnaround;
                    other_turnarounds[usize::from(number)] += usize::from(turned);
                    let dropped = call.keeping != case.pair.keeping;
                    other_keepings[usize::from(number)] += usize::from(dropped);
                }
            }
        }
    }
    assert!(others > 500, "{others}");
    for seen in [other_turnarounds, other_keepings] {
        for number in (1..=9).chain([12, 14]) {
            assert!(seen[number] > 1, "{number}: {seen:?}");
        }
    }
}

#[test]
fn lists_are_complete_but_for_long_ladders() {
    let long = ["ladder of 64", "ladder of 65", "ladder with a"];
    let beside = [
        "9 between",
        "1 to 9 before 10",
        "two causes",
        "and another cause in one call",
        "refused calls with another",
    ];
    let has = |case: &Case, words: &[&str]| words.iter().any(|word| case.label.contains(word));
    for (case, _) in cases() {
        let counted = has(case, &long) || has(case, &beside);
        assert_eq!(case.counting == Counting::Fast, counted, "{}", case.label);
        if !has(case, &long) {
            let call = case.pair.call(&case.bytes);
            assert_eq!(walks_of_call(COUNT_LIMIT, &call).as_ref(), Ok(&case.list));
        }
    }
}

#[test]
fn ladder_paths_are_those_listed() {
    assert_eq!(ladder_path(3, 1, 0), [0, 4, 13]);
    assert_eq!(ladder_path(3, 1, 3), [1, 7, 15]);
    assert_eq!(sent_ladder_path(3, 1, 0), [0, 2, 7]);
    assert_eq!(sent_ladder_path(3, 1, 3), [1, 5, 9]);
    for layers in 1..=9 {
        assert_paths(layers, &ladder(layers, 2), ladder_path);
        assert_paths(layers, &sent_ladder(layers, 2), sent_ladder_path);
    }
}

/// Asserts that a ladder has the paths listed, from the source and from the first layer.
fn assert_paths(layers: usize, ladder: &Builder, path: fn(usize, usize, u64) -> Vec<u16>) {
    let owned = Owned::built(ladder);
    for end in [0, 1] {
        let destination = 2 * layers - 1 + end;
        let paths = (0..1 << (layers - 1)).map(|index| path(layers, end, index));
        let paths: Vec<Vec<u16>> = paths.collect();
        assert_eq!(paths, owned.list(0, destination));
        if layers > 1 {
            let from_first_layer = paths[..paths.len() / 2].iter();
            let from_first_layer = from_first_layer.map(|path| path[1..].to_vec());
            assert!(from_first_layer.eq(owned.list(1, destination)));
        }
    }
}

#[test]
fn parts_of_lists_are_not_left() {
    for (case, outcomes) in cases() {
        let part = case.counting == Counting::Fast && case.label.contains("ladder of");
        let part = part && !case.label.starts_with("9 between") && case.pair.destination > 1;
        let (Some(first), true) = (case.list.first(), part) else {
            continue;
        };
        let layers = usize::from(case.pair.stations) / 2;
        let end = usize::from(case.pair.destination) - (2 * layers - 1);
        let path_of = match case.label.contains("sent") || case.label.contains("spaced") {
            true => sent_ladder_path,
            false => ladder_path,
        };
        let whole = |index| path_of(layers, end, index)[layers - first.len()..].to_vec();
        let is_first = *first == whole(0);
        let last = (1 << (layers - 1).min(63)) - 1;
        let is_last = case.list.last() == Some(&whole(last));
        let calls_first = |step: &Step| matches!(step, Step::Call(Way::First, _));
        assert!(
            is_first || !case.steps.iter().any(calls_first),
            "{}",
            case.label
        );
        let says_last = |outcome: &Outcome| outcome.answer == Ok(Found::Last);
        assert!(is_last || !outcomes.iter().any(says_last), "{}", case.label);
    }
}

/// Takes a number of 16 bits off the front.
fn take_word(bytes: &mut &[u8]) -> u16 {
    take_number(bytes, 2) as u16
}

/// Takes a step off the front.
fn take_step(bytes: &mut &[u8]) -> Step {
    let numbers = [(); 10].map(|_| take_word(bytes));
    let scratch_length = take_number(bytes, 4);
    let way = match numbers[0] {
        0 => Way::First,
        1 => Way::Next,
        _ => return Step::Write(numbers[1], numbers[2]),
    };
    let arguments = Arguments {
        stations: numbers[1],
        slots: numbers[2],
        turnaround: numbers[3],
        keeping: numbers[4],
        source: numbers[5],
        destination: numbers[6],
        plan_from: numbers[7],
        plan_length: numbers[8],
        buffer_length: numbers[9],
        scratch_length,
    };
    Step::Call(way, arguments)
}

#[test]
fn stdin_read_back_gives_the_cases() {
    let cases: Vec<Case> = cases().iter().map(|(case, _)| case.clone()).collect();
    let stdin = stdin_bytes(&cases);
    let mut rest = stdin.as_slice();
    for case in &cases {
        let [label, plans, entries, steps, mark] = [(); 5].map(|_| take_word(&mut rest));
        assert_eq!(take(&mut rest, label.into()), case.label.as_bytes());
        assert_eq!(take(&mut rest, plans.into()), case.bytes);
        let contents: Vec<u16> = (0..entries).map(|_| take_word(&mut rest)).collect();
        assert_eq!(contents, case.contents);
        assert_eq!(mark, case.mark);
        let steps: Vec<Step> = (0..steps).map(|_| take_step(&mut rest)).collect();
        assert_eq!(steps, case.steps);
    }
    assert!(rest.is_empty());
    let stdout = stdout_text(&cases);
    assert!(stdin.len() < 1_750_000 && stdout.len() < 1_450_000);
    let calls = |case: &Case| case.outcomes().len() + 1;
    assert_eq!(stdout.lines().count(), cases.iter().map(calls).sum());
}

#[test]
fn cases_fit_the_program() {
    let mut longest = [0; 3];
    let mut largest = |part: usize, length: usize| longest[part] = length.max(longest[part]);
    for (case, _) in cases() {
        largest(0, case.bytes.len());
        largest(1, case.contents.len());
        for step in &case.steps {
            if let Step::Call(_, call) = step {
                assert!(usize::from(call.buffer_length) <= case.contents.len());
                largest(2, call.scratch_length);
            }
        }
    }
    assert!(longest[0] <= LONGEST_PLAN && longest[0] == 6 * 8193);
    assert_eq!(longest[1], LONGEST_BUFFER);
    assert_eq!(longest[2], LONGEST_SCRATCH);
}

#[test]
fn files_are_the_same_each_time() {
    let again = all_cases();
    assert!(cases().iter().map(|(case, _)| case).eq(&again));
}
