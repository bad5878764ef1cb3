//! The comparison of one call, and the numbers of comparisons.

use std::collections::BTreeMap;
use std::fmt::{Debug, Write};

use lister::means::Means;
use lister::operation::{Answered, Operation, LAST, NONE, OPERATIONS};
use lister::plan::read;
use lister::shortest::NO_WALK;
use lister::verdicts::VERDICTS;

use crate::call::{function, Call};
use crate::native::{self, Seen};
use crate::reading::Readings;

/// The text of a difference.
pub type Difference = String;

/// The comparisons so far: how often each operation answered each number, how often its through counts were
/// added up, how often they were fewer than the hops' stations, how often each verdict was given, how often
/// partial loads were held to the loads and to those of fewer sources, what came in runs on a band, how often changes of
/// load were held to the loads, and what was read of records.
#[derive(Clone, Debug, Default)]
pub struct Comparison {
    answers: BTreeMap<(Operation, u32), u64>,
    added_up: BTreeMap<Operation, u64>,
    /// Pairs with a walk that calls twice at a station.
    called_twice: u64,
    verdicts: BTreeMap<u64, u64>,
    pub spans: [u64; 2],
    /// The calls of runs on a band by their number, and those after which a plan was in twice.
    runs: BTreeMap<u32, u64>,
    in_twice: u64,
    /// The calls of struck out whose changes were held to the loads; those with a change above 0, with one below 0, and
    /// with one as large as can be.
    pub changes: [u64; 4],
    /// The readings of records.
    pub readings: Readings,
}

impl Comparison {
    /// Makes a call and compares all of it with the reference; gives what the library left.
    pub fn compare(&mut self, call: &Call, means: Means) -> Result<Seen, Difference> {
        let seen = native::run(call);
        let (expected, lent) = call.expected(means);
        let mut told = differences(call, &expected, &seen);
        told += &tables_text("16-bit", &lent.narrow, &seen.lent.narrow);
        told += &tables_text("64-bit", &lent.wide, &seen.lent.wide);
        told += &tables_text("8-bit", &lent.sets, &seen.lent.sets);
        told += &tables_text("64-bit with a sign", &lent.signed, &seen.lent.signed);
        told += &tables_text("records, 8-bit", &lent.bytes, &seen.lent.bytes);
        told += &tables_text("list, 16-bit", &[lent.list], &[seen.lent.list.clone()]);
        if told.is_empty() {
            told += &self.every_hop_accounted(call, &seen);
            told += &self.every_record_read_back(call, &seen);
        }
        if !told.is_empty() {
            let given = answer_text(call.operation, seen.number, &seen.values);
            let asked = answer_text(call.operation, expected.number, &expected.values);
            let name = means.name();
            return Err(format!("{call}{name}: {asked}\nlibrary: {given}\n{told}"));
        }
        if (call.operation, seen.number) == (Operation::Verdict, 0) {
            *self.verdicts.entry(seen.values[0]).or_default() += 1;
        }
        let answer = (call.operation, seen.number);
        *self.answers.entry(answer).or_default() += 1;
        Ok(seen)
    }

    /// The text of a sum of the through counts that is not count × (hops − 1), document 02's C-15: for
    /// each pair or foremost call accepted with a walk, walks of one hop too. Where a pair's readings may be
    /// dropped, the sum may be less: a walk counts once for a station at which it calls twice.
    fn every_hop_accounted(&mut self, call: &Call, seen: &Seen) -> String {
        let (hops, count) = match (call.operation, seen.number, &seen.values[..]) {
            (Operation::Pair, 0, [hops, count]) => (*hops, *count),
            (Operation::Foremost, 0, [_, hops, count]) => (*hops, *count),
            _ => return String::new(),
        };
        if hops == NO_WALK.into() {
            return String::new();
        }
        *self.added_up.entry(call.operation).or_default() += 1;
        let through = seen.lent.wide[0][..call.input.stations].iter();
        let sum: u128 = through.map(|count| u128::from(*count)).sum();
        let stated = u128::from(count) * u128::from(hops - 1);
        let plan = read(call.input);
        let keeps_all = plan.is_ok_and(|plan| plan.keeps_all());
        let may_be_less = call.operation == Operation::Pair && !keeps_all;
        if sum == stated {
            String::new()
        } else if sum < stated && may_be_less {
            self.called_twice += 1;
            String::new()
        } else {
            format!("through counts add up to {sum}, and count × (hops − 1) is {stated}\n")
        }
    }

    /// The text of a record of an accepted call of drawn loads that is not read back.
    fn every_record_read_back(&mut self, call: &Call, seen: &Seen) -> String {
        if (call.operation, seen.number) != (Operation::DrawnLoads, 0) {
            return String::new();
        }
        let read = self.readings.read_back(call.input.stations, seen);
        read.err().unwrap_or_default()
    }

    /// How often an operation answered a number.
    fn answered(&self, operation: Operation, number: u32) -> u64 {
        self.answers.get(&(operation, number)).copied().unwrap_or(0)
    }

    /// How often the verdict of a number was given.
    fn given(&self, number: u32) -> u64 {
        self.verdicts.get(&number.into()).copied().unwrap_or(0)
    }

    /// A call of a run on a band, whose number and table are the bookkeeping's.
    pub fn in_run(&mut self, number: u32, twice: bool) {
        *self.runs.entry(number).or_default() += 1;
        self.in_twice += u64::from(twice);
    }

    /// The numbers that an operation knows and never answered, also in the runs, and the verdicts never given.
    pub fn never_answered(&self) -> Vec<(&'static str, u32)> {
        let mut never = Vec::new();
        for operation in OPERATIONS {
            let numbers = operation.numbers().into_iter();
            let unseen = numbers.filter(|number| self.answered(operation, *number) == 0);
            never.extend(unseen.map(|number| (function(operation), number)));
        }
        let numbers = VERDICTS.map(|verdict| u32::from(verdict.number()));
        let unseen = numbers
            .into_iter()
            .filter(|number| self.given(*number) == 0);
        never.extend(unseen.map(|number| ("verdict", number)));
        never.extend((self.called_twice == 0).then_some(("walks twice at a station", 0)));
        let numbers = Operation::TakeIn.numbers().into_iter();
        let unseen = numbers.filter(|number| !self.runs.contains_key(number));
        never.extend(unseen.map(|number| ("runs on a band", number)));
        never.extend((self.in_twice == 0).then_some(("a plan in twice", 0)));
        let unseen = self.changes.iter().any(|times| *times == 0);
        never.extend(unseen.then_some(("changes of every kind", 0)));
        let unseen = self.readings.lack_a_kind();
        never.extend(unseen.then_some(("readings of every kind", 0)));
        never
    }

    /// A line an operation: its comparisons, and how often each number was answered.
    pub fn table(&self) -> String {
        let mut text = String::new();
        let mut total = 0;
        for operation in OPERATIONS {
            let numbers = operation.numbers();
            let answered = |number: &u32| self.answered(operation, *number);
            let calls: u64 = numbers.iter().map(answered).sum();
            total += calls;
            let _ = write!(text, "{:21} {calls:>8}:", function(operation));
            for number in numbers {
                let _ = write!(text, " {} {}", number_name(number), answered(&number));
            }
            text.push('\n');
        }
        let _ = writeln!(text, "comparisons {total}");
        for (operation, times) in &self.added_up {
            let name = function(*operation);
            let _ = writeln!(text, "through counts added up after {name}: {times}");
        }
        let twice = self.called_twice;
        let _ = writeln!(text, "pairs with walks twice at a station: {twice}");
        for verdict in VERDICTS {
            let (word, times) = (verdict.word(), self.given(verdict.number().into()));
            let _ = writeln!(text, "verdict {word}: {times}");
        }
        let [of_loads, of_fewer] = self.spans;
        let _ = writeln!(text, "partial loads held to the loads: {of_loads}");
        let _ = writeln!(
            text,
            "partial loads held to those of fewer sources: {of_fewer}"
        );
        let _ = write!(text, "calls of runs on a band:");
        for (number, times) in &self.runs {
            let _ = write!(text, " {} {times}", number_name(*number));
        }
        let twice = self.in_twice;
        let _ = writeln!(text, "; with a plan in twice {twice}");
        let [held, up, down, largest] = self.changes;
        let kinds = format!("above 0 {up}, below 0 {down}, as large as can be {largest}");
        let _ = writeln!(text, "changes held to the loads: {held}; {kinds}");
        let [foreign, known] = self.readings.bytes;
        let _ = writeln!(
            text,
            "joftaki_read_record: foreign {foreign}, records {known}"
        );
        let [idle, unshared, loaded] = self.readings.written;
        let kinds = format!("idle {idle}, without load {unshared}, with load {loaded}");
        let _ = writeln!(text, "of these written by drawn loads: {kinds}");
        text
    }
}

/// A number in the table.
fn number_name(number: u32) -> String {
    match number {
        0 => "accepted".to_string(),
        NONE => "none".to_string(),
        LAST => "last".to_string(),
        _ => format!("[{number}]"),
    }
}

/// The number, and the values beside it.
fn answer_text(operation: Operation, number: u32, values: &[u64]) -> String {
    let values = operation.values().iter().zip(values);
    let texts = values.map(|(name, value)| format!(", {name} {value}"));
    format!("number {number}{}", texts.collect::<String>())
}

/// A line for each part of the answer that differs, and for what is written outside of what is lent.
fn differences(call: &Call, expected: &Answered, seen: &Seen) -> String {
    let mut text = String::new();
    if expected.number != seen.number {
        let _ = writeln!(text, "numbers differ");
    }
    for (place, name) in call.operation.values().iter().enumerate() {
        let (asked, value) = (expected.values[place], seen.values[place]);
        if asked != value {
            let _ = writeln!(text, "{name}: {asked}, and the library {value}");
        }
    }
    if !seen.outside_kept {
        text += "the library wrote outside of what is lent, or to the plan\n";
    }
    text
}

/// A line for each table that differs, with its first differing entry.
fn tables_text<N: Debug + PartialEq>(width: &str, expected: &[Vec<N>], seen: &[Vec<N>]) -> String {
    let mut text = String::new();
    for (table, (one, other)) in expected.iter().zip(seen).enumerate() {
        if let Some(entry) = (0..one.len()).find(|entry| one[*entry] != other[*entry]) {
            let (one, other) = (&one[entry], &other[entry]);
            let place = format!("{width} table {table}, entry {entry}");
            let _ = writeln!(text, "{place}: {one:?}, and the library {other:?}");
        }
    }
    text
}
