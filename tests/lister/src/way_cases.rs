//! Cases for a program that runs operations 7 and 8, first way and next way, in traces.
//!
//! A case on standard input: the length of the label, the number of its bytes of plans, the entries of
//! the way buffer, the number of steps and a mark, each 16 bits, high byte first; then the label, the
//! bytes of plans, the entries of the way buffer before the first step, and the steps. A step has
//! ten numbers of 16 bits: the kind (0 first way, 1 next way, 2 the caller writes), n, T, g, h, source,
//! destination, the first byte of the plan, its length, the lent entries of the way buffer; and one of
//! 32 bits, the lent entries of the scratch. A write has the entry for n and the value for T.
//!
//! The expected output has a line with the label, and a line for each call: "path" and its hops,
//! "none", "last", or "refused" and the number; behind " |" all entries of the way buffer; behind " |"
//! the runs of the lent scratch but those of 0. The scratch holds the mark before each call.

mod examples;
mod ladders;
mod layered;
mod limits;
mod refusals;
mod small;
mod stale;
mod starts;
mod turnarounds;

use std::collections::BTreeMap;

use crate::answer::Answer;
use crate::cases::{plan_bytes, Record};
use crate::cursor::{self, Cursor};
use crate::files::{case_bytes, words_bytes, Filed};
use crate::lent;
use crate::means::{Counting, COUNT_LIMIT};
use crate::pair_cases::LabelledPlan;
use crate::plan::{PlanInput, KEPT, LEAST_TURNAROUND};
use crate::plans::pairs;
use crate::reach_cases::counts_text;
use crate::ways::{accepted_plan, walks_of_call, Found, Way, WayCall};

pub use ladders::{ladder_path, sent_ladder_path};
pub use small::mixed;
pub use stale::other_keepings;
pub use turnarounds::other_turnarounds;

/// The longest label, in bytes.
pub const LONGEST_LABEL: usize = 60;
/// The most bytes of plans.
pub const LONGEST_PLAN: usize = 49_200;
/// The most entries of the way buffer.
pub const LONGEST_BUFFER: usize = 300;
/// The most entries of the scratch.
pub const LONGEST_SCRATCH: usize = 262_200;

/// The arguments of a call; the plan is a part of the case's bytes.
#[derive(Clone, Copy, Debug, PartialEq, Eq, PartialOrd, Ord)]
pub struct Arguments {
    /// n
    pub stations: u16,
    /// T
    pub slots: u16,
    /// g
    pub turnaround: u16,
    /// h
    pub keeping: u16,
    pub source: u16,
    pub destination: u16,
    /// The first byte of the plan.
    pub plan_from: u16,
    pub plan_length: u16,
    pub buffer_length: u16,
    pub scratch_length: usize,
}

impl Arguments {
    /// The call that the arguments make.
    pub fn call<'a>(&self, bytes: &'a [u8]) -> WayCall<'a> {
        let plan = &bytes[usize::from(self.plan_from)..][..usize::from(self.plan_length)];
        WayCall {
            input: PlanInput {
                bytes: plan,
                stations: self.stations.into(),
                slots: self.slots.into(),
                turnaround: self.turnaround.into(),
                keeping: self.keeping.into(),
            },
            source: self.source.into(),
            destination: self.destination.into(),
            buffer_length: self.buffer_length.into(),
            scratch_length: self.scratch_length,
        }
    }

    /// Whether a call of a mixed trace has a cause other than 9 and 10: it is not the pair's, or lends too little.
    fn is_refused(self, pair: Arguments) -> bool {
        let named = Arguments {
            buffer_length: self.buffer_length,
            scratch_length: self.scratch_length,
            ..pair
        };
        let short = self.buffer_length < pair.slots || self.scratch_length < pair.scratch_length;
        self != named || short
    }
}

/// One step of a trace.
#[derive(Clone, Copy, Debug, PartialEq, Eq)]
pub enum Step {
    Call(Way, Arguments),
    /// The caller writes a value to an entry of the buffer.
    Write(u16, u16),
}

/// A trace on one pair.
#[derive(Clone, Debug, PartialEq, Eq)]
pub struct Case {
    pub label: String,
    /// The pair's plan, and behind it those of other calls.
    pub bytes: Vec<u8>,
    /// The call that names the pair.
    pub pair: Arguments,
    /// The pair's shortest paths in order; of a ladder the neighbours that the trace visits.
    pub list: Vec<Vec<u16>>,
    /// What the way buffer holds before the first step.
    pub contents: Vec<u16>,
    /// What the scratch holds before each call.
    pub mark: u16,
    pub steps: Vec<Step>,
    /// How cause 9 is found.
    pub counting: Counting,
    /// The replies stated by hand; none for a generated case.
    pub stated: Vec<String>,
}

/// What a call answers and leaves.
#[derive(Clone, Debug, PartialEq, Eq)]
pub struct Outcome {
    pub answer: Answer<Found>,
    pub buffer: Vec<u16>,
    pub scratch: Vec<u64>,
}

impl Outcome {
    /// The answer in words.
    pub fn reply(&self) -> String {
        match self.answer {
            Ok(Found::Walk(hops)) => format!("path {hops}"),
            Ok(Found::NoWalk) => "none".to_string(),
            Ok(Found::Last) => "last".to_string(),
            Err(refusal) => format!("refused {}", refusal.number()),
        }
    }

    /// The expected line, without its end.
    fn line(&self) -> String {
        let entries: Vec<String> = self
            .buffer
            .iter()
            .map(|entry| format!(" {entry}"))
            .collect();
        let scratch = counts_text(&self.scratch);
        format!("{} |{}{scratch}", self.reply(), entries.concat())
    }
}

/// Entries that tell their places.
fn marks(length: usize) -> Vec<u16> {
    (60..).take(length).collect()
}

impl Case {
    /// A trace without steps and list. The buffer has T entries, the scratch the named ones.
    fn unlisted(
        label: &str,
        (stations, slots): (u16, u16),
        bytes: Vec<u8>,
        (source, destination): (u16, u16),
    ) -> Case {
        let pair = Arguments {
            stations,
            slots,
            turnaround: LEAST_TURNAROUND as u16,
            keeping: KEPT as u16,
            source,
            destination,
            plan_from: 0,
            plan_length: bytes.len() as u16,
            buffer_length: slots,
            scratch_length: lent::scratch_length(stations.into(), slots.into()),
        };
        Case {
            label: label.to_string(),
            bytes,
            pair,
            list: Vec::new(),
            contents: marks(slots.into()),
            mark: 7,
            steps: Vec::new(),
            counting: Counting::Fast,
            stated: Vec::new(),
        }
    }

    /// A trace without steps on bytes; the plain lister gives its list.
    pub fn on_bytes(label: &str, sizes: (u16, u16), bytes: Vec<u8>, stations: (u16, u16)) -> Case {
        Case::unlisted(label, sizes, bytes, stations).listed()
    }

    /// A trace without steps on records; the plain lister gives its list.
    fn on_records(
        label: &str,
        sizes: (u16, u16),
        records: &[Record],
        stations: (u16, u16),
    ) -> Case {
        Case::on_bytes(label, sizes, plan_bytes(records), stations)
    }

    /// A trace without steps on a plan and its g and h; the plain lister gives its list.
    pub fn on_plan(plan: &LabelledPlan, (source, destination): (u16, u16)) -> Case {
        let label = format!("{}, {source} to {destination}", plan.label);
        let bytes = plan.bytes.clone();
        let mut case = Case::unlisted(&label, plan.sizes, bytes, (source, destination));
        case.pair.turnaround = plan.turnaround;
        case.pair.keeping = plan.keeping;
        case.listed()
    }

    /// A trace without steps for each two different stations of a plan.
    fn every_pair(label: &str, sizes: (u16, u16), bytes: &[u8]) -> Vec<Case> {
        let case = |(source, destination): (usize, usize)| {
            let label = format!("{label}, {source} to {destination}");
            let stations = (source as u16, destination as u16);
            Case::on_bytes(&label, sizes, bytes.to_vec(), stations)
        };
        pairs(sizes.0.into()).map(case).collect()
    }

    /// The trace with the plain lister's list.
    fn listed(self) -> Case {
        let list = walks_of_call(COUNT_LIMIT, &self.pair.call(&self.bytes));
        Case {
            list: list.expect("an accepted call"),
            counting: Counting::Listed,
            ..self
        }
    }

    /// The trace with another buffer, which its calls are lent whole.
    fn holding(mut self, contents: Vec<u16>) -> Case {
        self.pair.buffer_length = contents.len() as u16;
        self.contents = contents;
        self
    }

    /// The trace with another buffer, which begins with the given entries.
    fn beginning(self, entries: &[u16], length: usize) -> Case {
        let mut contents = marks(length);
        contents[..entries.len()].copy_from_slice(entries);
        self.holding(contents)
    }

    /// The trace with more lent entries of the scratch.
    fn longer_scratch(mut self, more: usize) -> Case {
        self.pair.scratch_length += more;
        self
    }

    /// The trace with another mark.
    fn marked(self, mark: u16) -> Case {
        Case { mark, ..self }
    }

    /// One step more.
    fn then(mut self, step: Step) -> Case {
        self.steps.push(step);
        self
    }

    /// First way of the pair.
    fn first(self) -> Case {
        let pair = self.pair;
        self.then(Step::Call(Way::First, pair))
    }

    /// Next way of the pair, so many times.
    fn next(self, times: usize) -> Case {
        let pair = self.pair;
        (0..times).fold(self, |case, _| case.then(Step::Call(Way::Next, pair)))
    }

    /// The trace with its replies stated by hand.
    fn stating(mut self, replies: &[&str]) -> Case {
        self.stated = replies.iter().map(|reply| reply.to_string()).collect();
        self
    }

    /// The pair's call with other bytes as its plan; the case carries them behind the others.
    fn with_plan(&mut self, bytes: &[u8]) -> Arguments {
        let plan_from = self.bytes.len() as u16;
        self.bytes.extend(bytes);
        Arguments {
            plan_from,
            plan_length: bytes.len() as u16,
            ..self.pair
        }
    }

    /// Whether a call has a cause other than 10.
    fn causes(&self, call: &WayCall) -> Answer<()> {
        let plan = accepted_plan(call)?;
        let entries = self.counting.entries(&plan, call.source);
        entries.within(COUNT_LIMIT)
    }

    /// The scratch after a call: the named part is 0 where no cause before 9 holds.
    fn scratch_after(&self, call: &WayCall) -> Vec<u64> {
        let mut scratch = vec![self.mark.into(); call.scratch_length];
        let named =
            accepted_plan(call).map_or(0, |plan| lent::scratch_length(plan.stations, plan.slots));
        scratch[..named].fill(0);
        scratch
    }

    /// The steps with the calls that they make.
    pub fn trace(&self) -> Vec<cursor::Step<'_>> {
        let step = |step: &Step| match step {
            Step::Call(way, arguments) => cursor::Step::Call(*way, arguments.call(&self.bytes)),
            Step::Write(entry, value) => cursor::Step::Write((*entry).into(), *value),
        };
        self.steps.iter().map(step).collect()
    }

    /// What each call answers and leaves, by the cursor.
    pub fn outcomes(&self) -> Vec<Outcome> {
        let mut cursor = Cursor::start(COUNT_LIMIT, self.list.clone(), &self.contents);
        let mut known: BTreeMap<Arguments, Answer<()>> = BTreeMap::new();
        let mut outcomes = Vec::new();
        for step in &self.steps {
            match step {
                Step::Write(entry, value) => cursor.write((*entry).into(), *value),
                Step::Call(way, arguments) => {
                    let call = arguments.call(&self.bytes);
                    let causes = known
                        .entry(*arguments)
                        .or_insert_with(|| self.causes(&call));
                    let answer = cursor.answer(*way, *causes);
                    outcomes.push(Outcome {
                        answer,
                        buffer: cursor.buffer().to_vec(),
                        scratch: self.scratch_after(&call),
                    });
                }
            }
        }
        outcomes
    }
}

impl Filed for Case {
    fn stdin(&self) -> Vec<u8> {
        let (plans, entries) = (self.bytes.len(), self.contents.len());
        let lengths = [self.label.len(), plans, entries, self.steps.len()];
        let mut head = lengths.map(|length| length as u16).to_vec();
        head.push(self.mark);
        let mut bytes = case_bytes(&head, &[], &self.label, &self.bytes);
        bytes.extend(words_bytes(self.contents.iter().copied()));
        bytes.extend(self.steps.iter().flat_map(step_bytes));
        bytes
    }

    fn stdout(&self) -> String {
        let lines = self.outcomes();
        let lines = lines.iter().map(|outcome| outcome.line() + "\n");
        format!("{}\n{}", self.label, lines.collect::<String>())
    }
}

/// The bytes of a step.
fn step_bytes(step: &Step) -> Vec<u8> {
    let (words, scratch_length) = match step {
        Step::Write(entry, value) => ([2, *entry, *value, 0, 0, 0, 0, 0, 0, 0], 0),
        Step::Call(way, call) => {
            let words = [
                match way {
                    Way::First => 0,
                    Way::Next => 1,
                },
                call.stations,
                call.slots,
                call.turnaround,
                call.keeping,
                call.source,
                call.destination,
                call.plan_from,
                call.plan_length,
                call.buffer_length,
            ];
            (words, call.scratch_length)
        }
    };
    case_bytes(&words, &[scratch_length], "", &[])
}

/// All cases, in the order of the files.
pub fn all_cases() -> Vec<Case> {
    [
        examples::cases(),
        starts::cases(),
        refusals::cases(),
        ladders::cases(),
        limits::cases(),
        layered::cases(),
        small::cases(),
        turnarounds::cases(),
        stale::cases(),
    ]
    .concat()
}
