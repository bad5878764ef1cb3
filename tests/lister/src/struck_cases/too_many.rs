//! Cause 9 in the plan with the record, in the plan without it, in both, and in neither of them though there are around
//! 2^64 walks.

use super::Case;
use crate::cases::Record;
use crate::pair_cases::LabelledPlan;
use crate::reach_cases::{exact_plans, sent_ladder, Builder};
use crate::stale::{ladder_with_gap, ladder_with_short_cut, terms_text};

/// A plan, one of its records, and the numbers of loads with the record and without it.
#[derive(Clone, Debug)]
pub struct StruckLadder {
    pub label: String,
    pub builder: Builder,
    /// h
    pub keeping: u16,
    pub record: Record,
    pub with: u8,
    pub without: u8,
}

impl StruckLadder {
    /// A plan of units that keep every reading.
    fn kept(label: String, builder: Builder, record: Record, [with, without]: [u8; 2]) -> Self {
        StruckLadder {
            label,
            builder,
            keeping: 255,
            record,
            with,
            without,
        }
    }

    /// The plan, with its walks counted.
    pub fn labelled(&self) -> LabelledPlan {
        let plan = LabelledPlan::built(&self.label, &self.builder);
        plan.keeping_for(self.keeping)
    }

    pub fn position(&self) -> u64 {
        self.builder.position(self.record) as u64
    }

    /// The number: 9 where one of the two plans has it.
    pub fn number(&self) -> u8 {
        self.with.max(self.without)
    }
}

pub fn cases() -> Vec<Case> {
    let struck = |ladder: &StruckLadder| {
        let case = ladder.labelled().longer_struck(ladder.position());
        case.marked(4321).stating(ladder.number())
    };
    ladders().iter().map(struck).collect()
}

/// All of them.
pub fn ladders() -> Vec<StruckLadder> {
    [undercut(), last_walks(), in_both(), short_cuts(), gaps()].concat()
}

/// The plans around 2^64 walks to the last station that have all of them in the last slots.
const TO_THE_LAST: [&str; 8] = [
    "2^64 as two halves in one slot",
    "2^64-1 in one slot",
    "2^64+0 in one slot",
    "2^64+1 in one slot",
    "2^64 at a station, half in each of two slots",
    "2^64-1 at a station, over three slots",
    "2^64 at a station, over four slots",
    "2^64 at a station, all but 1 in one slot",
];

/// These plans, with g = 1 and g = 2 and the source in several places, and their numbers.
fn to_the_last() -> Vec<(String, Builder, usize, u8)> {
    let mut plans = Vec::new();
    for turnaround in [1, 2] {
        let exact = exact_plans(64, turnaround).into_iter();
        let name = |label: &str| label.replacen(&format!(", g {turnaround}"), "", 1);
        let exact = exact.filter(|plan| TO_THE_LAST.contains(&name(&plan.label).as_str()));
        for (index, plan) in exact.enumerate() {
            let source = [0, 1, 64][index % 3];
            let builder = plan.builder.with_source(source);
            plans.push((plan.label, builder, source, plan.number));
        }
    }
    assert_eq!(plans.len(), 2 * TO_THE_LAST.len());
    plans
}

/// The last station hears the source itself in the last slot. Without that contact it has all the other walks.
fn undercut() -> Vec<StruckLadder> {
    let plan = |(label, mut builder, source, number): (String, Builder, usize, u8)| {
        let (stations, slots) = builder.sizes();
        let record = (slots, source as u16, stations - 1);
        builder.send(slots.into(), source, (stations - 1).into());
        let label = format!("{label}, and one hop");
        StruckLadder::kept(label, builder, record, [0, number])
    };
    to_the_last().into_iter().map(plan).collect()
}

/// One of the contacts that bring the last walks: with it there are too many of them, without it one less or half.
fn last_walks() -> Vec<StruckLadder> {
    let plans = to_the_last().into_iter();
    let refused = plans.filter(|(label, _, _, number)| *number == 9 && !label.contains("+1"));
    let plan = |(label, builder, _, number): (String, Builder, usize, u8)| {
        let (stations, slots) = builder.sizes();
        let record = builder.last_heard(stations - 1);
        assert_eq!(record.0, slots);
        let label = format!("{label}, the last walks");
        StruckLadder::kept(label, builder, record, [number, 0])
    };
    refused.map(plan).collect()
}

/// A ladder of 66 layers has 2^65 walks, and without a contact of the first or of the last layer 2^64.
fn in_both() -> Vec<StruckLadder> {
    let ladder = sent_ladder(66, 2);
    let plan = |record: Record| {
        let label = format!("sent ladder of 66, {record:?}");
        StruckLadder::kept(label, ladder.clone(), record, [9, 9])
    };
    [(1, 0, 1), (1, 0, 2), (66, 129, 132)].map(plan).to_vec()
}

/// The short cut to layer 33 is there from h = 32 on. Without its first contact the last layer has 2^64 walks; without
/// one of the two others, or of a layer, the short cut is still there.
fn short_cuts() -> Vec<StruckLadder> {
    let builder = ladder_with_short_cut(65, 33);
    let first = (1, 0, 131);
    let mut plans = Vec::new();
    for (keeping, record, numbers) in [
        (255, first, [0, 9]),
        (32, first, [0, 9]),
        (31, first, [9, 9]),
        (1, first, [9, 9]),
        (32, (33, 131, 66), [0, 0]),
        (255, (33, 131, 65), [0, 0]),
        (255, (1, 0, 1), [0, 0]),
        (255, (65, 127, 129), [0, 0]),
    ] {
        let label = format!("short cut, {record:?}, {}", terms_text((1, keeping)));
        plans.push(StruckLadder {
            keeping,
            ..StruckLadder::kept(label, builder.clone(), record, numbers)
        });
    }
    plans
}

/// With h = 1 no reading crosses the gap behind layer 32; with h = 2 the last layer has 2^64 walks, and without a contact
/// of layer 1 half as many.
fn gaps() -> Vec<StruckLadder> {
    let builder = ladder_with_gap(65, 32);
    let plan = |(keeping, numbers): (u16, [u8; 2])| {
        let (record, terms) = ((1, 0, 2), terms_text((1, keeping)));
        let label = format!("ladder with a gap, {record:?}, {terms}");
        StruckLadder {
            keeping,
            ..StruckLadder::kept(label, builder.clone(), record, numbers)
        }
    };
    [(1, [0, 0]), (2, [9, 0])].map(plan).to_vec()
}
