//! Traces with turnarounds: small plans, cause 12, refused calls with another turnaround than the trace's,
//! T around the turnaround, ladders and limits, and drawn plans.

use std::collections::BTreeSet;

use super::examples::{plan_a, replies, whole_list};
use super::ladders::sent_ladder_path;
use super::refusals::{beside_ladder, interrupted, refused_calls, too_many, with_records};
use super::small::{listing, mixed};
use super::{marks, Arguments, Case, Step};
use crate::cases::Record;
use crate::means::Counting;
use crate::one_way::WalkList;
use crate::pair_cases::LabelledPlan;
use crate::plans::pairs;
use crate::random::Random;
use crate::reach_cases::{sent_ladder, spaced_sent_ladder, star, CORNERS};
use crate::turned::{
    drawn_plans, drawn_turnaround, rows_around, spaced_row, two_links, TURNED_PLANS,
    WRONG_TURNAROUNDS,
};
use crate::ways::Way;

pub fn cases() -> Vec<Case> {
    [
        examples(),
        starts(),
        interrupted(12),
        vec![before_not_offered(), two_causes()],
        refused_with_others(),
        vec![refused_beside_two()],
        around(),
        ladders(),
        limits(),
        tiny(),
        drawn(),
        layered(),
    ]
    .concat()
}

/// The trace, with its replies.
pub fn stating(case: Case, stated: Vec<String>) -> Case {
    Case { stated, ..case }
}

/// The whole list of the plans by hand, there and back, and every pair of some of them.
fn examples() -> Vec<Case> {
    let mut cases = Vec::new();
    for turned in TURNED_PLANS {
        let (plan, last) = (turned.labelled(), turned.last());
        let mut push = |ends: (u16, u16), list: WalkList| {
            let case = whole_list(Case::on_plan(&plan, ends));
            cases.push(stating(case, replies(list)));
        };
        push((0, last), turned.there);
        push((last, 0), turned.back);
    }
    let plan = TURNED_PLANS[0].labelled();
    let inner =
        |(source, destination): &(u16, u16)| ![(0, 4), (4, 0)].contains(&(*source, *destination));
    let inner = every_pair(&plan).into_iter().filter(inner);
    cases.extend(inner.map(|ends| whole_list(Case::on_plan(&plan, ends))));
    cases
}

/// The ordered pairs of a plan.
pub fn every_pair(plan: &LabelledPlan) -> Vec<(u16, u16)> {
    let pairs = pairs(plan.sizes.0.into());
    let narrow = |(source, destination): (usize, usize)| (source as u16, destination as u16);
    pairs.map(narrow).collect()
}

/// The plan of a label among those by hand.
fn by_hand(label: &str) -> LabelledPlan {
    let plan = TURNED_PLANS.iter().find(|plan| plan.label == label);
    plan.expect("a plan by hand").labelled()
}

/// What the buffer begins with: a path, and what is a path with a smaller turnaround alone.
fn starts() -> Vec<Case> {
    let offered = |plan: &LabelledPlan, ends: (u16, u16), entries: [u16; 2]| {
        let case = Case::on_plan(plan, ends).beginning(&entries, 5);
        let label = format!("{}, offered {} {}", case.label, entries[0], entries[1]);
        Case { label, ..case }
    };
    let plan = by_hand("every slot, g 2");
    let mut cases = vec![
        offered(&plan, (0, 2), [0, 5])
            .next(3)
            .stating(&["path 2", "path 2", "last"]),
        offered(&plan, (0, 2), [0, 7])
            .next(2)
            .stating(&["path 2", "last"]),
        offered(&plan, (0, 2), [2, 7]).next(1).stating(&["last"]),
    ];
    for entries in [[0, 3], [2, 5], [4, 7], [0, 1], [7, 0], [6, 7], [0, 8]] {
        let case = offered(&plan, (0, 2), entries).next(1).first().next(1);
        cases.push(case.stating(&["refused 10", "path 2", "path 2"]));
    }
    let plan = by_hand("plan A, g 2");
    for entries in [[0, 4], [1, 5]] {
        let case = offered(&plan, (0, 3), entries).next(1).first().next(1);
        cases.push(case.stating(&["refused 10", "path 2", "last"]));
    }
    cases
}

/// The buffer begins with no path: 12 comes before 10.
fn before_not_offered() -> Case {
    let mut case = plan_a("12 before 10", (0, 4)).holding(marks(5));
    let pair = case.pair;
    let mut stated = Vec::new();
    for turnaround in WRONG_TURNAROUNDS {
        let call = Arguments { turnaround, ..pair };
        case = case.then(Step::Call(Way::Next, call));
        stated.push("refused 12");
    }
    stated.push("refused 10");
    case.next(1).stating(&stated)
}

/// 12 with each other number in one call, between the ways: 1 to 5 come before it, the others behind it.
fn two_causes() -> Case {
    let mut case = beside_ladder("12 and another cause in one call").first();
    let pair = case.pair;
    let twice = with_records(&mut case, &[(1, 0, 1), (1, 0, 1)]);
    let ladder = too_many(&mut case);
    let with = |call: Arguments, turnaround: u16, change: fn(&mut Arguments)| {
        let mut call = Arguments { turnaround, ..call };
        change(&mut call);
        call
    };
    let calls = [
        (1, with(pair, 0, |call| call.stations = 0)),
        (1, with(pair, 17, |call| call.slots = 256)),
        (2, with(pair, 17, |call| call.plan_length = 71)),
        (3, with(pair, 0, |call| call.slots = 3)),
        (4, with(pair, 65535, |call| call.stations = 4)),
        (5, with(twice, 17, |_| {})),
        (12, with(pair, 0, |call| call.source = 5)),
        (12, with(pair, 17, |call| call.destination = 65535)),
        (12, with(pair, 65535, |call| call.destination = 0)),
        (12, with(pair, 17, |call| call.buffer_length = 3)),
        (12, with(pair, 0, |call| call.scratch_length = 0)),
        (
            12,
            with(pair, 256, |call| {
                (call.source, call.destination) = (5, 5);
                (call.buffer_length, call.scratch_length) = (0, 99);
            }),
        ),
        (12, with(ladder, 0, |_| {})),
        (12, with(ladder, 17, |call| call.destination = 131)),
    ];
    let mut stated = vec!["path 3".to_string()];
    for (number, call) in calls {
        case = case.then(Step::Call(Way::Next, call));
        case = case.then(Step::Call(Way::First, call));
        stated.extend([(); 2].map(|_| format!("refused {number}")));
    }
    stated.push("path 3".to_string());
    stating(case.next(1), stated)
}

/// Refused calls between those of plan A, each with another turnaround than 1. 1 to 5 come whatever it is;
/// 6, 7 and 8 where it is in its limits.
fn refused_with_others() -> Vec<Case> {
    let mut cases = Vec::new();
    for number in 1..=8 {
        let label = format!("{number} with another g");
        let mut case = plan_a(&label, (0, 4)).holding(marks(6)).first();
        let mut stated = vec!["path 3".to_string()];
        let others: &[u16] = match number {
            1..=5 => &[2, 16, 0, 65535],
            _ => &[2, 16, 4, 3],
        };
        let calls = refused_calls(&mut case, number);
        for ((_, call), turnaround) in calls.into_iter().zip(others.iter().cycle()) {
            let call = Arguments {
                turnaround: *turnaround,
                ..call
            };
            case = case.then(Step::Call(Way::Next, call));
            case = case.then(Step::Call(Way::First, call));
            stated.extend([(); 2].map(|_| format!("refused {number}")));
        }
        case = case.next(3).first();
        stated.extend(["path 3", "path 3", "last", "path 3"].map(str::to_string));
        cases.push(stating(case, stated));
    }
    cases
}

/// A trace with turnaround 2: refused calls with 1, 3 and 16, 9 from a ladder with 1, and calls with 12.
fn refused_beside_two() -> Case {
    let case = Case::on_plan(&by_hand("every slot, g 2"), (0, 2));
    let mut case = Case {
        label: "every slot, g 2, refused calls with another g".to_string(),
        counting: Counting::Fast,
        ..case.holding(marks(66)).longer_scratch(3)
    };
    let pair = case.pair;
    let ladder = too_many(&mut case);
    assert_eq!((pair.turnaround, ladder.turnaround), (2, 1));
    let with = |turnaround: u16, change: fn(&mut Arguments)| {
        let mut call = Arguments { turnaround, ..pair };
        change(&mut call);
        call
    };
    let calls = [
        (9, ladder),
        (6, with(1, |call| call.source = 3)),
        (7, with(3, |call| call.destination = 0)),
        (8, with(16, |call| call.buffer_length = 3)),
        (8, with(1, |call| call.scratch_length = 59)),
        (1, with(1, |call| call.slots = 0)),
        (3, with(3, |call| call.slots = 3)),
        (12, with(0, |_| {})),
        (12, with(17, |_| {})),
    ];
    let mut stated = Vec::new();
    for round in calls.chunks(3) {
        case = match stated.is_empty() {
            true => case.first(),
            false => case.next(1),
        };
        stated.push("path 2".to_string());
        for (number, call) in round {
            case = case.then(Step::Call(Way::Next, *call));
            case = case.then(Step::Call(Way::First, *call));
            stated.extend([(); 2].map(|_| format!("refused {number}")));
        }
    }
    stated.push("last".to_string());
    stating(case.next(1), stated)
}

/// Rows of stations in every slot, T around the turnaround.
fn around() -> Vec<Case> {
    let mut cases = Vec::new();
    for plan in rows_around() {
        cases.extend([(0, 3), (0, 2)].map(|ends| whole_list(Case::on_plan(&plan, ends))));
    }
    cases
}

/// A trace without steps on a ladder whose layers are a turnaround apart.
pub fn spaced(turnaround: usize, layers: usize) -> Case {
    let builder = spaced_sent_ladder(turnaround, layers, 2);
    let last = 2 * layers as u16;
    let label = format!("spaced ladder of {layers} layers, g {turnaround}");
    let mut case = Case::unlisted(&label, builder.sizes(), builder.bytes(), (0, last));
    case.pair.turnaround = turnaround as u16;
    case
}

/// The first ways and the last ones of such a ladder of 64 layers.
pub fn first_and_last(bare: Case) -> [Case; 2] {
    let part = |name: &str, indices: std::ops::Range<u64>| Case {
        label: format!("{}, {name}", bare.label),
        list: indices
            .map(|index| sent_ladder_path(64, 1, index))
            .collect(),
        ..bare.clone()
    };
    let all = 1 << 63;
    let first = part("first ways", 0..4).first().next(3);
    let last = part("last ways", all - 2..all);
    let offered = last.list[0].clone();
    let length = last.contents.len();
    let last = last.beginning(&offered, length).next(2);
    [
        first.stating(&["path 64"; 4]),
        last.stating(&["path 64", "last"]),
    ]
}

/// Ladders whose layers are a turnaround apart: their first ways and their last, and 65 layers; then a ladder
/// whose layers are nearer.
fn ladders() -> Vec<Case> {
    let mut cases = Vec::new();
    for turnaround in [2, 4] {
        cases.extend(first_and_last(spaced(turnaround, 64)));
    }
    cases.push(spaced(3, 65).first().next(1).stating(&["refused 9"; 2]));
    let near = sent_ladder(9, 2);
    let near = LabelledPlan::built("ladder of 9 layers, g 2", &near).turning(2);
    cases.push(
        Case::on_plan(&near, (0, 18))
            .first()
            .next(1)
            .stating(&["none", "refused 10"]),
    );
    cases
}

/// n 256 and T 255, with few records and with 8,192.
fn limits() -> Vec<Case> {
    let on = |label: &str, records: &[Record], turnaround: u16, ends: (u16, u16)| {
        let label = format!("n 256, T 255, {label}, g {turnaround}");
        let plan = LabelledPlan::of_records(&label, (256, 255), records);
        Case::on_plan(&plan.turning(turnaround), ends)
    };
    let star = on("8192 records, star", &star(), 2, (255, 0));
    let late = on("8192 records, late", &late(), 16, (0, 255));
    for case in [&star, &late] {
        assert_eq!(case.bytes.len(), 6 * 8192);
    }
    let late = late.beginning(&[8188, 8190], 255).next(1).first().next(2);
    let mut cases = vec![
        star.first().next(1).stating(&["path 1", "last"]),
        late.stating(&["refused 10", "path 2", "path 2", "last"]),
    ];
    for turnaround in [2, 16] {
        let corners = on("corners", &CORNERS, turnaround, (0, 254));
        cases.push(whole_list(corners));
        let row = spaced_row(turnaround);
        let last = row.len() as u16;
        let row = on("row", &row, turnaround, (0, last));
        let path = format!("path {last}");
        cases.push(row.first().next(1).stating(&[&path, "last"]));
    }
    cases
}

/// 8,192 records. Of three stations that hear the first one in slots 238 to 240 and send to the last one in
/// slot 255, two wait 16 slots or more. The last six records are theirs.
fn late() -> Vec<Record> {
    let others = (1..=237).flat_map(|slot| (4..252).map(move |a| (slot, a, 255 - a)));
    let mut records: Vec<Record> = others.take(8192 - 6).collect();
    records.extend([(238, 0, 3), (239, 0, 1), (240, 0, 2)]);
    records.extend((1..=3).map(|station| (255, station, 255)));
    records
}

/// Plans of two links in four slots: all with turnaround 2, every fourth one with 3.
fn tiny() -> Vec<Case> {
    let mut cases = Vec::new();
    for (turnaround, step) in [(2, 1), (3, 4)] {
        for plan in two_links().into_iter().step_by(step) {
            let label = format!("{}, g {turnaround}", plan.label);
            let plan = LabelledPlan { label, ..plan }.turning(turnaround);
            let case = Case::on_plan(&plan, (0, 2));
            let times = case.list.len();
            cases.push(case.first().next(times));
        }
    }
    cases
}

/// The seed of the traces; each label names it.
pub const SEED: u64 = 21;

/// Drawn plans with turnarounds drawn: whole lists, and mixed traces with refused calls of other turnarounds.
fn drawn() -> Vec<Case> {
    let mut random = Random::new(SEED);
    let mut cases = Vec::new();
    for (index, plan) in drawn_plans(40).iter().enumerate() {
        for (at, ends) in every_pair(plan).into_iter().enumerate() {
            let case = Case::on_plan(plan, ends);
            let named = |name: &str| Case {
                label: format!("{}, {name}", case.label),
                ..case.clone()
            };
            match (index + at) % 4 {
                0 => cases.push(listing(named("all ways"), index)),
                1 => {
                    let mixed = mixed(&mut random, named("mixed"), 12);
                    cases.push(other_turnarounds(&mut random, mixed));
                }
                _ => {}
            }
        }
    }
    cases
}

/// Drawn plans of layers, whose pairs have many ways of several hops: whole lists and mixed traces.
fn layered() -> Vec<Case> {
    let mut random = Random::new(SEED);
    let mut cases = Vec::new();
    for index in 0..24 {
        let plan = layers(&mut random, index);
        let last = plan.sizes.0 - 1;
        let case = Case::on_plan(&plan, (0, last));
        let named = |name: &str| Case {
            label: format!("{}, {name}", case.label),
            ..case.clone()
        };
        cases.push(listing(named("all ways"), index));
        let mixed = mixed(&mut random, named("mixed"), 20);
        cases.push(other_turnarounds(&mut random, mixed));
    }
    cases
}

/// Layers of up to three stations behind the source. Each two stations of neighbouring layers have contacts
/// in up to three slots around those in which a hop after the wait falls.
fn layers(random: &mut Random, index: usize) -> LabelledPlan {
    let turnaround = drawn_turnaround(random);
    let layers = random.between(2, 4);
    let more = random.between(2, 4);
    let mut records: BTreeSet<Record> = BTreeSet::new();
    let mut stations = 1;
    let mut last = 0..1;
    for layer in 0..layers {
        let next = stations..stations + random.between(1, 3);
        stations = next.end;
        for (a, b) in last.flat_map(|a| next.clone().map(move |b| (a, b))) {
            for _ in 0..random.between(1, 3) {
                let slot = 1 + layer * turnaround + random.below(more);
                records.insert((slot as u16, a as u16, b as u16));
            }
        }
        last = next;
    }
    let slots = (layers - 1) * turnaround + more;
    let records: Vec<Record> = records.into_iter().collect();
    let label = format!("layers {index}, seed {SEED}, g {turnaround}");
    let plan = LabelledPlan::of_records(&label, (stations as u16, slots as u16), &records);
    plan.turning(turnaround as u16)
}

/// The trace with other turnarounds in half of its refused calls, and outside of their limits in some of its
/// others, which are then refused.
pub fn other_turnarounds(random: &mut Random, mut case: Case) -> Case {
    let pair = case.pair;
    for step in &mut case.steps {
        let Step::Call(_, call) = step else {
            continue;
        };
        let wrong = WRONG_TURNAROUNDS[random.below(WRONG_TURNAROUNDS.len())];
        if call.is_refused(pair) {
            call.turnaround = match random.below(4) {
                0 => wrong,
                1 => drawn_turnaround(random) as u16,
                _ => call.turnaround,
            };
        } else if random.below(8) == 0 {
            call.turnaround = wrong;
        }
    }
    case
}
