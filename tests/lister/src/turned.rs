//! Small plans with a turnaround: some with their shortest paths from the first station to the last and
//! back, all plans of two links in four slots, and drawn ones.

use crate::cases::{valid_records, Record, PLAN_A};
use crate::one_way::WalkList;
use crate::pair_cases::LabelledPlan;
use crate::plan::MOST_TURNAROUND;
use crate::plans::{subsets, Owned, Records};
use crate::random::Random;

/// Turnarounds in their limits and outside of them.
pub const TURNAROUNDS: [u16; 7] = [0, 1, 2, 3, 16, 17, 65535];
/// Turnarounds outside of their limits; some are inside of them in their low bits.
pub const WRONG_TURNAROUNDS: [u16; 8] = [0, 17, 18, 32, 255, 256, 257, 65535];

/// A plan, its turnaround, and two lists of shortest paths.
#[derive(Clone, Copy, Debug)]
pub struct TurnedPlan {
    pub label: &'static str,
    /// n and T
    pub sizes: (u16, u16),
    /// g
    pub turnaround: u16,
    pub records: Records,
    /// From the first station to the last.
    pub there: WalkList,
    /// From the last station to the first.
    pub back: WalkList,
}

impl TurnedPlan {
    pub fn owned(&self) -> Owned {
        self.labelled().owned()
    }

    pub fn labelled(&self) -> LabelledPlan {
        let plan = LabelledPlan::of_records(self.label, self.sizes, &self.records.all());
        plan.turning(self.turnaround)
    }

    /// The last station.
    pub fn last(&self) -> u16 {
        self.sizes.0 - 1
    }
}

/// A plan in which no path leads back.
const fn there(
    label: &'static str,
    sizes: (u16, u16),
    turnaround: u16,
    records: &'static [Record],
    there: WalkList,
) -> TurnedPlan {
    TurnedPlan {
        label,
        sizes,
        turnaround,
        records: Records::OneWay(records),
        there,
        back: &[],
    }
}

/// From 0 to 1 and from 1 to 2 in each of four slots.
const EVERY_SLOT: [Record; 8] = [
    (1, 0, 1),
    (1, 1, 2),
    (2, 0, 1),
    (2, 1, 2),
    (3, 0, 1),
    (3, 1, 2),
    (4, 0, 1),
    (4, 1, 2),
];

/// The plans.
pub const TURNED_PLANS: [TurnedPlan; 38] = [
    there("plan A, g 2", (5, 4), 2, &PLAN_A, &[]),
    there(
        "first hop in slot 1, g 16",
        (2, 1),
        16,
        &[(1, 0, 1)],
        &[&[0]],
    ),
    there(
        "first hop in slot 5 of 5, g 5",
        (2, 5),
        5,
        &[(5, 0, 1)],
        &[&[0]],
    ),
    TurnedPlan {
        label: "one hop in each of 3 slots, g 16",
        sizes: (2, 3),
        turnaround: 16,
        records: Records::Doubled(&[(1, 0, 1), (2, 0, 1), (3, 0, 1)]),
        there: &[&[0], &[2], &[4]],
        back: &[&[1], &[3], &[5]],
    },
    there(
        "slots 1 and 2, g 1",
        (3, 2),
        1,
        &[(1, 0, 1), (2, 1, 2)],
        &[&[0, 1]],
    ),
    there(
        "slots 1 and 2, g 2",
        (3, 2),
        2,
        &[(1, 0, 1), (2, 1, 2)],
        &[],
    ),
    there(
        "slots 1 and 3, g 2",
        (3, 3),
        2,
        &[(1, 0, 1), (3, 1, 2)],
        &[&[0, 1]],
    ),
    there(
        "slots 1 and 3, g 3",
        (3, 3),
        3,
        &[(1, 0, 1), (3, 1, 2)],
        &[],
    ),
    there(
        "slots 1 and 4, g 3",
        (3, 4),
        3,
        &[(1, 0, 1), (4, 1, 2)],
        &[&[0, 1]],
    ),
    there(
        "slots 2 and 4, g 3",
        (3, 4),
        3,
        &[(2, 0, 1), (4, 1, 2)],
        &[],
    ),
    there(
        "slots 1 and 16, g 15",
        (3, 16),
        15,
        &[(1, 0, 1), (16, 1, 2)],
        &[&[0, 1]],
    ),
    there(
        "slots 1 and 16, g 16",
        (3, 16),
        16,
        &[(1, 0, 1), (16, 1, 2)],
        &[],
    ),
    there(
        "slots 1 and 17, g 16",
        (3, 17),
        16,
        &[(1, 0, 1), (17, 1, 2)],
        &[&[0, 1]],
    ),
    there(
        "slots 2 and 17, g 16",
        (3, 17),
        16,
        &[(2, 0, 1), (17, 1, 2)],
        &[],
    ),
    there(
        "slots 1, 17 and 33, g 16",
        (4, 33),
        16,
        &[(1, 0, 1), (17, 1, 2), (33, 2, 3)],
        &[&[0, 1, 2]],
    ),
    there(
        "slots 1, 17 and 32, g 16",
        (4, 32),
        16,
        &[(1, 0, 1), (17, 1, 2), (32, 2, 3)],
        &[],
    ),
    there(
        "slots 1, 3 and 5, g 2",
        (4, 5),
        2,
        &[(1, 0, 1), (3, 1, 2), (5, 2, 3)],
        &[&[0, 1, 2]],
    ),
    there(
        "slots 1, 3 and 4, g 2",
        (4, 4),
        2,
        &[(1, 0, 1), (3, 1, 2), (4, 2, 3)],
        &[],
    ),
    there(
        "slots 1, 2 and 4, g 2",
        (4, 4),
        2,
        &[(1, 0, 1), (2, 1, 2), (4, 2, 3)],
        &[],
    ),
    there(
        "slots 1, 5 and 6, g 2",
        (4, 6),
        2,
        &[(1, 0, 1), (5, 1, 2), (6, 2, 3)],
        &[],
    ),
    there(
        "the later of two contacts, g 2",
        (3, 3),
        2,
        &[(1, 0, 1), (2, 1, 2), (3, 1, 2)],
        &[&[0, 2]],
    ),
    there(
        "heard again while it waits, g 2",
        (3, 3),
        2,
        &[(1, 0, 1), (2, 0, 1), (3, 1, 2)],
        &[&[0, 2]],
    ),
    there(
        "heard twice, and both go out, g 2",
        (3, 4),
        2,
        &[(1, 0, 1), (2, 0, 1), (4, 1, 2)],
        &[&[0, 2], &[1, 2]],
    ),
    there(
        "of two paths one waits, g 2",
        (4, 3),
        2,
        &[(1, 0, 1), (1, 0, 2), (2, 2, 3), (3, 1, 3)],
        &[&[0, 3]],
    ),
    there(
        "the longer path waits, g 2",
        (4, 5),
        2,
        &[(1, 0, 1), (2, 1, 3), (3, 1, 2), (5, 2, 3)],
        &[&[0, 2, 3]],
    ),
    there(
        "the shorter path waits longer, g 2",
        (4, 6),
        2,
        &[(1, 0, 1), (2, 1, 3), (3, 1, 2), (5, 2, 3), (6, 1, 3)],
        &[&[0, 4]],
    ),
    there(
        "the longer path reaches it earlier, g 2",
        (4, 5),
        2,
        &[(1, 0, 2), (3, 0, 1), (3, 2, 1), (5, 1, 3)],
        &[&[1, 3]],
    ),
    there(
        "every slot, g 1",
        (3, 4),
        1,
        &EVERY_SLOT,
        &[&[0, 3], &[0, 5], &[0, 7], &[2, 5], &[2, 7], &[4, 7]],
    ),
    there(
        "every slot, g 2",
        (3, 4),
        2,
        &EVERY_SLOT,
        &[&[0, 5], &[0, 7], &[2, 7]],
    ),
    there("every slot, g 3", (3, 4), 3, &EVERY_SLOT, &[&[0, 7]]),
    there("every slot, g 4", (3, 4), 4, &EVERY_SLOT, &[]),
    TurnedPlan {
        label: "the source sends just after it hears, g 3",
        sizes: (3, 5),
        turnaround: 3,
        records: Records::OneWay(&[(1, 2, 0), (2, 0, 1), (5, 1, 2)]),
        there: &[&[1, 2]],
        back: &[&[0]],
    },
    there(
        "the source sends and hears in a slot, g 3",
        (3, 4),
        3,
        &[(1, 0, 1), (1, 1, 0), (4, 1, 2)],
        &[&[0, 2]],
    ),
    there(
        "back at the source and on, g 2",
        (3, 5),
        2,
        &[(1, 0, 1), (3, 1, 0), (4, 0, 2), (5, 0, 2)],
        &[&[2], &[3]],
    ),
    TurnedPlan {
        label: "a doubled row in odd slots, g 2",
        sizes: (4, 5),
        turnaround: 2,
        records: Records::Doubled(&[(1, 0, 1), (3, 1, 2), (5, 2, 3)]),
        there: &[&[0, 2, 4]],
        back: &[],
    },
    TurnedPlan {
        label: "there and back, g 4",
        sizes: (3, 5),
        turnaround: 4,
        records: Records::OneWay(&[(1, 0, 1), (1, 2, 1), (5, 1, 0), (5, 1, 2)]),
        there: &[&[0, 3]],
        back: &[&[1, 2]],
    },
    TurnedPlan {
        label: "a cycle in every slot, g 2",
        sizes: (3, 4),
        turnaround: 2,
        records: Records::OneWay(&[
            (1, 0, 1),
            (1, 1, 2),
            (1, 2, 0),
            (2, 0, 1),
            (2, 1, 2),
            (2, 2, 0),
            (3, 0, 1),
            (3, 1, 2),
            (3, 2, 0),
            (4, 0, 1),
            (4, 1, 2),
            (4, 2, 0),
        ]),
        there: &[&[0, 7], &[0, 10], &[3, 10]],
        back: &[&[2], &[5], &[8], &[11]],
    },
    TurnedPlan {
        label: "all meet in every slot, g 3",
        sizes: (3, 4),
        turnaround: 3,
        records: Records::Doubled(&[
            (1, 0, 1),
            (2, 0, 1),
            (3, 0, 1),
            (4, 0, 1),
            (1, 1, 2),
            (2, 1, 2),
            (3, 1, 2),
            (4, 1, 2),
        ]),
        there: &[&[0, 14]],
        back: &[&[3, 13]],
    },
];

/// A turnaround in its limits, mostly a small one.
pub fn drawn_turnaround(random: &mut Random) -> usize {
    match random.below(8) {
        0 => random.between(1, MOST_TURNAROUND),
        _ => random.between(1, 4),
    }
}

/// A plan of up to 5 stations, 9 slots and 18 records, with a turnaround drawn.
pub fn random_turned_plan(random: &mut Random) -> Owned {
    let turnaround = drawn_turnaround(random);
    let (stations, slots) = (random.between(2, 5), random.between(2, 9));
    let wanted = random.between(2, 18);
    let records = valid_records(random, stations, slots, wanted);
    Owned::new(stations, slots, &records).turning(turnaround)
}

/// All plans of records from 0 to 1 and from 1 to 2 in four slots.
pub fn two_links() -> Vec<LabelledPlan> {
    let plan = |(index, records): (usize, Vec<Record>)| {
        let label = format!("two links {index}");
        LabelledPlan::of_records(&label, (3, 4), &records)
    };
    subsets(&EVERY_SLOT).enumerate().map(plan).collect()
}

/// n 4: each station sends to the next in every slot.
fn row_in_every_slot(slots: u16) -> Vec<Record> {
    let of_slot = |slot: u16| (0..3).map(move |station| (slot, station, station + 1));
    (1..=slots).flat_map(of_slot).collect()
}

/// T and g: T below g, equal to it, one more, and enough for a third hop or one slot short of it.
const AROUND: [(u16, u16); 20] = [
    (1, 1),
    (1, 2),
    (1, 16),
    (2, 1),
    (2, 2),
    (2, 3),
    (2, 16),
    (3, 1),
    (3, 2),
    (3, 3),
    (3, 16),
    (4, 2),
    (5, 2),
    (5, 5),
    (6, 5),
    (15, 16),
    (16, 16),
    (17, 16),
    (32, 16),
    (33, 16),
];

/// Such rows with T around the turnaround.
pub fn rows_around() -> Vec<LabelledPlan> {
    let row = |(slots, turnaround): (u16, u16)| {
        let label = format!("row in every slot, T {slots}, g {turnaround}");
        let records = row_in_every_slot(slots);
        LabelledPlan::of_records(&label, (4, slots), &records).turning(turnaround)
    };
    AROUND.into_iter().map(row).collect()
}

/// Each station sends to the next, a turnaround later than it hears, up to slot 255.
pub fn spaced_row(turnaround: u16) -> Vec<Record> {
    let slots = (1..=255).step_by(turnaround.into());
    let record = |(station, slot): (usize, u16)| (slot, station as u16, station as u16 + 1);
    slots.enumerate().map(record).collect()
}

/// The seed of the drawn plans; each label names it.
const SEED: u64 = 18;

/// Drawn plans of up to 6 stations and 12 slots, each with a turnaround drawn.
pub fn drawn_plans(plans: usize) -> Vec<LabelledPlan> {
    let mut random = Random::new(SEED);
    let plan = |index: usize| {
        let turnaround = drawn_turnaround(&mut random) as u16;
        let (stations, slots) = (random.between(3, 6), random.between(2, 12));
        let wanted = random.between(6, 24);
        let records = valid_records(&mut random, stations, slots, wanted);
        let label = format!("drawn {index}, seed {SEED}, g {turnaround}");
        let plan = LabelledPlan::of_records(&label, (stations as u16, slots as u16), &records);
        plan.turning(turnaround)
    };
    (0..plans).map(plan).collect()
}
