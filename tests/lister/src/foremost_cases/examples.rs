//! Plan A, plans with one direction alone, plans without contacts, and rows of stations at the limits.

use crate::cases::{doubled, Record, PLAN_A};
use crate::one_way::ONE_WAY_PLANS;
use crate::pair_cases::{Case, LabelledPlan};
use crate::plans::pairs;

impl LabelledPlan {
    /// Foremost of every pair of two different stations.
    pub fn every_foremost(&self) -> Vec<Case> {
        let foremost = |(source, destination): (usize, usize)| {
            self.foremost(source as u16, destination as u16)
        };
        pairs(self.sizes.0.into()).map(foremost).collect()
    }
}

pub fn cases() -> Vec<Case> {
    let plan_a = |label: &str| LabelledPlan::of_records(label, (5, 4), &PLAN_A);
    let two = doubled(&[(1, 0, 1), (1, 1, 2)]);
    let ten = LabelledPlan::of_records("P10 two contacts in slot 1", (3, 1), &two);
    let longer = plan_a("plan A, longer");
    let mut cases = plan_a("plan A").every_foremost();
    cases.extend([
        longer.foremost(0, 3).longer([2, 0, 3]),
        longer.foremost(2, 1).longer([2, 0, 3]),
    ]);
    cases.extend(ten.every_foremost());
    for plan in ONE_WAY_PLANS {
        cases.extend(plan.labelled().every_foremost());
    }
    for n in 2..=3 {
        let label = format!("empty plan, n {n}, T 1");
        cases.extend(LabelledPlan::of_records(&label, (n, 1), &[]).every_foremost());
    }
    cases.extend(rows());
    cases.into_iter().map(|case| case.stating(0)).collect()
}

/// Each station meets the next in a slot of its own, and the first one the last in the slot after: the
/// earliest path has the most hops, the shortest one. Then the same with one direction, the numbers
/// rising and falling.
fn rows() -> Vec<Case> {
    let row = |stations: u16| {
        let mut records: Vec<Record> = (1..stations).map(|slot| (slot, slot - 1, slot)).collect();
        records.push((stations, 0, stations - 1));
        records
    };
    let on =
        |label: String, records: &[Record]| LabelledPlan::of_records(&label, (256, 255), records);
    let mut cases = Vec::new();
    for stations in [3, 64, 254, 255] {
        let label = format!("row of {stations} and a contact of its ends");
        let plan = on(label, &doubled(&row(stations)));
        cases.push(plan.foremost(0, stations - 1));
    }
    for stations in [3, 255] {
        let label = format!("one-way row of {stations} and a contact of its ends");
        cases.push(on(label, &row(stations)).foremost(0, stations - 1));
        let turned = |(slot, a, b): Record| (slot, stations - 1 - a, stations - 1 - b);
        let falling: Vec<Record> = row(stations).into_iter().map(turned).collect();
        let label = format!("falling row of {stations} and a contact of its ends");
        cases.push(on(label, &falling).foremost(stations - 1, 0));
    }
    cases
}
