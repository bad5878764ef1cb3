//! Pair, loads and busiest at n 256 and T 255, with few records and with 8,192; and sizes whose
//! stations do not divide evenly into blocks.

use super::{Case, LabelledPlan};
use crate::call_cases::Called;
use crate::cases::{doubled, valid_records, Record, PLAN_A};
use crate::plans::possible_records;
use crate::random::Random;
use crate::reach_cases::{every_slot, falling_row, rising_row, star, CORNERS};

pub fn cases() -> Vec<Case> {
    let mut cases = few_records();
    cases.extend(many_records());
    cases.extend(lengths());
    cases.extend(blocks());
    cases.into_iter().map(stated).collect()
}

/// The case, accepted unless stated otherwise.
fn stated(case: Case) -> Case {
    let number = case.stated.unwrap_or(0);
    case.stating(number)
}

/// A plan at the limits.
fn on(label: &str, records: &[Record]) -> LabelledPlan {
    LabelledPlan::of_records(&format!("n 256, T 255, {label}"), (256, 255), records)
}

fn few_records() -> Vec<Case> {
    let empty = on("empty plan", &[]);
    let corners = on("corners", &CORNERS);
    let plan_a = on("plan A", &PLAN_A);
    let row = on("row", &rising_row());
    let falling = on("falling row", &falling_row());
    let mut cases = vec![
        empty.pair(0, 255),
        empty.loads(),
        empty.busiest(),
        corners.loads(),
        corners.busiest(),
        plan_a.pair(0, 4),
        plan_a.pair(255, 0),
        plan_a.loads(),
        row.pair(0, 255),
        row.pair(100, 200),
        row.pair(255, 0),
        row.counted().busiest(),
        falling.pair(255, 0),
        falling.pair(200, 100),
        falling.pair(0, 255),
        falling.counted().loads(),
    ];
    for pair in [(0, 254), (254, 0), (1, 254), (254, 1), (255, 1)] {
        cases.push(corners.pair(pair.0, pair.1));
    }
    cases
}

/// 8,192 records of 64 stations in 127 slots, spread over the possible ones.
pub fn dense() -> Vec<Record> {
    let possible = possible_records(64, 127).into_iter();
    possible.step_by(62).take(8192).collect()
}

fn many_records() -> Vec<Case> {
    let star = on("8192 records, 0 meets all in turn", &star()).counted();
    let spread = on("8192 records in every slot", &every_slot());
    let dense = LabelledPlan::of_records("n 64, T 127, 8192 records", (64, 127), &dense());
    let dense = dense.counted();
    let cases = vec![star.busiest(), spread.pair(240, 239), dense.loads()];
    assert!(cases.iter().all(|case| case.bytes.len() == 6 * 8192));
    cases
}

/// The largest memory: one entry too short, and longer.
fn lengths() -> Vec<Case> {
    let plan = on("corners, one entry short", &CORNERS);
    let mut cases = Vec::new();
    for case in [plan.pair(0, 254), plan.loads(), plan.busiest()] {
        for table in case.operation.tables() {
            let mut case = case.clone().stating(8);
            case.label += &format!(", length {table}");
            case.lengths[table] -= 1;
            cases.push(case);
        }
    }
    let plan = on("corners, longer", &CORNERS).counted();
    for case in [plan.pair(0, 254), plan.loads(), plan.busiest()] {
        cases.push(case.longer([64, 63, 56]));
    }
    cases
}

/// Sizes at which 2T and 2T−1 are below n and do not divide it, or are just around n.
pub const BLOCKS: [(u16, u16); 11] = [
    (5, 1),
    (5, 2),
    (5, 3),
    (6, 3),
    (7, 3),
    (33, 8),
    (64, 31),
    (256, 1),
    (256, 3),
    (256, 127),
    (256, 128),
];

/// The seed of the drawn records; each label names it.
const SEED: u64 = 4;

/// Two plans of each size: one in which a pair has most stations interior, doubled for every other size,
/// and, where a path can have two hops, a drawn one.
fn blocks() -> Vec<Case> {
    let mut random = Random::new(SEED);
    let mut cases = Vec::new();
    for (index, (stations, slots)) in BLOCKS.into_iter().enumerate() {
        let on = |label: &str, records: &[Record]| {
            let label = format!("blocks n {stations}, T {slots}, {label}");
            let plan = LabelledPlan::of_records(&label, (stations, slots), records);
            counted_where_large(plan)
        };
        let (source, destination) = (stations / 2, stations / 2 + 1);
        let mut records = between(&mut random, (stations, slots), source, destination);
        if index % 2 == 0 {
            records = doubled(&records);
        }
        let between = on("between", &records);
        cases.extend([between.pair(source, destination), between.loads()]);
        if slots > 1 {
            let wanted = 3 * usize::from(stations) + 20;
            let records = valid_records(&mut random, stations.into(), slots.into(), wanted);
            let drawn = on(&format!("seed {SEED}"), &records);
            cases.extend([drawn.loads(), drawn.busiest()]);
        }
    }
    cases
}

/// The plan, with its walks counted where listing them takes long.
pub fn counted_where_large(plan: LabelledPlan) -> LabelledPlan {
    let (stations, slots) = plan.sizes;
    if stations == 256 && slots > 2 {
        return plan.counted();
    }
    plan
}

/// The source sends to the others in slot 1, and these to the destination in later slots: some in none,
/// some in two, the first and the last station in slot 2 at least.
fn between(
    random: &mut Random,
    (stations, slots): (u16, u16),
    source: u16,
    destination: u16,
) -> Vec<Record> {
    let mut records = Vec::new();
    let others = (0..stations).filter(|v| *v != source && *v != destination);
    for station in others {
        records.push((1, source, station));
        let is_outer = station == 0 || station + 1 == stations;
        for slot in 2..=slots.min(3) {
            if random.below(4) > 0 || (is_outer && slot == 2) {
                records.push((slot, station, destination));
            }
        }
    }
    records.sort_unstable();
    records
}
