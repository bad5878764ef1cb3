//! Generated runs of take in and take out on one table, with what the bookkeeping says of each call; and tables
//! for single calls.

use crate::answer::number;
use crate::band::{records_by_slot, Band, Taking, BAND_SLOTS};
use crate::cases::{doubled, valid_records, Record};
use crate::plan::{contacts, MOST_SLOTS, MOST_STATIONS, RECORD_BYTES};
use crate::plans::{random_plan, Owned};
use crate::random::Random;

/// One call of a run, and what the bookkeeping says of it.
#[derive(Clone, Debug)]
pub struct RunCall {
    pub taking: Taking,
    pub plan: Owned,
    /// The lent entries: all of the run's table, or too few of them.
    pub length: usize,
    pub number: u8,
    /// The records in each slot over the plans that are in after the call.
    pub used: Vec<u64>,
    /// How many plans are in after the call, and how many different ones.
    pub plans: (usize, usize),
}

/// A run: the entries of its table, and its calls. The 255 named entries are 0 before the first call.
#[derive(Clone, Debug)]
pub struct Run {
    pub length: usize,
    pub calls: Vec<RunCall>,
}

/// A plan of a run: small, doubled, without records, or with records in any of 255 slots, the last among them.
fn run_plan(random: &mut Random) -> Owned {
    match random.below(6) {
        0 => {
            let (stations, wanted) = (random.between(2, 9), random.between(1, 12));
            let mut records = valid_records(random, stations, MOST_SLOTS, wanted);
            records.retain(|record| record.0 < MOST_SLOTS as u16);
            records.push((MOST_SLOTS as u16, 1, 0));
            Owned::new(stations, MOST_SLOTS, &records)
        }
        1 => {
            let one: [Record; 2] = [(1, 0, 1), (random.between(2, 9) as u16, 1, 2)];
            Owned::new(3, 9, &doubled(&one))
        }
        2 if random.below(3) == 0 => Owned::new(random.between(1, 256), 1, &[]),
        _ => random_plan(random),
    }
}

/// The plan with one of the causes 1 to 5.
fn spoiled(random: &mut Random, plan: &Owned) -> Owned {
    let mut plan = plan.clone();
    let last = plan.bytes.len().saturating_sub(RECORD_BYTES);
    let last = plan.bytes[last..].to_vec();
    match random.below(7) {
        0 => plan.stations = [0, MOST_STATIONS + 1][random.below(2)],
        1 => plan.slots = [0, MOST_SLOTS + 1][random.below(2)],
        2 if last.is_empty() => plan.bytes = vec![0; RECORD_BYTES],
        2 => plan.slots = usize::from(last[1]) - 1,
        3 if !last.is_empty() => plan.stations = 1,
        4 if !last.is_empty() => plan.bytes.extend(last),
        _ => plan.bytes.push(0),
    }
    plan
}

/// The plan with its own n and T, or with the largest.
fn resized(random: &mut Random, plan: &Owned) -> Owned {
    let mut plan = plan.clone();
    if random.below(4) == 0 {
        (plan.stations, plan.slots) = (MOST_STATIONS, MOST_SLOTS);
    }
    plan
}

/// A run of so many calls with c. Every plan taken out is in, but for calls that a number up to 8 refuses.
pub fn random_run(random: &mut Random, channels: u16, calls: usize) -> Run {
    let plans: Vec<Owned> = (0..8).map(|_| run_plan(random)).collect();
    let length = BAND_SLOTS + [0, 1, 45][random.below(3)];
    let mut band = Band::new(channels);
    let mut run = Run {
        length,
        calls: Vec::new(),
    };
    for _ in 0..calls {
        let plan = &plans[random.below(plans.len())];
        let is_in = |plan: &&Owned| band.plans().contains(&plan.bytes);
        let within: Vec<&Owned> = plans.iter().filter(is_in).collect();
        let mut lent = length;
        let (taking, plan) = match random.below(16) {
            0 => (Taking::In(channels), spoiled(random, plan)),
            1 => (Taking::Out, spoiled(random, plan)),
            kind @ (2 | 3) => {
                lent = [0, BAND_SLOTS - 1, random.below(BAND_SLOTS)][random.below(3)];
                let taking = [Taking::In(channels), Taking::Out][kind - 2];
                (taking, plan.clone())
            }
            4..=8 if !within.is_empty() => {
                let plan = within[random.below(within.len())];
                (Taking::Out, resized(random, plan))
            }
            _ => (Taking::In(channels), resized(random, plan)),
        };
        let answer = band.take(taking, plan.input(), lent);
        let mut different = band.plans().to_vec();
        different.sort();
        different.dedup();
        run.calls.push(RunCall {
            taking,
            plan,
            length: lent,
            number: number(&answer),
            used: band.used(),
            plans: (band.plans().len(), different.len()),
        });
    }
    run
}

/// A number from one to another: one of the two, near the first, or any.
fn within(random: &mut Random, low: u16, high: u16) -> u16 {
    match random.below(4) {
        0 => low,
        1 => high,
        2 => high.min(low.saturating_add(random.below(3) as u16)),
        _ => random.between(low.into(), high.into()) as u16,
    }
}

/// A table for a call: mostly one that the plan fits, or fits but for one entry, in a slot of the plan or any. The
/// entries behind the named ones are arbitrary.
pub fn drawn_table(random: &mut Random, taking: Taking, bytes: &[u8], length: usize) -> Vec<u16> {
    let mut table: Vec<u16> = (0..length).map(|_| random.number() as u16).collect();
    let kind = random.below(8);
    if kind == 0 || length == 0 {
        return table;
    }
    let records: Vec<u16> = records_by_slot(bytes)
        .iter()
        .map(|in_slot| *in_slot as u16)
        .collect();
    for (entry, records) in table.iter_mut().zip(&records) {
        *entry = match taking {
            Taking::In(channels) => within(random, 0, channels.saturating_sub(*records)),
            Taking::Out => within(random, *records, u16::MAX),
        };
    }
    if kind < 4 {
        let of_plan: Vec<usize> = contacts(bytes).map(|contact| contact.slot).collect();
        let any = random.between(1, BAND_SLOTS);
        let slot = match (of_plan.is_empty(), random.below(2)) {
            (false, 0) => of_plan[random.below(of_plan.len())],
            _ => any,
        };
        let mut entries = table.iter_mut().zip(&records);
        if let Some((entry, records)) = entries.nth(slot.saturating_sub(1)) {
            *entry = match taking {
                Taking::In(channels) => channels.saturating_sub(*records).saturating_add(1),
                Taking::Out => records.saturating_sub(1),
            };
        }
    }
    table
}
