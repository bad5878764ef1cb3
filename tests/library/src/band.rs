//! Plans that share a band: take in and take out with every number against every other, at the edges, and in runs
//! on one table that are held to the lister's bookkeeping.

use lister::band::{Taking, BAND_SLOTS};
use lister::band_runs::{drawn_table, random_run, Run, RunCall};
use lister::cases::{doubled, first_records, plan_bytes, Record, PLAN_A};
use lister::means::LISTED;
use lister::operation::{Lent, Operation};
use lister::plan::PlanInput;
use lister::plans::{all_plans, Owned};
use lister::random::Random;
use lister::reach_cases::bytes_with_cause;

use crate::call::Call;
use crate::compare::{Comparison, Difference};
use crate::lend;
use crate::plans;

/// c: 0, 1, small, any, or the largest.
pub fn channels(random: &mut Random) -> usize {
    match random.below(8) {
        0 => 0,
        1 => 1,
        2 => usize::from(u16::MAX),
        3 => random.below(1 << 16),
        _ => random.below(40),
    }
}

/// Writes a table near what fits to a call that takes one.
pub fn draw(random: &mut Random, call: &mut Call) {
    let [channels, _] = call.arguments;
    if let Some(taking) = call.operation.taking(channels) {
        let table = &mut call.lent.narrow[0];
        *table = drawn_table(random, taking, call.input.bytes, table.len());
    }
}

/// A call on a table.
fn call<'a>(taking: Taking, input: PlanInput<'a>, table: &[u16]) -> Call<'a> {
    let (operation, channels) = match taking {
        Taking::In(channels) => (Operation::TakeIn, channels),
        Taking::Out => (Operation::TakeOut, 0),
    };
    Call {
        operation,
        input,
        arguments: [channels.into(), 0],
        lent: Lent {
            narrow: vec![table.to_vec()],
            wide: Vec::new(),
            signed: Vec::new(),
            bytes: Vec::new(),
            sets: Vec::new(),
            list: Vec::new(),
        },
        values: Vec::new(),
    }
}

/// Compares all of them; the seed is of the tables and of the first run.
pub fn compare(comparison: &mut Comparison, seed: u64) -> Result<(), Difference> {
    let random = &mut Random::new(seed);
    every_two_causes(comparison)?;
    every_entry(comparison)?;
    every_length(comparison, random)?;
    every_small_entry(comparison)?;
    edges(comparison)?;
    generated(comparison, random)?;
    for run in 0..RUNS {
        let seed = seed.wrapping_add(run);
        run_of(comparison, &mut Random::new(seed), CALLS)?;
    }
    full_band(comparison)
}

/// The runs, and the calls of each.
const RUNS: u64 = 12;
const CALLS: usize = 300;

/// A table of one value but for the entry of a slot, with marks behind the named entries.
fn table(value: u16, slot: usize, entry: u16) -> Vec<u16> {
    let mut table = vec![value; BAND_SLOTS + 4];
    table[slot - 1] = entry;
    table[BAND_SLOTS..].copy_from_slice(&[0, 65535, 1, 777]);
    table
}

/// Compares a call, whose number is stated by hand too.
fn stated(
    comparison: &mut Comparison,
    taking: Taking,
    owned: &Owned,
    table: &[u16],
    number: u32,
) -> Result<(), Difference> {
    let call = call(taking, owned.input(), table);
    let seen = comparison.compare(&call, LISTED)?;
    match seen.number == number {
        true => Ok(()),
        false => Err(format!(
            "{call}stated: {number}\nlibrary: {}\n",
            seen.number
        )),
    }
}

/// Every set of causes of which one is of the plan, or none: 8 by a table of 254 entries, 15 and 16 by two entries.
fn every_two_causes(comparison: &mut Comparison) -> Result<(), Difference> {
    for cause in 0..=5 {
        let mut owned = Owned::new(5, 4, &PLAN_A);
        match cause {
            0 => {}
            1 => owned.slots = 256,
            _ => owned.bytes = bytes_with_cause(cause),
        }
        for taking in [Taking::In(9), Taking::Out] {
            let own = match taking {
                Taking::In(_) => 15,
                Taking::Out => 16,
            };
            for (length, fits) in [(259, true), (254, true), (259, false), (254, false)] {
                let mut entries = table(5, 1, 5);
                if !fits {
                    entries[..2].copy_from_slice(&[0, 65535]);
                }
                let number = match (cause, length, fits) {
                    (1.., ..) => cause.into(),
                    (_, 254, _) => 8,
                    (_, _, false) => own,
                    _ => 0,
                };
                stated(comparison, taking, &owned, &entries[..length], number)?;
            }
        }
    }
    Ok(())
}

/// Each of the 255 entries just as it fits plan A and one off, with T = 4 and 255.
fn every_entry(comparison: &mut Comparison) -> Result<(), Difference> {
    for slots in [4, 255] {
        let owned = Owned::new(5, slots, &PLAN_A);
        for slot in 1..=BAND_SLOTS {
            let records = [4, 4, 2, 2].get(slot - 1).copied().unwrap_or(0);
            for channels in [20, 65534] {
                let taking = Taking::In(channels);
                let most = channels - records;
                stated(comparison, taking, &owned, &table(7, slot, most), 0)?;
                stated(comparison, taking, &owned, &table(7, slot, most + 1), 15)?;
            }
            let out = table(65535, slot, records);
            stated(comparison, Taking::Out, &owned, &out, 0)?;
            if records > 0 {
                let out = table(65535, slot, records - 1);
                stated(comparison, Taking::Out, &owned, &out, 16)?;
            }
        }
    }
    Ok(())
}

/// Every length up to 300.
fn every_length(comparison: &mut Comparison, random: &mut Random) -> Result<(), Difference> {
    for slots in [4, 255] {
        let owned = Owned::new(5, slots, &PLAN_A);
        for length in 0..=300 {
            for taking in [Taking::In(9), Taking::Out] {
                let number = if length < BAND_SLOTS { 8 } else { 0 };
                let mut entries = lend::narrow(random, length);
                let named = length.min(BAND_SLOTS);
                entries[..named].fill(5);
                stated(comparison, taking, &owned, &entries, number)?;
            }
        }
    }
    Ok(())
}

/// All plans of 2 stations and 2 slots with all c up to 3 and all entries of 0 to 3 in their slots.
fn every_small_entry(comparison: &mut Comparison) -> Result<(), Difference> {
    for owned in all_plans(2, 2) {
        for first in 0..=3 {
            for second in 0..=3 {
                let mut entries = table(0, 1, first);
                entries[1] = second;
                for taking in (0..=3).map(Taking::In).chain([Taking::Out]) {
                    comparison.compare(&call(taking, owned.input(), &entries), LISTED)?;
                }
            }
        }
    }
    Ok(())
}

/// Entries up to 65,535: plans of up to 8,192 records in one slot, the first or the last; no carry is lost.
fn edges(comparison: &mut Comparison) -> Result<(), Difference> {
    for (slot, records) in [(1, 1), (255, 2), (1, 8191), (1, 8192), (255, 8192)] {
        let in_slot = first_records(records.into());
        let in_slot = in_slot.iter().map(|(_, a, b)| (slot, *a, *b));
        let in_slot: Vec<Record> = in_slot.collect();
        let owned = Owned::new(256, slot.into(), &in_slot);
        let most = u16::MAX - records;
        for (entry, channels, number) in [
            (0, records - 1, 15),
            (0, records, 0),
            (most, 65535, 0),
            (most, 65534, 15),
            (most + 1, 65535, 15),
            (most + 1, 0, 15),
            (65535, 65535, 15),
            (65535, records - 1, 15),
            (65535, records, 15),
        ] {
            let entries = table(0, slot.into(), entry);
            stated(comparison, Taking::In(channels), &owned, &entries, number)?;
        }
        for (entry, number) in [(0, 16), (records - 1, 16), (records, 0), (65535, 0)] {
            let entries = table(0, slot.into(), entry);
            stated(comparison, Taking::Out, &owned, &entries, number)?;
        }
    }
    Ok(())
}

/// Plans of every kind, valid and damaged, on tables and lengths drawn.
fn generated(comparison: &mut Comparison, random: &mut Random) -> Result<(), Difference> {
    for _ in 0..400 {
        let owned = match random.below(40) {
            0 => plans::full(random),
            1..=9 => plans::sparse(random),
            _ => plans::small(random),
        };
        let owned = match random.below(5) {
            0 => plans::damaged(random, owned),
            1 => plans::other_stations(random, owned),
            2 => plans::resized(random, owned),
            _ => owned,
        };
        for operation in [Operation::TakeIn, Operation::TakeOut] {
            let (input, arguments) = (owned.input(), [channels(random), 0]);
            let call = lend::call(random, operation, input, arguments, lend::Lengths::Any);
            comparison.compare(&call, LISTED)?;
        }
    }
    Ok(())
}

/// A line for each call of a run: its number, the plan's records and sizes, and the entries lent.
fn run_text(calls: &[RunCall]) -> String {
    let line = |call: &RunCall| {
        let (taking, plan, length) = (call.taking, &call.plan, call.length);
        let (n, t, bytes) = (plan.stations, plan.slots, plan.bytes.len());
        let number = call.number;
        format!("{taking:?} n {n} T {t}, {bytes} bytes, {length} entries: {number}\n")
    };
    calls.iter().map(line).collect()
}

/// Makes the calls of a run on one table: after each the number is the bookkeeping's, each named entry the number of
/// records in its slot over the plans that are in, and the marks behind are as before.
fn follow(comparison: &mut Comparison, run: &Run) -> Result<(), Difference> {
    let mut entries = vec![0; BAND_SLOTS];
    entries.resize(run.length, 777);
    for (at, step) in run.calls.iter().enumerate() {
        let told = |text: String| format!("{text}run so far:\n{}", run_text(&run.calls[..=at]));
        let made = call(step.taking, step.plan.input(), &entries[..step.length]);
        let seen = comparison.compare(&made, LISTED).map_err(told)?;
        entries[..step.length].copy_from_slice(&seen.lent.narrow[0]);
        let (named, behind) = entries.split_at(BAND_SLOTS);
        let named: Vec<u64> = named.iter().copied().map(u64::from).collect();
        let kept = behind.iter().all(|mark| *mark == 777);
        if (seen.number, &named) != (step.number.into(), &step.used) || !kept {
            let (number, used) = (step.number, &step.used);
            let bookkeeping = format!("bookkeeping: {number}, {used:?}");
            let library = format!("library: {}, {entries:?}", seen.number);
            return Err(told(format!("{made}{bookkeeping}\n{library}\n")));
        }
        let (plans, different) = step.plans;
        comparison.in_run(seen.number, plans > different);
    }
    Ok(())
}

/// A run of so many calls with a small c.
pub fn run_of(
    comparison: &mut Comparison,
    random: &mut Random,
    calls: usize,
) -> Result<(), Difference> {
    let channels = random.between(0, 16) as u16;
    follow(comparison, &random_run(random, channels, calls))
}

/// The largest c: seven plans of 8,192 records in one slot fit, an eighth does not, and one of 8,191 does; out again in
/// another order, the table is as before.
fn full_band(comparison: &mut Comparison) -> Result<(), Difference> {
    let most = first_records(8192);
    let (all, fewer) = (plan_bytes(&most), plan_bytes(&most[..8191]));
    let one = plan_bytes(&doubled(&[(1, 0, 1)])[..1]);
    let taking = Taking::In(u16::MAX);
    let mut steps = vec![(taking, &all, 0); 7];
    steps.extend([
        (taking, &all, 15),
        (taking, &fewer, 0),
        (taking, &one, 15),
        (Taking::Out, &all, 0),
        (taking, &all, 0),
        (taking, &one, 15),
        (Taking::Out, &fewer, 0),
        (taking, &one, 0),
    ]);
    steps.extend([(Taking::Out, &all, 0); 7]);
    steps.extend([(Taking::Out, &all, 16), (Taking::Out, &one, 0)]);
    let mut entries = vec![0; BAND_SLOTS];
    for (taking, bytes, number) in steps {
        let owned = Owned {
            bytes: bytes.clone(),
            ..Owned::new(256, 1, &[])
        };
        stated(comparison, taking, &owned, &entries, number)?;
        let made = call(taking, owned.input(), &entries);
        entries = comparison.compare(&made, LISTED)?.lent.narrow.remove(0);
    }
    match entries.iter().all(|entry| *entry == 0) {
        true => Ok(()),
        false => Err(format!("all plans are out, and the table is {entries:?}\n")),
    }
}
