//! Generated calls and traces, a round a seed.

use lister::cursor::{Cursor, Step};
use lister::lent::appearances;
use lister::means::{Means, COUNTED, COUNT_LIMIT, LISTED};
use lister::operation::{way_hops, way_number, Operation, OPERATIONS};
use lister::plan::{read, MOST_SLOTS, MOST_STATIONS, RECORD_BYTES};
use lister::plans::{pairs, Owned};
use lister::random::Random;
use lister::traces::random_trace;
use lister::ways::Way;

use crate::band;
use crate::call::Call;
use crate::compare::{Comparison, Difference};
use crate::lend::{self, Lengths};
use crate::lists;
use crate::partial::{arguments, every_number};
use crate::plans;
use crate::struck::every_position;

/// One round: a plan with g and h, calls of every operation on it, and traces; in some rounds a run on a band.
pub fn compare(comparison: &mut Comparison, seed: u64) -> Result<(), Difference> {
    let random = &mut Random::new(seed);
    if random.below(16) == 0 {
        band::run_of(comparison, random, 100)?;
    }
    match random.below(64) {
        0 => {
            let owned = plans::full(random);
            let owned = plans::with_terms(random, owned);
            some_calls(comparison, random, &owned, COUNTED, 1)
        }
        1..=4 => {
            let owned = plans::large(random);
            some_calls(comparison, random, &owned, COUNTED, 3)
        }
        5 | 6 => {
            let owned = plans::sparse(random);
            let owned = changed(random, owned);
            some_calls(comparison, random, &owned, COUNTED, 2)
        }
        _ => {
            let owned = plans::small(random);
            let owned = changed(random, owned);
            small_plan(comparison, random, &owned)
        }
    }
}

/// The plan with g and h drawn, some outside of their limits; some plans damaged or with other stations or sizes.
fn changed(random: &mut Random, owned: Owned) -> Owned {
    let drawn = plans::with_terms(random, owned);
    let owned = match random.below(12) {
        0..=2 => plans::damaged(random, drawn),
        3 => plans::other_stations(random, drawn),
        4 => plans::resized(random, drawn),
        _ => drawn,
    };
    let owned = match random.below(12) {
        0 => owned.turning(plans::wrong_turnaround(random)),
        _ => owned,
    };
    match random.below(12) {
        0 => {
            let keeping = plans::wrong_keeping(random, owned.turnaround);
            owned.keeping_for(keeping)
        }
        _ => owned,
    }
}

/// The operations whose calls have so many numbers behind g and h.
fn taking(arguments: usize) -> impl Iterator<Item = Operation> {
    let operations = OPERATIONS.into_iter();
    operations.filter(move |operation| operation.arguments() == arguments)
}

/// A small plan: every pair, with the verdict on what its listing gives, every number of sources and every position if
/// the plan is accepted, and traces.
fn small_plan(
    comparison: &mut Comparison,
    random: &mut Random,
    owned: &Owned,
) -> Result<(), Difference> {
    let fits = owned.stations <= MOST_STATIONS && owned.slots <= MOST_SLOTS;
    if fits && appearances(owned.stations, owned.slots) > 2000 {
        return some_calls(comparison, random, owned, COUNTED, 2);
    }
    some_calls(comparison, random, owned, LISTED, 2)?;
    if read(owned.input()).is_err() || !(2..=6).contains(&owned.stations) {
        return Ok(());
    }
    for (source, destination) in pairs(owned.stations) {
        for operation in taking(2) {
            let stations = [source, destination];
            one_call(comparison, random, owned, operation, stations, LISTED)?;
        }
        let listed = (LISTED, MOST_LISTED);
        lists::listing(comparison, random, owned, [source, destination], listed)?;
    }
    for source in 0..owned.stations {
        for operation in taking(1) {
            one_call(comparison, random, owned, operation, [source, 0], LISTED)?;
        }
    }
    every_number(comparison, random, owned)?;
    every_position(comparison, random, owned)?;
    trace(comparison, random, owned)?;
    trace(comparison, random, owned)
}

/// The most paths of a pair that are asked for one by one.
const MOST_LISTED: usize = 8;

/// A station that a call names, mostly of the plan, often the first or the last.
fn station(random: &mut Random, stations: usize) -> usize {
    let known = random.below(stations.clamp(1, MOST_STATIONS));
    match random.below(32) {
        0 => stations,
        1 => plans::far(random, known),
        2..=9 => 0,
        10..=13 => stations.saturating_sub(1),
        _ => known,
    }
}

/// Loads, partial loads, busiest, struck out and drawn loads are rarer on plans with more than so many records for all
/// pairs together.
const EVERY_PAIR: usize = 1_000_000;

/// Whether loads, partial loads, busiest, struck out or drawn loads is drawn for a plan: the more work it is, the rarer.
pub fn draw_loads(random: &mut Random, owned: &Owned) -> bool {
    let records = owned.bytes.len() / RECORD_BYTES;
    let work = owned.stations.min(MOST_STATIONS).pow(2) * records;
    random.below(1 + work / EVERY_PAIR) == 0
}

/// Each operation so many times, with stations, a number of sources or a position drawn; check, loads, partial loads,
/// busiest, struck out and drawn loads once at most.
pub fn some_calls(
    comparison: &mut Comparison,
    random: &mut Random,
    owned: &Owned,
    means: Means,
    times: usize,
) -> Result<(), Difference> {
    for operation in OPERATIONS {
        let times = match operation {
            Operation::Check => 1,
            Operation::Loads
            | Operation::PartialLoads
            | Operation::Busiest
            | Operation::StruckOut
            | Operation::DrawnLoads => draw_loads(random, owned).into(),
            _ => times,
        };
        for _ in 0..times {
            let stations = [0; 2].map(|_| station(random, owned.stations));
            let arguments = arguments(random, operation, owned.input(), stations);
            one_call(comparison, random, owned, operation, arguments, means)?;
        }
    }
    Ok(())
}

/// One call on lengths and contents drawn; next way is mostly offered a path, and the verdict is mostly on a
/// list near the complete one.
fn one_call(
    comparison: &mut Comparison,
    random: &mut Random,
    owned: &Owned,
    operation: Operation,
    arguments: [usize; 2],
    means: Means,
) -> Result<(), Difference> {
    let mut call = lend::call(random, operation, owned.input(), arguments, Lengths::Any);
    match operation {
        Operation::NextWay => offer(random, &mut call, means),
        Operation::Verdict => lists::draw(random, &mut call, means),
        _ => {}
    }
    comparison.compare(&call, means)?;
    Ok(())
}

/// Writes a path of the pair to the way buffer, if there is one; sometimes with an entry changed.
fn offer(random: &mut Random, call: &mut Call, means: Means) {
    let mut hops = 0;
    call.operation = Operation::FirstWay;
    for _ in 0..random.between(1, 4) {
        let (given, lent) = call.expected(means);
        if given.number == 0 {
            call.lent.narrow = lent.narrow;
            hops = given.values[0] as usize;
        }
        call.operation = Operation::NextWay;
    }
    if hops > 0 && random.below(3) == 0 {
        let records = call.input.bytes.len() / RECORD_BYTES;
        call.lent.narrow[0][random.below(hops)] = random.below(records + 1) as u16;
    }
}

/// A line for each step.
fn trace_text(steps: &[Step]) -> String {
    let line = |step: &Step| match step {
        Step::Write(entry, value) => format!("write {value} to entry {entry}\n"),
        Step::Call(way, call) => {
            let input = call.input;
            let (n, t, g, h) = (input.stations, input.slots, input.turnaround, input.keeping);
            let sizes = format!("n {n} T {t} g {g} h {h}");
            let stations = call.ends();
            let lengths = [input.bytes.len(), call.buffer_length, call.scratch_length];
            format!("{way:?} {sizes}, stations {stations:?}, plan, buffer, scratch {lengths:?}\n")
        }
    };
    steps.iter().map(line).collect()
}

/// A trace on a pair of a small accepted plan, whose answers and buffers are also the cursor's.
fn trace(
    comparison: &mut Comparison,
    random: &mut Random,
    owned: &Owned,
) -> Result<(), Difference> {
    let source = random.below(owned.stations);
    let destination = (source + random.between(1, owned.stations - 1)) % owned.stations;
    let case = random_trace(random, owned, (source, destination));
    let steps = case.trace();
    let mut buffer = case.contents.clone();
    let mut cursor = Cursor::start(COUNT_LIMIT, case.list.clone(), &buffer);
    for (at, step) in steps.iter().enumerate() {
        let (way, call) = match step {
            Step::Write(entry, value) => {
                buffer[*entry] = *value;
                cursor.write(*entry, *value);
                continue;
            }
            Step::Call(way, call) => (*way, call),
        };
        let (buffer_length, scratch_length) = (call.buffer_length, call.scratch_length);
        let (narrow, wide) = (vec![buffer_length], vec![scratch_length]);
        let lengths = [narrow, wide, vec![], vec![], vec![]];
        let operation = match way {
            Way::First => Operation::FirstWay,
            Way::Next => Operation::NextWay,
        };
        let mut lent = lend::of_lengths(random, &lengths, call.input.stations);
        lent.narrow[0].copy_from_slice(&buffer[..call.buffer_length]);
        let made = Call {
            operation,
            input: call.input,
            arguments: call.ends().into(),
            lent,
            values: lend::wide(random, operation.values().len()),
        };
        let told = |text: String| format!("{text}trace so far:\n{}", trace_text(&steps[..=at]));
        let seen = comparison.compare(&made, LISTED).map_err(told)?;
        buffer[..call.buffer_length].copy_from_slice(&seen.lent.narrow[0]);
        let answer = cursor.call(way, call);
        let expected = (way_number(&answer), way_hops(&answer), cursor.buffer());
        let answered = (seen.number, seen.values[0], buffer.as_slice());
        if expected != answered {
            let text = format!("{made}cursor: {expected:?}\nlibrary: {answered:?}\n");
            return Err(told(text));
        }
    }
    Ok(())
}
