//! What a load program prints, for any input and any turnaround g. Document 02's C-20 has two programs: g is 2 in
//! one and 1 in the other.

use crate::answer::{Answer, PlanFault};
use crate::means::{Means, COUNTED, LISTED};
use crate::numbers::Appearances;
use crate::plan::{contacts, read, whole_records, Plan, PlanInput, KEPT};
use crate::show::{loads_text, text_of};

/// The load programs' largest n.
pub const MOST_STATIONS: usize = 32;
/// The load programs' largest T.
pub const MOST_SLOTS: usize = 63;
/// The load programs' largest number of records.
pub const MOST_CONTACTS: usize = 1024;

/// The most walks, from all sources together, that are listed.
const MOST_LISTED: u128 = 10_000;

/// The plan that an input names, with a turnaround, of units that keep every reading, or the first of causes 2 and 1. n is one more than the
/// largest station number, T the slot of the last record; both are 1 for an empty input.
fn named_plan(turnaround: usize, bytes: &[u8]) -> Answer<PlanInput<'_>> {
    whole_records(bytes, MOST_CONTACTS)?;
    let largest = contacts(bytes).map(|contact| contact.sender.max(contact.hearer));
    let stations = largest.max().map_or(1, |station| station + 1);
    let slots = contacts(bytes).last().map_or(1, |contact| contact.slot);
    if stations > MOST_STATIONS || !(1..=MOST_SLOTS).contains(&slots) {
        return Err(PlanFault::Limits.into());
    }
    Ok(PlanInput {
        bytes,
        stations,
        slots,
        turnaround,
        keeping: KEPT,
    })
}

/// How many walks there are from all sources; 2^128−1 where there are more.
pub fn number_of_walks(plan: &Plan) -> u128 {
    let appearances = Appearances::new(plan);
    let from_each = (0..plan.stations).map(|source| appearances.number_of_walks(source));
    from_each.fold(0, u128::saturating_add)
}

/// Whether the plain lister answers for a plan; for others the numbers of walks do.
pub fn is_listed(plan: &Plan) -> bool {
    number_of_walks(plan) <= MOST_LISTED
}

/// The means by which the loads of a plan are found.
pub fn means_for(plan: &Plan) -> Means {
    if is_listed(plan) {
        LISTED
    } else {
        COUNTED
    }
}

/// The plan of an input that a load program with this turnaround accepts, or the first of causes 2, 1, 3 to 5 and
/// 12.
pub fn accepted_plan(turnaround: usize, bytes: &[u8]) -> Answer<Plan> {
    read(named_plan(turnaround, bytes)?)
}

/// The whole output for an input, with loads by the given means.
pub fn load_text_by(means: Means, turnaround: usize, bytes: &[u8]) -> String {
    text_of(named_plan(turnaround, bytes).and_then(|input| loads_text(means, input)))
}

/// The whole output for an input.
pub fn load_text(turnaround: usize, bytes: &[u8]) -> String {
    match accepted_plan(turnaround, bytes) {
        Ok(plan) => load_text_by(means_for(&plan), turnaround, bytes),
        Err(refusal) => text_of(Err(refusal)),
    }
}
