//! Records, operation 1 (check), and the causes 12 and 6 to 8 of a call.
//!
//! Reading and checking records is a part of what is timed, so it is written here and not taken from the
//! lister.

use lister::answer::{Answer, PlanFault};
use lister::causes::{known_pair, known_turnaround, long_enough};
use lister::lent::scratch_length;
use lister::plan::{within_limits, Contact, Ends, PlanInput, MOST_CONTACTS, RECORD_BYTES};

/// The named entries of the work area.
pub fn work_length(input: PlanInput) -> usize {
    scratch_length(input.stations, input.slots)
}

/// The contact that 6 bytes hold, each field high byte first: slot, sender, hearer.
pub fn contact(record: &[u8]) -> Contact {
    let field = |at: usize| usize::from(u16::from_be_bytes([record[at], record[at + 1]]));
    Contact {
        slot: field(0),
        sender: field(2),
        hearer: field(4),
    }
}

/// The contacts of a plan, in order.
pub fn contacts(plan: &[u8]) -> impl DoubleEndedIterator<Item = Contact> + '_ {
    plan.chunks_exact(RECORD_BYTES).map(contact)
}

/// Operation 1: whether the plan is accepted.
pub fn check(input: PlanInput) -> Answer<()> {
    within_limits(input.stations, input.slots)?;
    let size = input.bytes.len();
    if !size.is_multiple_of(RECORD_BYTES) || size / RECORD_BYTES > MOST_CONTACTS {
        return Err(PlanFault::Length.into());
    }
    let mut before: Option<Contact> = None;
    for contact in contacts(input.bytes) {
        if contact.slot == 0 || contact.slot > input.slots {
            return Err(PlanFault::Slot.into());
        }
        if contact.sender == contact.hearer
            || contact.sender >= input.stations
            || contact.hearer >= input.stations
        {
            return Err(PlanFault::Stations.into());
        }
        if before.is_some_and(|before| contact <= before) {
            return Err(PlanFault::Order.into());
        }
        before = Some(contact);
    }
    Ok(())
}

/// Causes 12 and 6 to 8 of a call that names a pair and lends a buffer and a work area.
pub fn check_pair(
    input: PlanInput,
    ends: Ends,
    (lent, named): (usize, usize),
    work: usize,
) -> Answer<()> {
    known_turnaround(input.turnaround)?;
    known_pair(input.stations, ends)?;
    long_enough(lent, named)?;
    long_enough(work, work_length(input))
}
