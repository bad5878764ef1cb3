//! The completion table, and the shortest paths of a pair in lexicographic order.

use lister::plan::{Appearance, Contact, PlanInput, RECORD_BYTES};

use super::pass::{waiting_slots, NO_WALK};
use super::plan::{contact, contacts};

/// A pair of stations of an accepted plan, and its hops.
#[derive(Clone, Copy, Debug)]
pub struct Pair<'a> {
    pub input: PlanInput<'a>,
    pub source: usize,
    pub destination: usize,
    pub hops: usize,
}

/// Lowers an entry to one more than another, where that is less.
fn lower(table: &mut [u64], at: usize, from: usize) {
    if table[from] < table[at] {
        table[at] = table[from] + 1;
    }
}

/// Fills the completion table of a destination: one pass back over the slots and the records. What is
/// heard in a slot is sent on from the columns of the slots g before it and earlier, and from the start.
pub fn complete(table: &mut [u64], input: PlanInput, destination: usize) {
    let width = input.slots + 1;
    let table = &mut table[..input.stations * width];
    table.fill(NO_WALK);
    table[destination * width + input.slots] = 0;
    let mut records = contacts(input.bytes).rev().peekable();
    let wait = waiting_slots(input);
    for heard in (1..=input.slots + wait).rev() {
        let slot = heard.saturating_sub(wait);
        while let Some(contact) = records.next_if(|contact| contact.slot == heard) {
            let sender = contact.sender * width + slot;
            lower(table, sender, contact.hearer * width + heard);
        }
        if slot > 0 {
            for row in table.chunks_exact_mut(width) {
                row[slot - 1] = row[slot];
            }
        }
    }
}

/// Where positions lead from the source of a pair. No position is trusted.
fn end_of(way: &[u16], pair: Pair) -> Option<Appearance> {
    let start = Appearance::start(pair.source);
    way.iter().try_fold(start, |spot, position| {
        let at = usize::from(*position) * RECORD_BYTES;
        let record = pair.input.bytes.get(at..at + RECORD_BYTES)?;
        spot.step(pair.input.terms(), contact(record))
    })
}

/// The first position from a given one on that leads home with so many hops left behind it.
fn find(table: &[u64], pair: Pair, spot: Appearance, need: u64, from: usize) -> Option<usize> {
    let width = pair.input.slots + 1;
    let serves = |contact: Contact| {
        let next = spot.step(pair.input.terms(), contact);
        next.is_some_and(|next| table[next.station * width + next.slot] == need)
    };
    let later = contacts(pair.input.bytes.get(from * RECORD_BYTES..)?);
    let found = { later }.position(serves)?;
    Some(from + found)
}

/// The first position from a given one on that leads home behind the first k entries.
pub fn found(way: &[u16], table: &[u64], pair: Pair, k: usize, from: usize) -> Option<usize> {
    let need = (pair.hops - (k + 1)) as u64;
    let spot = end_of(&way[..k], pair)?;
    find(table, pair, spot, need, from)
}

/// Puts the first position from a given one on that leads home behind the first k entries. False
/// where there is none.
fn place(way: &mut [u16], table: &[u64], pair: Pair, k: usize, from: usize) -> bool {
    let found = found(way, table, pair, k, from);
    if let Some(position) = found {
        way[k] = position as u16;
    }
    found.is_some()
}

/// Writes the first shortest path of a pair that has one.
pub fn first_path(way: &mut [u16], table: &[u64], pair: Pair) {
    for k in 0..pair.hops {
        place(way, table, pair, k, 0);
    }
}

/// Whether a buffer begins with a shortest path of the pair.
pub fn offered(way: &[u16], pair: Pair) -> bool {
    let end = end_of(&way[..pair.hops], pair);
    end.is_some_and(|end| end.station == pair.destination)
}

/// Advances the first `leg` entries to the next ones that begin a shortest path. False where there
/// are none, and the buffer stays.
fn advance(way: &mut [u16], table: &[u64], pair: Pair, leg: usize) -> bool {
    let Some(last) = leg.checked_sub(1) else {
        return false;
    };
    let from = usize::from(way[last]) + 1;
    place(way, table, pair, last, from)
        || (advance(way, table, pair, last) && place(way, table, pair, last, 0))
}

/// Moves a buffer that begins with a shortest path on to the next one. False on the last.
pub fn next_path(way: &mut [u16], table: &[u64], pair: Pair) -> bool {
    advance(way, table, pair, pair.hops)
}
