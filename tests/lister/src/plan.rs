//! Plans, their bytes, and operation 1, check.

use crate::answer::{Answer, PlanFault};
use crate::causes::{known_keeping, known_turnaround};

/// The largest n.
pub const MOST_STATIONS: usize = 256;
/// The largest T.
pub const MOST_SLOTS: usize = 255;
/// The largest number of records.
pub const MOST_CONTACTS: usize = 8192;
/// The smallest g: slots rise strictly, and nothing more is asked.
pub const LEAST_TURNAROUND: usize = 1;
/// The largest g.
pub const MOST_TURNAROUND: usize = 16;
/// The g of a call of check, row, take in or take out, which take none.
pub const NO_TURNAROUND: usize = 0;
/// The h of a case of row, take in or take out, which take none.
pub const NO_KEEPING: usize = 0;
/// The h of units that keep a reading until the plan ends, since no T is larger; also the largest h.
pub const KEPT: usize = 255;
/// The bytes of one record.
pub const RECORD_BYTES: usize = 6;

/// A contact (t, a, b): in slot t, a sends and b hears. The derived order is that of records, by slot,
/// a, b.
#[derive(Clone, Copy, Debug, PartialEq, Eq, PartialOrd, Ord)]
pub struct Contact {
    pub slot: usize,
    /// a
    pub sender: usize,
    /// b
    pub hearer: usize,
}

impl Contact {
    /// The station to which this contact leads from a given one: from its sender to its hearer, and
    /// from no other station.
    #[inline]
    pub fn leads_from(&self, station: usize) -> Option<usize> {
        (station == self.sender).then_some(self.hearer)
    }

    /// The 6 bytes of a record, each field high byte first.
    #[inline]
    pub fn from_record(record: &[u8]) -> Contact {
        let field = |at: usize| usize::from(u16::from_be_bytes([record[at], record[at + 1]]));
        Contact {
            slot: field(0),
            sender: field(2),
            hearer: field(4),
        }
    }
}

/// When units send on what they hear: from g slots after hearing it until they drop it h slots after.
#[derive(Clone, Copy, Debug, PartialEq, Eq)]
pub struct Terms {
    /// g
    pub turnaround: usize,
    /// h
    pub keeping: usize,
}

impl Terms {
    /// The rule of following: whether a contact in a slot may follow an appearance in another. The start,
    /// in slot 0, may be followed by any slot; what is heard in slot t goes out in the slots from t + g to
    /// t + h.
    #[inline]
    pub fn follows(self, reached: usize, slot: usize) -> bool {
        match reached {
            0 => slot > 0,
            _ => (reached + self.turnaround..=reached + self.keeping).contains(&slot),
        }
    }
}

/// An appearance: a station, and the slot in which it is reached.
#[derive(Clone, Copy, Debug, PartialEq, Eq, PartialOrd, Ord)]
pub struct Appearance {
    pub station: usize,
    pub slot: usize,
}

impl Appearance {
    /// The start: the source in slot 0.
    pub fn start(source: usize) -> Appearance {
        Appearance {
            station: source,
            slot: 0,
        }
    }

    /// The appearance that a contact brings after this one.
    #[inline]
    pub fn step(self, terms: Terms, contact: Contact) -> Option<Appearance> {
        if !terms.follows(self.slot, contact.slot) {
            return None;
        }
        let station = contact.leads_from(self.station)?;
        Some(Appearance {
            station,
            slot: contact.slot,
        })
    }
}

/// The source and the destination of a pair.
pub type Ends = (usize, usize);

/// A plan as a call names it: its bytes, n, T, g and h, all unchecked. Check, row, take in and take out look at
/// neither g nor h, and foremost not at h.
#[derive(Clone, Copy, Debug)]
pub struct PlanInput<'a> {
    pub bytes: &'a [u8],
    /// n
    pub stations: usize,
    /// T
    pub slots: usize,
    /// g
    pub turnaround: usize,
    /// h
    pub keeping: usize,
}

/// An accepted plan; a contact's index is its position.
#[derive(Clone, Debug, PartialEq, Eq)]
pub struct Plan {
    /// n
    pub stations: usize,
    /// T
    pub slots: usize,
    pub terms: Terms,
    pub contacts: Vec<Contact>,
}

impl Plan {
    /// Whether no reading is dropped before the plan ends: T <= h + 1. The first slot in which one is heard
    /// is 1, and the last in which one is sent is T.
    pub fn keeps_all(&self) -> bool {
        self.slots <= self.terms.keeping + 1
    }
}

/// Cause 1: n and T are inside their limits.
pub fn within_limits(stations: usize, slots: usize) -> Answer<()> {
    let stations_fit = (1..=MOST_STATIONS).contains(&stations);
    let slots_fit = (1..=MOST_SLOTS).contains(&slots);
    if stations_fit && slots_fit {
        Ok(())
    } else {
        Err(PlanFault::Limits.into())
    }
}

/// Cause 2: a plan has whole records, and not too many.
pub fn whole_records(bytes: &[u8], most: usize) -> Answer<()> {
    let records = bytes.len() / RECORD_BYTES;
    if records * RECORD_BYTES != bytes.len() || records > most {
        return Err(PlanFault::Length.into());
    }
    Ok(())
}

/// The contacts that bytes hold, in order.
#[inline]
pub fn contacts(bytes: &[u8]) -> impl DoubleEndedIterator<Item = Contact> + '_ {
    bytes.chunks_exact(RECORD_BYTES).map(Contact::from_record)
}

impl PlanInput<'_> {
    /// g and h.
    pub fn terms(&self) -> Terms {
        Terms {
            turnaround: self.turnaround,
            keeping: self.keeping,
        }
    }

    /// The same plan of units that keep a reading until the plan ends.
    pub fn kept(self) -> Self {
        let keeping = KEPT;
        PlanInput { keeping, ..self }
    }

    /// Causes 3, 4 and 5 of a record behind another.
    fn accepts(&self, contact: Contact, before: Option<Contact>) -> Answer<()> {
        if contact.slot == 0 || contact.slot > self.slots {
            return Err(PlanFault::Slot.into());
        }
        let known = contact.sender < self.stations && contact.hearer < self.stations;
        if contact.sender == contact.hearer || !known {
            return Err(PlanFault::Stations.into());
        }
        if before.is_some_and(|before| contact <= before) {
            return Err(PlanFault::Order.into());
        }
        Ok(())
    }
}

/// Operation 1: whether the plan is accepted, or the first of causes 1 to 5.
pub fn check(input: PlanInput) -> Answer<()> {
    within_limits(input.stations, input.slots)?;
    whole_records(input.bytes, MOST_CONTACTS)?;
    let mut before = None;
    for contact in contacts(input.bytes) {
        input.accepts(contact, before)?;
        before = Some(contact);
    }
    Ok(())
}

/// The plan that the bytes hold, or the first of causes 1 to 5, 12 and 14.
pub fn read(input: PlanInput) -> Answer<Plan> {
    check(input)?;
    known_turnaround(input.turnaround)?;
    known_keeping(input.terms())?;
    Ok(Plan {
        stations: input.stations,
        slots: input.slots,
        terms: input.terms(),
        contacts: contacts(input.bytes).collect(),
    })
}
