//! A plan's first fault as a sentence: causes 1 to 5 of document 01, with document 02's C-16.

use crate::{record, Record, RECORD_BYTES};

/// The most stations, slots and records that are taken.
#[derive(Clone, Copy, Debug, PartialEq, Eq)]
pub struct Limits {
    pub stations: usize,
    pub slots: usize,
    pub records: usize,
}

/// The limits of the load programs.
pub const PROGRAM: Limits = Limits {
    stations: 32,
    slots: 63,
    records: 1024,
};

/// The limits of the operations.
pub const LIBRARY: Limits = Limits {
    stations: 256,
    slots: 255,
    records: 8192,
};

/// n and T.
#[derive(Clone, Copy, Debug, PartialEq, Eq)]
pub struct Sizes {
    /// n
    pub stations: usize,
    /// T
    pub slots: usize,
}

/// The larger station number of a record.
fn top_station([_, a, b]: &Record) -> u16 {
    *a.max(b)
}

/// n and T as the load programs form them: one more than the largest station number, and the last record's slot;
/// both 1 where there is no record.
pub fn sizes(records: &[Record]) -> Sizes {
    let top = records.iter().map(top_station).max();
    Sizes {
        stations: top.map_or(1, |station| usize::from(station) + 1),
        slots: records.last().map_or(1, |[slot, ..]| usize::from(*slot)),
    }
}

/// The words of documents 01 and 02 for a number that a plan may be refused with.
pub fn words(number: u32, limits: Limits) -> String {
    let words = match number {
        1 => "n or T outside its limits",
        2 => {
            let most = grouped(limits.records);
            return format!("plan not a multiple of 6 bytes, or over {most} records");
        }
        3 => "slot 0 or above T",
        4 => "a equals b, or either is \u{2265} n",
        5 => "record not above the one before it",
        9 => "an appearance or station has over 2^64\u{2212}1 least chains from a source worked on",
        _ => "a number that a plan is not refused with",
    };
    words.to_string()
}

/// A number below a million with a comma before its last three digits.
fn grouped(number: usize) -> String {
    match number {
        0..=999 => number.to_string(),
        _ => format!("{},{:03}", number / 1000, number % 1000),
    }
}

/// A plan's records, with what its faults are told by.
struct Plan {
    /// The bytes, and those behind the last whole record.
    length: usize,
    rest: usize,
    records: Vec<Record>,
    limits: Limits,
    sizes: Sizes,
    /// Whether n and T are formed from the records.
    formed: bool,
}

/// A number and what is wrong.
type Told = (u32, String);

impl Plan {
    fn new(bytes: &[u8], given: Option<Sizes>) -> Plan {
        let whole = bytes.chunks_exact(RECORD_BYTES);
        let rest = whole.remainder().len();
        let records: Vec<Record> = whole.map(record).collect();
        Plan {
            length: bytes.len(),
            rest,
            limits: given.map_or(PROGRAM, |_| LIBRARY),
            sizes: given.unwrap_or_else(|| sizes(&records)),
            formed: given.is_none(),
            records,
        }
    }

    /// The record at a position, in words.
    fn shown(&self, position: usize) -> String {
        let [slot, a, b] = self.records[position];
        let (place, all) = (position + 1, self.records.len());
        format!(
            "record {place} of {all} (position {position}: slot {slot}, station {a} sends, station {b} hears)"
        )
    }

    /// Cause 2.
    fn length_fault(&self) -> Option<Told> {
        let most = self.limits.records;
        let what = if self.rest > 0 {
            let (length, rest) = (self.length, self.rest);
            format!("{length} bytes are no multiple of {RECORD_BYTES}: bytes behind the last record: {rest}")
        } else if self.records.len() > most {
            format!("{} records, and at most {most}", self.records.len())
        } else {
            return None;
        };
        Some((2, what))
    }

    /// Where a formed n comes from, or a formed T.
    fn source_of(&self, position: Option<usize>) -> String {
        match position {
            Some(position) if self.formed => format!(", by {}", self.shown(position)),
            _ => String::new(),
        }
    }

    /// Cause 1.
    fn limits_fault(&self) -> Option<Told> {
        let (n, t) = (self.sizes.stations, self.sizes.slots);
        let (most_n, most_t) = (self.limits.stations, self.limits.slots);
        let what = if !(1..=most_n).contains(&n) {
            let largest = |record: &Record| usize::from(top_station(record)) + 1 == n;
            let by = self.source_of(self.records.iter().position(largest));
            format!("stations: {n}, and not 1 to {most_n}{by}")
        } else if !(1..=most_t).contains(&t) {
            let by = self.source_of(self.records.len().checked_sub(1));
            format!("slots: {t}, and not 1 to {most_t}{by}")
        } else {
            return None;
        };
        Some((1, what))
    }

    /// The slot's fault of the record at a position: cause 3.
    fn slot_fault(&self, position: usize) -> Option<Told> {
        let slot = usize::from(self.records[position][0]);
        let last = self.sizes.slots;
        let what = if slot == 0 {
            "its slot is 0, and slots are counted from 1".to_string()
        } else if slot > last && self.formed {
            format!("its slot is above {last}, the slot of the plan's last record")
        } else if slot > last {
            format!("its slot is above {last}, the number of slots")
        } else {
            return None;
        };
        Some((3, what))
    }

    /// The stations' fault: cause 4.
    fn stations_fault(&self, position: usize) -> Option<Told> {
        let [_, a, b] = self.records[position];
        let n = self.sizes.stations;
        let unknown = [a, b]
            .into_iter()
            .find(|station| usize::from(*station) >= n);
        let what = match unknown {
            Some(station) => format!("station {station} is not below {n}, the number of stations"),
            None if a == b => "the sender and the hearer are the same station".to_string(),
            None => return None,
        };
        Some((4, what))
    }

    /// The order's fault: cause 5.
    fn order_fault(&self, position: usize) -> Option<Told> {
        let before = position.checked_sub(1)?;
        let (last, this) = (self.records[before], self.records[position]);
        let what = if this == last {
            "it stands twice, as the record before it too".to_string()
        } else if this < last {
            let [slot, a, b] = last;
            format!("it belongs before the record in front of it (slot {slot}, station {a} sends, station {b} hears)")
        } else {
            return None;
        };
        Some((5, what))
    }

    /// Causes 3, 4 and 5 of the record at a position.
    fn record_fault(&self, position: usize) -> Option<Told> {
        let fault = self.slot_fault(position);
        let fault = fault.or_else(|| self.stations_fault(position));
        let (number, what) = fault.or_else(|| self.order_fault(position))?;
        Some((number, format!("{}: {what}", self.shown(position))))
    }

    /// The first fault: 2 and 1 where n and T are formed from the records, 1 and 2 where they are given; then the
    /// records in turn.
    fn first_fault(&self) -> Option<Told> {
        let fault = if self.formed {
            self.length_fault().or_else(|| self.limits_fault())
        } else {
            self.limits_fault().or_else(|| self.length_fault())
        };
        fault.or_else(|| (0..self.records.len()).find_map(|position| self.record_fault(position)))
    }
}

/// A plan's first fault as a sentence with its number, or a sentence that there is none. Where no n and T are given
/// they are formed from the records, and the limits are those of the load programs.
pub fn explain(bytes: &[u8], given: Option<Sizes>) -> String {
    let plan = Plan::new(bytes, given);
    match plan.first_fault() {
        Some((number, what)) => {
            format!(
                "refused {number}: {what} [{}]\n",
                words(number, plan.limits)
            )
        }
        None => {
            let Sizes { stations, slots } = plan.sizes;
            let records = plan.records.len();
            format!("no fault: stations {stations}, slots {slots}, contacts {records}\n")
        }
    }
}
