//! The plan of an input, or the number with which it is refused and the record at fault.

use joftaki::{check, PlanInput, ACCEPTED};
use planconv::{records, sizes, Names, Record, Sizes, PROGRAM, RECORD_BYTES};

/// h: a reading is kept until the plan ends.
const KEPT: usize = 255;

/// The units whose plan is drawn.
#[derive(Clone, Copy, Debug, PartialEq, Eq)]
pub enum Units {
    /// They turn round in two slots.
    Now,
    /// They turn round in one slot.
    Older,
}

impl Units {
    /// g
    pub fn turnaround(self) -> usize {
        match self {
            Units::Now => 2,
            Units::Older => 1,
        }
    }
}

/// A plan that check accepts, within the limits of the load program.
#[derive(Clone, Debug)]
pub struct Plan {
    pub bytes: Vec<u8>,
    pub records: Vec<Record>,
    pub sizes: Sizes,
    pub units: Units,
    pub names: Names,
}

/// A plan that is refused.
#[derive(Clone, Debug, PartialEq, Eq)]
pub struct Refusal {
    /// The papers' number.
    pub number: u32,
    /// The bytes of the plan.
    pub length: usize,
    /// n and T, where they are formed.
    pub sizes: Option<Sizes>,
    /// For 3, 4 and 5 the record at fault.
    pub record: Option<Fault>,
}

/// The record at fault.
#[derive(Clone, Debug, PartialEq, Eq)]
pub struct Fault {
    pub position: usize,
    pub record: Record,
    pub before: Option<Record>,
}

/// A plan's bytes as a call names them.
pub fn call(bytes: &[u8], sizes: Sizes, units: Units) -> PlanInput<'_> {
    PlanInput {
        bytes,
        stations: sizes.stations,
        slots: sizes.slots,
        turnaround: units.turnaround(),
        keeping: KEPT,
    }
}

/// The position of the first record such that the plan up to it is refused, by check on the plan's beginnings.
fn position_at_fault(bytes: &[u8], sizes: Sizes, units: Units) -> Option<usize> {
    let ends = (1..=bytes.len() / RECORD_BYTES).map(|records| RECORD_BYTES * records);
    let refused = |end: usize| check(call(&bytes[..end], sizes, units)) != ACCEPTED;
    ends.map(refused).position(|refused| refused)
}

impl Plan {
    /// The plan of an input. As for the load program, 2 comes first, and then 1 for its limits.
    pub fn new(bytes: Vec<u8>, names: Names, units: Units) -> Result<Plan, Refusal> {
        let refusal = |number, sizes, record| Refusal {
            number,
            length: bytes.len(),
            sizes,
            record,
        };
        let records: Vec<Record> = match records(&bytes) {
            Ok(records) => records.collect(),
            Err(_) => return Err(refusal(2, None, None)),
        };
        if records.len() > PROGRAM.records {
            return Err(refusal(2, None, None));
        }
        let sizes = sizes(&records);
        if sizes.stations > PROGRAM.stations || sizes.slots > PROGRAM.slots {
            return Err(refusal(1, Some(sizes), None));
        }
        let number = check(call(&bytes, sizes, units));
        if number != ACCEPTED {
            let position = position_at_fault(&bytes, sizes, units);
            let position = position.filter(|_| (3..=5).contains(&number));
            let fault = position.map(|position| Fault {
                position,
                record: records[position],
                before: position.checked_sub(1).map(|before| records[before]),
            });
            return Err(refusal(number, Some(sizes), fault));
        }
        Ok(Plan {
            bytes,
            records,
            sizes,
            units,
            names,
        })
    }

    /// The plan as a call names it.
    pub fn input(&self) -> PlanInput<'_> {
        call(&self.bytes, self.sizes, self.units)
    }

    /// The refusal of the plan with a number that comes after check.
    pub fn refused(&self, number: u32) -> Refusal {
        Refusal {
            number,
            length: self.bytes.len(),
            sizes: Some(self.sizes),
            record: None,
        }
    }
}
