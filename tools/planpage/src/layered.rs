//! The layered plan of a station v: its walks that end in the upper layer are the plan's walks in which v sends.
//!
//! Station u of the lower layer is u, of the upper layer u + n. What v sends is heard in the upper layer. In each
//! slot first all of its records stand, with the hearer in the upper layer where v is the sender, and then all of
//! them with both stations in the upper layer. Records rise as in the plan.

use joftaki::Ends;
use planconv::{Record, Sizes};

use crate::desk::{Desk, Walk};
use crate::plan::{call, Units};

/// The layered plan's bytes, and for each of its positions the plan's.
#[derive(Clone, Debug, PartialEq, Eq)]
pub struct Layered {
    pub bytes: Vec<u8>,
    pub sizes: Sizes,
    pub down: Vec<u16>,
}

/// The layered plan of a station.
pub fn layered(records: &[Record], sizes: Sizes, station: usize) -> Layered {
    let n = sizes.stations as u16;
    let mut layered: Vec<(Record, u16)> = Vec::new();
    let mut from = 0;
    for slot in records.chunk_by(|one, other| one[0] == other[0]) {
        let positions = from..from + slot.len() as u16;
        from = positions.end;
        let lower = slot.iter().map(|[slot, a, b]| {
            let up = if usize::from(*a) == station { n } else { 0 };
            [*slot, *a, *b + up]
        });
        let upper = slot.iter().map(|[slot, a, b]| [*slot, *a + n, *b + n]);
        layered.extend(lower.zip(positions.clone()));
        layered.extend(upper.zip(positions));
    }
    let fields = layered.iter().flat_map(|(record, _)| record);
    Layered {
        bytes: fields.flat_map(|field| field.to_be_bytes()).collect(),
        sizes: Sizes {
            stations: 2 * sizes.stations,
            slots: sizes.slots,
        },
        down: layered.iter().map(|(_, position)| *position).collect(),
    }
}

impl Layered {
    /// The first of the plan's shortest walks of a pair that have the station inside, in the complete list's order.
    /// Some walk of the pair has it inside; where none has, longer walks are given.
    pub fn walks(&self, ends: Ends, units: Units, most: usize) -> Result<Vec<Walk>, u32> {
        let (source, destination) = ends;
        let mut desk = Desk::new(call(&self.bytes, self.sizes, units));
        let above = self.sizes.stations / 2 + destination;
        let walks = desk.walks((source, above), most)?;
        let down = |position: &u16| self.down[usize::from(*position)];
        Ok(walks
            .iter()
            .map(|walk| walk.iter().map(down).collect())
            .collect())
    }
}
