//! Calls of the library's functions.

use lister::operation::{Lent, Operation};
use lister::plan::PlanInput;
use lister::reach::ReachTables;
use lister::ways::Way;

use crate::call::Call;

/// The entries before and behind each lent part that nothing may write.
const GUARD: usize = 4;

/// A lent part between entries that nothing may write.
pub struct Guarded<N> {
    mark: N,
    all: Vec<N>,
}

impl<N: Copy + PartialEq> Guarded<N> {
    pub fn new(entries: &[N], mark: N) -> Guarded<N> {
        let guard = [mark; GUARD];
        Guarded {
            mark,
            all: [&guard, entries, &guard].concat(),
        }
    }

    fn length(&self) -> usize {
        self.all.len() - 2 * GUARD
    }

    /// The lent part, for a call.
    pub fn lent(&mut self) -> &mut [N] {
        let length = self.length();
        &mut self.all[GUARD..][..length]
    }

    /// The lent part.
    pub fn entries(&self) -> &[N] {
        &self.all[GUARD..][..self.length()]
    }

    /// Nothing was written before and behind the lent part.
    pub fn kept(&self) -> bool {
        let (front, rest) = self.all.split_at(GUARD);
        let behind = &rest[self.length()..];
        front.iter().chain(behind).all(|entry| *entry == self.mark)
    }
}

/// What the library answers and leaves.
#[derive(Clone, Debug)]
pub struct Seen {
    pub number: u32,
    pub lent: Lent,
    pub values: Vec<u64>,
    /// The plan, and all entries before and behind the lent parts, are as before.
    pub outside_kept: bool,
}

/// Makes a call on a copy of what it lends.
pub fn run(call: &Call) -> Seen {
    let narrow = call.lent.narrow.iter();
    let mut narrow: Vec<Guarded<u16>> = narrow.map(|table| Guarded::new(table, 0xA5C3)).collect();
    let wide = call.lent.wide.iter();
    let mut wide: Vec<Guarded<u64>> = wide
        .map(|table| Guarded::new(table, 0xA5C3_0F69_1E2D_B487))
        .collect();
    let sets = call.lent.sets.iter();
    let mut sets: Vec<Guarded<u8>> = sets.map(|set| Guarded::new(set, 1)).collect();
    let signed = call.lent.signed.iter();
    let mut signed: Vec<Guarded<i64>> = signed
        .map(|table| Guarded::new(table, -0x5A3C_F096_E1D2_4B78))
        .collect();
    let bytes = call.lent.bytes.iter();
    let mut bytes: Vec<Guarded<u8>> = bytes.map(|buffer| Guarded::new(buffer, 0x7D)).collect();
    let mut values = Guarded::new(&call.values, 0x5A3C_F096);
    let mut plan = Guarded::new(call.input.bytes, 0xA5);
    let input = PlanInput {
        bytes: plan.lent(),
        ..call.input
    };
    let mut list = Guarded::new(&call.lent.list, 0x5AC3);
    let tables = Tables {
        narrow: &mut narrow,
        wide: &mut wide,
        sets: &mut sets,
        signed: &mut signed,
        bytes: &mut bytes,
    };
    let number = answer(call, input, tables, list.lent(), values.lent());
    let outside_kept = plan.entries() == call.input.bytes
        && plan.kept()
        && values.kept()
        && narrow.iter().all(Guarded::kept)
        && wide.iter().all(Guarded::kept)
        && sets.iter().all(Guarded::kept)
        && signed.iter().all(Guarded::kept)
        && bytes.iter().all(Guarded::kept)
        && list.kept();
    Seen {
        number,
        lent: Lent {
            narrow: entries_of(&narrow),
            wide: entries_of(&wide),
            sets: entries_of(&sets),
            signed: entries_of(&signed),
            bytes: entries_of(&bytes),
            list: list.entries().to_vec(),
        },
        values: values.entries().to_vec(),
        outside_kept,
    }
}

/// The lent parts of tables.
fn entries_of<N: Copy + PartialEq>(tables: &[Guarded<N>]) -> Vec<Vec<N>> {
    let entries = tables.iter().map(|table| table.entries().to_vec());
    entries.collect()
}

/// The lent parts: 16-bit tables, 64-bit tables, sets, tables of 64 bits with a sign, and buffers of bytes.
struct Tables<'a> {
    narrow: &'a mut [Guarded<u16>],
    wide: &'a mut [Guarded<u64>],
    sets: &'a mut [Guarded<u8>],
    signed: &'a mut [Guarded<i64>],
    bytes: &'a mut [Guarded<u8>],
}

/// The number that the library answers.
fn answer(call: &Call, input: PlanInput, tables: Tables, list: &[u16], values: &mut [u64]) -> u32 {
    let Tables {
        narrow,
        wide,
        sets,
        signed,
        bytes,
    } = tables;
    let [s, z] = call.arguments;
    match (call.operation, narrow, wide, values) {
        (Operation::Check, [], [], []) => archive::check(input),
        (Operation::Reach, [hops, station_hops], [counts, station_counts], []) => {
            let tables = ReachTables {
                appearance_hops: hops.lent(),
                appearance_counts: counts.lent(),
                station_hops: station_hops.lent(),
                station_counts: station_counts.lent(),
            };
            archive::reach(input, s, tables)
        }
        (Operation::Row, [], [table], [offset, length]) => {
            archive::row(input, s, offset, length, table.lent())
        }
        (Operation::RowNumber, [], [table], []) => archive::row_number(input, s, table.lent()),
        (Operation::Pair, [], [through, work], [hops, count]) => {
            let (through, work) = (through.lent(), work.lent());
            archive::pair(input, (s, z), hops, count, through, work)
        }
        (Operation::Loads, [], [pairs, loads, work], []) => {
            archive::loads(input, pairs.lent(), loads.lent(), work.lent())
        }
        (Operation::Busiest, [], [work], [station]) => {
            archive::busiest(input, station, work.lent())
        }
        (Operation::FirstWay, [way], [work], [hops]) => {
            archive::way(Way::First, input, (s, z), hops, way.lent(), work.lent())
        }
        (Operation::NextWay, [way], [work], [hops]) => {
            archive::way(Way::Next, input, (s, z), hops, way.lent(), work.lent())
        }
        (Operation::ThroughSet, [], [work], [count]) => {
            archive::through_set(input, (s, z), count, sets[0].lent(), work.lent())
        }
        (Operation::Foremost, [], [through, work], [arrival, hops, count]) => {
            let values = [arrival, hops, count];
            archive::foremost(input, (s, z), values, through.lent(), work.lent())
        }
        (Operation::PartialLoads, [], [pairs, loads, work], []) => {
            let [k, _] = call.arguments;
            archive::partial_loads(input, k, pairs.lent(), loads.lent(), work.lent())
        }
        (Operation::Verdict, [], [work], [verdict]) => {
            let mut slot = Guarded::new(&[*verdict as u32], 0x5A3C_F096);
            let given = &mut slot.lent()[0];
            let number = archive::verdict(input, (s, z), given, list, work.lent());
            assert!(slot.kept(), "the library wrote beside the verdict");
            *verdict = slot.entries()[0].into();
            number
        }
        (Operation::TakeIn | Operation::TakeOut, [table], [], []) => {
            let taking = call.operation.taking(s).expect("a taking");
            archive::take(taking, input, table.lent())
        }
        (Operation::StruckOut, [], [work], [pairs]) => {
            let [position, _] = call.arguments;
            archive::struck_out(input, position, pairs, signed[0].lent(), work.lent())
        }
        (Operation::DrawnLoads, [], [pairs, loads, work], []) => {
            let (pairs, loads) = (pairs.lent(), loads.lent());
            archive::drawn_loads(input, pairs, loads, bytes[0].lent(), work.lent())
        }
        (operation, ..) => panic!("{operation:?} lends other tables"),
    }
}
