//! The operations as calls on lists of tables: what each lends, names and answers.

use crate::answer::{beside, number, Answer};
use crate::band::{Taking, BAND_SLOTS};
use crate::drawing::drawn_length;
use crate::foremost::ForemostValues;
use crate::lent::{appearances, scratch_length};
use crate::means::Means;
use crate::pair::PairValues;
use crate::plan::{check, PlanInput};
use crate::reach::ReachTables;
use crate::row::{row, row_number};
use crate::verdicts::verdict_beside;
use crate::ways::{hops_beside, Found, Way};

/// The operations, row's sister and document 02's among them.
#[derive(Clone, Copy, Debug, PartialEq, Eq, PartialOrd, Ord)]
pub enum Operation {
    Check,
    Reach,
    Row,
    RowNumber,
    Pair,
    Loads,
    Busiest,
    FirstWay,
    NextWay,
    ThroughSet,
    Foremost,
    PartialLoads,
    Verdict,
    TakeIn,
    TakeOut,
    StruckOut,
    DrawnLoads,
}

use Operation::*;

/// All operations.
pub const OPERATIONS: [Operation; 17] = [
    Check,
    Reach,
    Row,
    RowNumber,
    Pair,
    Loads,
    Busiest,
    FirstWay,
    NextWay,
    ThroughSet,
    Foremost,
    PartialLoads,
    Verdict,
    TakeIn,
    TakeOut,
    StruckOut,
    DrawnLoads,
];

/// The C interface's number of first way's answer "none".
pub const NONE: u32 = 100;
/// The C interface's number of next way's answer "last".
pub const LAST: u32 = 101;

impl Operation {
    /// The causes of refusal that the operation knows, in order.
    pub fn causes(self) -> &'static [u32] {
        match self {
            Check => &[1, 2, 3, 4, 5],
            Reach => &[1, 2, 3, 4, 5, 12, 14, 6, 8, 9],
            Row | RowNumber => &[1, 6, 8],
            Pair | FirstWay | Verdict => &[1, 2, 3, 4, 5, 12, 14, 6, 7, 8, 9],
            Foremost => &[1, 2, 3, 4, 5, 12, 6, 7, 8, 9],
            Loads | Busiest | DrawnLoads => &[1, 2, 3, 4, 5, 12, 14, 8, 9],
            NextWay => &[1, 2, 3, 4, 5, 12, 14, 6, 7, 8, 9, 10],
            ThroughSet => &[1, 2, 3, 4, 5, 12, 14, 6, 7, 8, 11, 9],
            PartialLoads => &[1, 2, 3, 4, 5, 12, 14, 13, 8, 9],
            TakeIn => &[1, 2, 3, 4, 5, 8, 15],
            TakeOut => &[1, 2, 3, 4, 5, 8, 16],
            StruckOut => &[1, 2, 3, 4, 5, 12, 14, 8, 17, 9],
        }
    }

    /// The numbers that the operation can answer.
    pub fn numbers(self) -> Vec<u32> {
        let further = match self {
            FirstWay => Some(NONE),
            NextWay => Some(LAST),
            _ => None,
        };
        let refused = self.causes().iter().copied();
        [0].into_iter().chain(refused).chain(further).collect()
    }

    /// How many numbers a call has behind n, T, g and h: the stations that it names, partial loads' k, take in's c, or
    /// struck out's position.
    pub fn arguments(self) -> usize {
        match self {
            Check | Loads | Busiest | TakeOut | DrawnLoads => 0,
            Reach | Row | RowNumber | PartialLoads | TakeIn | StruckOut => 1,
            Pair | FirstWay | NextWay | ThroughSet | Foremost | Verdict => 2,
        }
    }

    /// The named lengths of its 16-bit tables.
    pub fn narrow(self, stations: usize, slots: usize) -> Vec<usize> {
        match self {
            Reach => vec![appearances(stations, slots), stations],
            FirstWay | NextWay => vec![slots],
            TakeIn | TakeOut => vec![BAND_SLOTS],
            _ => Vec::new(),
        }
    }

    /// The named lengths of its 64-bit tables; the scratch is the last.
    pub fn wide(self, stations: usize, slots: usize) -> Vec<usize> {
        let table = appearances(stations, slots);
        let scratch = scratch_length(stations, slots);
        match self {
            Check | TakeIn | TakeOut => Vec::new(),
            Reach => vec![table, stations],
            Row | RowNumber => vec![table],
            Pair | Foremost => vec![stations, scratch],
            Loads | PartialLoads | DrawnLoads => vec![stations, stations, scratch],
            Busiest | FirstWay | NextWay | ThroughSet | Verdict | StruckOut => vec![scratch],
        }
    }

    /// The named lengths of its 64-bit tables of entries with a sign.
    pub fn signed(self, stations: usize) -> Vec<usize> {
        match self {
            StruckOut => vec![stations],
            _ => Vec::new(),
        }
    }

    /// The named lengths of its buffers of bytes.
    pub fn bytes(self, stations: usize) -> Vec<usize> {
        match self {
            DrawnLoads => vec![drawn_length(stations)],
            _ => Vec::new(),
        }
    }

    /// The named lengths of its sets of stations.
    pub fn sets(self, stations: usize) -> Vec<usize> {
        match self {
            ThroughSet => vec![stations],
            _ => Vec::new(),
        }
    }

    /// Whether it takes a list of positions, which may have any length.
    pub fn takes_list(self) -> bool {
        self == Verdict
    }

    /// Whether a 16-bit table is the way buffer, which only a walk given is written to.
    pub fn takes_way_buffer(self) -> bool {
        matches!(self, FirstWay | NextWay)
    }

    /// Whether its 16-bit table is a band's, which it reads.
    pub fn takes_band(self) -> bool {
        matches!(self, TakeIn | TakeOut)
    }

    /// Which taking it is of a plan shared in a band, with c where it takes one.
    pub fn taking(self, channels: usize) -> Option<Taking> {
        match self {
            TakeIn => Some(Taking::In(channels.try_into().expect("c has 16 bits"))),
            TakeOut => Some(Taking::Out),
            _ => None,
        }
    }

    /// The names of the values beside the number.
    pub fn values(self) -> &'static [&'static str] {
        match self {
            Check | Reach | RowNumber | Loads | PartialLoads | TakeIn | TakeOut | DrawnLoads => &[],
            Row => &["offset", "length"],
            Pair => &["hops", "count"],
            Busiest => &["station"],
            FirstWay | NextWay => &["hops"],
            ThroughSet => &["count"],
            Foremost => &["slot", "hops", "count"],
            Verdict => &["verdict"],
            StruckOut => &["pairs"],
        }
    }
}

/// What a call lends: tables by the width of their entries, bytes, sets, and a list.
#[derive(Clone, Debug, PartialEq, Eq)]
pub struct Lent {
    pub narrow: Vec<Vec<u16>>,
    pub wide: Vec<Vec<u64>>,
    /// The tables of 64-bit entries with a sign.
    pub signed: Vec<Vec<i64>>,
    /// The buffers of bytes, which are only written.
    pub bytes: Vec<Vec<u8>>,
    /// The sets of stations, which are only read.
    pub sets: Vec<Vec<u8>>,
    /// The list of positions, which is only read; empty where the operation takes none.
    pub list: Vec<u16>,
}

/// The number of a call, and the values beside it.
#[derive(Clone, Debug, PartialEq, Eq)]
pub struct Answered {
    pub number: u32,
    pub values: Vec<u64>,
}

impl Answered {
    /// The number of an answer, with the values.
    fn new<V>(answer: &Answer<V>, values: &[u64]) -> Answered {
        Answered {
            number: number(answer).into(),
            values: values.to_vec(),
        }
    }
}

/// The number of an answer of first way or next way.
pub fn way_number(answer: &Answer<Found>) -> u32 {
    match answer {
        Ok(Found::NoWalk) => NONE,
        Ok(Found::Last) => LAST,
        _ => number(answer).into(),
    }
}

/// The hops beside the number; 0 beside "none" and "last".
pub fn way_hops(answer: &Answer<Found>) -> u64 {
    hops_beside(answer).unwrap_or(0).into()
}

impl Means {
    /// Makes a call on lent tables. The arguments are the one station, source and destination, k, c, or the position;
    /// further ones are not read.
    pub fn call(
        self,
        operation: Operation,
        input: PlanInput,
        arguments: [usize; 2],
        lent: &mut Lent,
    ) -> Answered {
        let [station, destination] = arguments;
        let ends = (station, destination);
        match (operation, &mut lent.narrow[..], &mut lent.wide[..]) {
            (Check, [], []) => Answered::new(&check(input), &[]),
            (Reach, [appearance_hops, station_hops], [appearance_counts, station_counts]) => {
                let tables = ReachTables {
                    appearance_hops,
                    appearance_counts,
                    station_hops,
                    station_counts,
                };
                Answered::new(&self.reach(input, station, tables), &[])
            }
            (Row | RowNumber, [], [table]) => {
                let number = row_number(input.stations, input.slots, station, table);
                let start = table.as_ptr();
                let part = row(input.stations, input.slots, station, table);
                let offset = (part.as_ptr() as usize - start as usize) / size_of::<u64>();
                let values = [offset, part.len()].map(|value| value as u64);
                Answered {
                    number: number.into(),
                    values: values[..operation.values().len()].to_vec(),
                }
            }
            (Pair, [], [through, scratch]) => {
                let answer = self.pair(input, ends, through, scratch);
                let PairValues { hops, count } = beside(&answer);
                Answered::new(&answer, &[hops.into(), count])
            }
            (Loads, [], [pairs, loads, scratch]) => {
                Answered::new(&self.loads(input, pairs, loads, scratch), &[])
            }
            (Busiest, [], [scratch]) => {
                let answer = self.busiest(input, scratch);
                Answered::new(&answer, &[beside(&answer) as u64])
            }
            (FirstWay | NextWay, [buffer], [scratch]) => {
                let way = match operation {
                    FirstWay => Way::First,
                    _ => Way::Next,
                };
                let answer = self.way(way, input, ends, buffer, scratch);
                Answered {
                    number: way_number(&answer),
                    values: vec![way_hops(&answer)],
                }
            }
            (ThroughSet, [], [scratch]) => {
                let answer = self.through_set(input, ends, &lent.sets[0], scratch);
                Answered::new(&answer, &[beside(&answer)])
            }
            (Foremost, [], [through, scratch]) => {
                let answer = self.foremost(input, ends, through, scratch);
                let ForemostValues { slot, hops, count } = beside(&answer);
                Answered::new(&answer, &[slot.into(), hops.into(), count])
            }
            (PartialLoads, [], [pairs, loads, scratch]) => {
                let [sources, _] = arguments;
                Answered::new(
                    &self.partial_loads(input, sources, pairs, loads, scratch),
                    &[],
                )
            }
            (Verdict, [], [scratch]) => {
                let answer = self.verdict(input, ends, &lent.list, scratch);
                Answered::new(&answer, &[verdict_beside(&answer).into()])
            }
            (TakeIn | TakeOut, [table], []) => {
                let taking = operation.taking(station).expect("a taking");
                Answered::new(&taking.take(input, table), &[])
            }
            (StruckOut, [], [scratch]) => {
                let [position, _] = arguments;
                let answer = self.struck_out(input, position, &mut lent.signed[0], scratch);
                Answered::new(&answer, &[beside(&answer)])
            }
            (DrawnLoads, [], [pairs, loads, scratch]) => {
                let records = &mut lent.bytes[0];
                Answered::new(
                    &self.drawn_loads(input, pairs, loads, records, scratch),
                    &[],
                )
            }
            (operation, _, _) => panic!("{operation:?} lends other tables"),
        }
    }
}
