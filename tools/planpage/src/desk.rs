//! The archive's operations on one plan, with memory of their own.

use joftaki::{
    busiest, drawn_loads, pair, struck_out, way, work_length, Ends, PlanInput, Way, ACCEPTED,
    DRAWN_BYTES, LAST, NONE, NO_WALK,
};

/// The positions of a walk.
pub type Walk = Vec<u16>;

/// What loads and drawn loads give for a station.
#[derive(Clone, Debug, PartialEq)]
pub struct Load {
    /// How many pairs have it inside.
    pub pairs: u64,
    /// Its load in units of 1 / 2^32.
    pub load: u64,
    /// The doubles of its record: the exact sum of shares is at least the low and, where there are pairs, below
    /// the high.
    pub low: f64,
    pub high: f64,
}

/// What pair gives.
#[derive(Clone, Debug, PartialEq, Eq)]
pub struct Pair {
    pub hops: u64,
    pub count: u64,
    pub through: Vec<u64>,
}

/// What struck out gives: the number of the call, how many pairs use the contact, and the changes.
#[derive(Clone, Debug, PartialEq, Eq)]
pub struct Struck {
    pub number: u32,
    pub pairs: u64,
    pub changes: Vec<i64>,
}

/// A plan and a work area.
pub struct Desk<'a> {
    input: PlanInput<'a>,
    work: Vec<u64>,
    way: Vec<u16>,
}

/// An accepted call's answer, or its number.
fn accepted<T>(number: u32, answer: T) -> Result<T, u32> {
    match number {
        ACCEPTED => Ok(answer),
        _ => Err(number),
    }
}

/// A double of a record, high byte first.
fn double(bytes: &[u8]) -> f64 {
    f64::from_be_bytes(bytes.try_into().expect("a double has 8 bytes"))
}

impl<'a> Desk<'a> {
    pub fn new(input: PlanInput<'a>) -> Desk<'a> {
        Desk {
            input,
            work: vec![0; work_length(input)],
            way: vec![0; input.slots],
        }
    }

    /// The loads of all stations.
    pub fn loads(&mut self) -> Result<Vec<Load>, u32> {
        let n = self.input.stations;
        let (mut pairs, mut loads) = (vec![0; n], vec![0; n]);
        let mut records = vec![0; DRAWN_BYTES * n];
        let number = drawn_loads(
            self.input,
            &mut pairs,
            &mut loads,
            &mut records,
            &mut self.work,
        );
        let records = records.chunks_exact(DRAWN_BYTES);
        let tables = pairs.into_iter().zip(loads).zip(records);
        let load = |((pairs, load), record): ((u64, u64), &[u8])| Load {
            pairs,
            load,
            low: double(&record[2..10]),
            high: double(&record[10..18]),
        };
        accepted(number, tables.map(load).collect())
    }

    /// The busiest station.
    pub fn busiest(&mut self) -> Result<usize, u32> {
        let mut station = 0;
        let number = busiest(self.input, &mut station, &mut self.work);
        accepted(number, station as usize)
    }

    /// Hops, count and through counts of a pair; none where it has no walk.
    pub fn pair(&mut self, ends: Ends) -> Result<Option<Pair>, u32> {
        let (mut hops, mut count) = (0, 0);
        let mut through = vec![0; self.input.stations];
        let work = &mut self.work;
        let number = pair(self.input, ends, &mut hops, &mut count, &mut through, work);
        let pair = Pair {
            hops,
            count,
            through,
        };
        accepted(number, (hops != NO_WALK).then_some(pair))
    }

    /// The first walks of a pair's complete list, at most so many.
    pub fn walks(&mut self, ends: Ends, most: usize) -> Result<Vec<Walk>, u32> {
        let mut walks = Vec::new();
        let mut next = Way::First;
        while walks.len() < most {
            let mut hops = 0;
            let (buffer, work) = (&mut self.way, &mut self.work);
            let number = way(next, self.input, ends, &mut hops, buffer, work);
            match number {
                ACCEPTED => walks.push(self.way[..hops as usize].to_vec()),
                NONE | LAST => break,
                _ => return Err(number),
            }
            next = Way::Next;
        }
        Ok(walks)
    }

    /// What the loss of the contact at a position does.
    pub fn struck(&mut self, position: usize) -> Struck {
        let (mut pairs, mut changes) = (0, vec![0; self.input.stations]);
        let work = &mut self.work;
        let number = struck_out(self.input, position, &mut pairs, &mut changes, work);
        Struck {
            number,
            pairs,
            changes,
        }
    }
}
