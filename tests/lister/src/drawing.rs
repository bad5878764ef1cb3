//! Document 02's loads for the drawing program (C-24): a record for each station, and reading a record back.
//!
//! The doubles are f64 here; `drawing_bits` makes and reads the same bits by whole numbers alone.

use std::fmt;

use crate::answer::Answer;
use crate::causes::long_enough;
use crate::lent::{clear, scratch_length};
use crate::means::Means;
use crate::plan::{read, PlanInput, MOST_STATIONS};

/// The bytes of a record: a station in 16 bits, a low and a high double, high byte first in all three.
pub const DRAWN_BYTES: usize = 18;
/// The load and the pairs of a record are below this.
pub const FIGURE_LIMIT: u64 = 1 << 49;
/// A load of 1, in doubles.
const WHOLE: f64 = 4_294_967_296.0;

/// The bytes of so many stations' records.
pub fn drawn_length(stations: usize) -> usize {
    DRAWN_BYTES * stations
}

/// What a record says.
#[derive(Clone, Copy, Debug, PartialEq, Eq)]
pub struct Figures {
    pub station: u16,
    pub load: u64,
    pub pairs: u64,
}

impl Figures {
    /// Whether a station can have them.
    pub fn are_possible(self) -> bool {
        usize::from(self.station) < MOST_STATIONS
            && self.load < FIGURE_LIMIT
            && self.pairs < FIGURE_LIMIT
            && (self.pairs > 0 || self.load == 0)
    }

    /// The low and the high: load ÷ 2^32 and (load + pairs) ÷ 2^32. A station without pairs has two zeros.
    fn doubles(self) -> [f64; 2] {
        let Figures { load, pairs, .. } = self;
        match pairs {
            0 => [0.0; 2],
            _ => [load, load + pairs].map(|sum| sum as f64 / WHOLE),
        }
    }

    /// The record of possible figures.
    pub fn record(self) -> [u8; DRAWN_BYTES] {
        let [low, high] = self.doubles().map(f64::to_be_bytes);
        let mut record = [0; DRAWN_BYTES];
        record[..2].copy_from_slice(&self.station.to_be_bytes());
        record[2..10].copy_from_slice(&low);
        record[10..].copy_from_slice(&high);
        record
    }

    /// The figures that bytes are the record of; none where the bytes are foreign.
    pub fn read(bytes: &[u8]) -> Option<Figures> {
        let bytes: &[u8; DRAWN_BYTES] = bytes.try_into().ok()?;
        let double = |from: usize| f64::from_be_bytes(std::array::from_fn(|at| bytes[from + at]));
        let (low, high) = (whole(double(2))?, whole(double(10))?);
        let figures = Figures {
            station: u16::from_be_bytes([bytes[0], bytes[1]]),
            load: low,
            pairs: high.checked_sub(low)?,
        };
        figures.are_possible().then_some(figures)
    }
}

impl fmt::Display for Figures {
    /// Station, load and pairs, a space between two.
    fn fmt(&self, to: &mut fmt::Formatter) -> fmt::Result {
        write!(to, "{} {} {}", self.station, self.load, self.pairs)
    }
}

/// The whole number below 2^50 that a double is, times 2^-32; none where there is none. Minus zero is none.
fn whole(double: f64) -> Option<u64> {
    let known = double.is_sign_positive() && double.is_finite();
    let scaled = double * WHOLE;
    let fits = known && scaled.fract() == 0.0 && scaled < (2 * FIGURE_LIMIT) as f64;
    fits.then_some(scaled as u64)
}

impl Means {
    /// Drawn loads: the two tables of loads, and a record for each station in the bytes.
    pub fn drawn_loads(
        self,
        input: PlanInput,
        pairs: &mut [u64],
        loads: &mut [u64],
        records: &mut [u8],
        scratch: &mut [u64],
    ) -> Answer<()> {
        let plan = read(input)?;
        let (stations, named) = (plan.stations, scratch_length(plan.stations, plan.slots));
        long_enough(records.len(), drawn_length(stations))?;
        let tables = [
            (&mut *pairs, stations),
            (&mut *loads, stations),
            (&mut *scratch, named),
        ];
        clear(&mut { tables })?;
        let records = &mut records[..drawn_length(stations)];
        records.fill(0);
        self.loads(input, pairs, loads, scratch)?;
        for (station, record) in records.chunks_exact_mut(DRAWN_BYTES).enumerate() {
            let figures = Figures {
                station: station as u16,
                load: loads[station],
                pairs: pairs[station],
            };
            record.copy_from_slice(&figures.record());
        }
        Ok(())
    }
}
