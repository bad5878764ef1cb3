//! Reading a record back: every exponent, bits around the limits, every station and length, bytes near records and any bits, and
//! the records that drawn loads leaves.

use lister::drawing::{Figures, DRAWN_BYTES, FIGURE_LIMIT};
use lister::drawing_bits::share_bits;
use lister::drawing_samples::{
    around_limits, drawn_bytes, drawn_figures, every_exponent, record_of_bits, records_with, EDGES,
};
use lister::random::Random;
use lister::record_cases;

use crate::compare::{Comparison, Difference};
use crate::native::{Guarded, Seen};
use crate::stale::Terms;

/// The C interface's number of bytes that no station could have written.
const FOREIGN: u32 = 102;

/// What the slots hold before a call; no record has such figures.
const MARKS: [u64; 3] = [
    0xA5C3_0F69_1E2D_B487,
    0x5A3C_F096_E1D2_4B78,
    0xC30F_691E_2DB4_87A5,
];

/// The readings so far, and the records of drawn loads among them.
#[derive(Clone, Debug, Default)]
pub struct Readings {
    /// Foreign bytes, and records.
    pub bytes: [u64; 2],
    /// Records that drawn loads wrote: of stations without pairs, with pairs and no load, and with a load.
    pub written: [u64; 3],
}

impl Readings {
    /// Whether one of the kinds never came.
    pub fn lack_a_kind(&self) -> bool {
        let mut times = self.bytes.iter().chain(&self.written);
        times.any(|times| *times == 0)
    }

    /// Reads bytes and compares the number, the slots and what stands around them and the bytes with the lister.
    fn read(&mut self, bytes: &[u8]) -> Result<Option<Figures>, Difference> {
        let mut lent = Guarded::new(bytes, 0xA5);
        let mut slots = Guarded::new(&MARKS, 0x5A3C_F096);
        let [station, load, pairs] = slots.lent() else {
            unreachable!("there are three slots");
        };
        let number = archive::read_record(lent.lent(), [station, load, pairs]);
        let expected = Figures::read(bytes);
        let asked = match expected {
            Some(figures) => (0, [figures.station.into(), figures.load, figures.pairs]),
            None => (FOREIGN, MARKS),
        };
        let outside_kept = lent.entries() == bytes && lent.kept() && slots.kept();
        if (number, slots.entries()) != (asked.0, &asked.1) || !outside_kept {
            let given = (number, slots.entries());
            let kept = format!("the rest is as before: {outside_kept}");
            return Err(format!(
                "bytes {bytes:02x?}\nlister: {asked:x?}\nlibrary: {given:x?}\n{kept}\n"
            ));
        }
        self.bytes[usize::from(expected.is_some())] += 1;
        Ok(expected)
    }

    /// Reads the record of each station after an accepted call of drawn loads: it has the station's load and pairs.
    pub fn read_back(&mut self, stations: usize, seen: &Seen) -> Result<(), Difference> {
        let [pairs, loads, _] = &seen.lent.wide[..] else {
            unreachable!("drawn loads has three tables of 64 bits");
        };
        for station in 0..stations {
            let record = &seen.lent.bytes[0][DRAWN_BYTES * station..][..DRAWN_BYTES];
            let figures = Figures {
                station: station as u16,
                load: loads[station],
                pairs: pairs[station],
            };
            if self.read(record)? != Some(figures) {
                return Err(format!("{record:02x?} is not the record of {figures}\n"));
            }
            let kind = usize::from(figures.pairs > 0) + usize::from(figures.load > 0);
            self.written[kind] += 1;
        }
        Ok(())
    }
}

/// How many bytes are drawn near records, and how many of any bits.
#[derive(Clone, Copy, Debug)]
pub struct Drawn {
    pub near: usize,
    pub any: usize,
}

impl From<Terms> for Drawn {
    /// More of them where the tiny plans have every g and h.
    fn from(terms: Terms) -> Drawn {
        let times = match terms {
            Terms::InTurn => 1,
            Terms::Every => 20,
        };
        Drawn {
            near: times * 3_000_000,
            any: times * 1_000_000,
        }
    }
}

/// Compares all of them; the seed is of the drawn bytes.
pub fn compare(comparison: &mut Comparison, seed: u64, drawn: Drawn) -> Result<(), Difference> {
    let (readings, random) = (&mut comparison.readings, &mut Random::new(seed));
    by_hand(readings)?;
    for bits in every_exponent().chain(around_limits()) {
        for record in records_with(bits) {
            readings.read(&record)?;
        }
    }
    every_edge(readings)?;
    every_station(readings)?;
    every_length(readings, random)?;
    every_bit(readings, random)?;
    for _ in 0..drawn.near {
        readings.read(&drawn_bytes(random))?;
    }
    for _ in 0..drawn.any {
        let [low, high] = [0; 2].map(|_| random.number());
        readings.read(&record_of_bits(random.below(256) as u16, low, high))?;
    }
    Ok(())
}

/// The lister's cases of reading, most with what is read stated by hand.
fn by_hand(readings: &mut Readings) -> Result<(), Difference> {
    for case in record_cases::all_cases() {
        let found = readings.read(&case.bytes)?;
        if case.stated.is_some_and(|stated| stated != found) {
            return Err(format!("{}: stated {:?}\n", case.label, case.stated));
        }
    }
    Ok(())
}

/// Loads and sums of load and pairs at the edges and one off, also where there is no such record.
fn every_edge(readings: &mut Readings) -> Result<(), Difference> {
    let further = [FIGURE_LIMIT, 2 * FIGURE_LIMIT - 2, 2 * FIGURE_LIMIT];
    let edges = EDGES.into_iter().chain(further);
    let near = edges.flat_map(|edge| [edge.saturating_sub(1), edge, edge + 1]);
    let near: Vec<u64> = near.map(share_bits).collect();
    for low in &near {
        for high in &near {
            readings.read(&record_of_bits(3, *low, *high))?;
        }
    }
    Ok(())
}

/// Every station of 16 bits, idle and not.
fn every_station(readings: &mut Readings) -> Result<(), Difference> {
    for station in 0..=u16::MAX {
        readings.read(&record_of_bits(station, 0, 0))?;
        let [low, high] = [7 << 30, (7 << 30) + 3].map(share_bits);
        readings.read(&record_of_bits(station, low, high))?;
    }
    Ok(())
}

/// Up to 64 bytes, of zeros and of records one behind another.
fn every_length(readings: &mut Readings, random: &mut Random) -> Result<(), Difference> {
    for length in 0..=64 {
        readings.read(&vec![0; length])?;
        let records = (0..4).flat_map(|_| drawn_figures(random).record());
        let bytes: Vec<u8> = records.take(length).collect();
        readings.read(&bytes)?;
    }
    Ok(())
}

/// Each bit of some records changed, and each two of them.
fn every_bit(readings: &mut Readings, random: &mut Random) -> Result<(), Difference> {
    for _ in 0..20 {
        let record = drawn_figures(random).record();
        for one in 0..8 * DRAWN_BYTES {
            for other in one..8 * DRAWN_BYTES {
                let mut changed = record;
                changed[one / 8] ^= 1 << (one % 8);
                if other > one {
                    changed[other / 8] ^= 1 << (other % 8);
                }
                readings.read(&changed)?;
            }
        }
    }
    Ok(())
}
