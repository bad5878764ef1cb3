//! Everything that the page shows of a plan, asked of the archive.

use joftaki::Ends;
use planconv::Record;

use crate::desk::{Desk, Load, Pair, Struck, Walk};
use crate::layered::{layered, Layered};
use crate::plan::Plan;

/// The most walks of a pair.
pub const MOST_WALKS: usize = 64;
/// The most walks of a pair in a station's account.
pub const MOST_INSIDE: usize = 8;

/// The number for over 2^64 - 1 walks.
const TOO_MANY: u32 = 9;

/// A pair that has a walk, with the first walks of its complete list.
#[derive(Clone, Debug)]
pub struct Listed {
    pub ends: Ends,
    pub pair: Pair,
    pub walks: Vec<Walk>,
    /// The stations inside some of its walks.
    pub inside: Vec<Inside>,
}

/// A station inside walks of a pair.
#[derive(Clone, Debug)]
pub struct Inside {
    pub station: usize,
    /// How many of the pair's walks have it inside.
    pub through: u64,
    /// Its share, in units of 1 / 2^32.
    pub share: u64,
    pub shown: Shown,
}

/// The first walks of a pair that have a station inside.
#[derive(Clone, Debug, PartialEq, Eq)]
pub enum Shown {
    /// Their places among the pair's listed walks.
    Places(Vec<usize>),
    /// The walks.
    Apart(Vec<Walk>),
}

/// All that is shown.
#[derive(Clone, Debug)]
pub struct Survey {
    pub loads: Vec<Load>,
    pub busiest: usize,
    pub pairs: Vec<Listed>,
    pub struck: Vec<Struck>,
}

/// The whole part of 2^32 × through ÷ count.
pub fn share(through: u64, count: u64) -> u64 {
    ((u128::from(through) << 32) / u128::from(count)) as u64
}

/// Whether a walk has a station inside, which is neither of its ends: whether the station sends in it.
fn has_inside(records: &[Record], walk: &[u16], station: usize) -> bool {
    let mut senders = walk
        .iter()
        .map(|position| records[usize::from(*position)][1]);
    senders.any(|sender| usize::from(sender) == station)
}

/// The plan of each station in layers, made when it is asked for.
struct Layers<'a> {
    plan: &'a Plan,
    made: Vec<Option<Layered>>,
}

impl<'a> Layers<'a> {
    fn new(plan: &'a Plan) -> Layers<'a> {
        let made = vec![None; plan.sizes.stations];
        Layers { plan, made }
    }

    /// The layered plan of a station.
    fn of(&mut self, station: usize) -> &Layered {
        let plan = self.plan;
        self.made[station].get_or_insert_with(|| layered(&plan.records, plan.sizes, station))
    }

    /// The first walks of a pair that have a station inside, as places among the listed ones where these have
    /// enough of them, and where the layered plan has too many walks: those to other stations may be longer and more
    /// there than in the plan.
    fn shown(&mut self, ends: Ends, listed: &[Walk], inside: (usize, u64)) -> Result<Shown, u32> {
        let (station, through) = inside;
        let places = (0..listed.len())
            .filter(|place| has_inside(&self.plan.records, &listed[*place], station))
            .take(MOST_INSIDE);
        let places: Vec<usize> = places.collect();
        if places.len() as u64 == through.min(MOST_INSIDE as u64) {
            return Ok(Shown::Places(places));
        }
        let units = self.plan.units;
        match self.of(station).walks(ends, units, MOST_INSIDE) {
            Ok(walks) => Ok(Shown::Apart(walks)),
            Err(TOO_MANY) => Ok(Shown::Places(places)),
            Err(number) => Err(number),
        }
    }
}

/// A pair with its walks; none where it has no walk.
fn listed(desk: &mut Desk, layers: &mut Layers, ends: Ends) -> Result<Option<Listed>, u32> {
    let Some(pair) = desk.pair(ends)? else {
        return Ok(None);
    };
    let walks = desk.walks(ends, MOST_WALKS)?;
    let mut inside = Vec::new();
    for (station, through) in pair.through.iter().enumerate() {
        if *through > 0 {
            inside.push(Inside {
                station,
                through: *through,
                share: share(*through, pair.count),
                shown: layers.shown(ends, &walks, (station, *through))?,
            });
        }
    }
    Ok(Some(Listed {
        ends,
        pair,
        walks,
        inside,
    }))
}

impl Survey {
    /// What the archive says of a plan, or its number.
    pub fn new(plan: &Plan) -> Result<Survey, u32> {
        let mut desk = Desk::new(plan.input());
        let loads = desk.loads()?;
        let busiest = desk.busiest()?;
        let mut layers = Layers::new(plan);
        let mut pairs = Vec::new();
        let n = plan.sizes.stations;
        for source in 0..n {
            for destination in (0..n).filter(|destination| *destination != source) {
                pairs.extend(listed(&mut desk, &mut layers, (source, destination))?);
            }
        }
        let positions = 0..plan.records.len();
        let struck = positions.map(|position| desk.struck(position)).collect();
        Ok(Survey {
            loads,
            busiest,
            pairs,
            struck,
        })
    }

    /// Whether the accounts are the loads: for each station so many pairs, and shares that add up to its load.
    pub fn adds_up(&self) -> bool {
        let mut sums = vec![(0, 0); self.loads.len()];
        for inside in self.pairs.iter().flat_map(|pair| &pair.inside) {
            let (pairs, load) = &mut sums[inside.station];
            (*pairs, *load) = (*pairs + 1, *load + inside.share);
        }
        let given = self.loads.iter().map(|load| (load.pairs, load.load));
        sums.into_iter().eq(given)
    }
}
