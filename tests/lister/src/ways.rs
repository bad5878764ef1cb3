//! Operations 7 and 8, first way and next way.

use crate::answer::{Answer, CallFault};
use crate::causes::{known_pair, long_enough};
use crate::fast_ways;
use crate::lent;
use crate::means::{Counting, Means};
use crate::plan::{read, Ends, Plan, PlanInput};
use crate::shortest::{positions_of, shortest_walks, walks_within};

/// The operation of a call.
#[derive(Clone, Copy, Debug, PartialEq, Eq)]
pub enum Way {
    /// First way: the first shortest walk of the pair.
    First,
    /// Next way: the shortest walk after the one with which the buffer begins.
    Next,
}

/// What an accepted call of first way or next way answers.
#[derive(Clone, Copy, Debug, PartialEq, Eq)]
pub enum Found {
    /// A walk is in the buffer, and this is the number of its hops.
    Walk(u16),
    /// "None": the pair has no walk.
    NoWalk,
    /// "Last": no walk comes after the one in the buffer.
    Last,
}

/// The hops beside the number: 0 beside a refusal, nothing beside "none" and "last".
pub fn hops_beside(answer: &Answer<Found>) -> Option<u16> {
    match answer {
        Ok(Found::Walk(hops)) => Some(*hops),
        Ok(Found::NoWalk) | Ok(Found::Last) => None,
        Err(_) => Some(0),
    }
}

/// The arguments of first way and next way: of the lent memory only the lengths.
#[derive(Clone, Copy, Debug)]
pub struct WayCall<'a> {
    pub input: PlanInput<'a>,
    pub source: usize,
    pub destination: usize,
    pub buffer_length: usize,
    pub scratch_length: usize,
}

impl WayCall<'_> {
    /// The source and the destination.
    pub fn ends(&self) -> Ends {
        (self.source, self.destination)
    }
}

/// The plan of a call, or the first of its causes before 9.
pub fn accepted_plan(call: &WayCall) -> Answer<Plan> {
    let plan = read(call.input)?;
    known_pair(plan.stations, call.ends())?;
    long_enough(call.buffer_length, plan.slots)?;
    long_enough(
        call.scratch_length,
        lent::scratch_length(plan.stations, plan.slots),
    )?;
    Ok(plan)
}

/// The positions of the pair's shortest walks in order, or cause 9.
pub fn walk_positions(limit: u64, plan: &Plan, ends: Ends) -> Answer<Vec<Vec<u16>>> {
    let walks = walks_within(limit, plan, ends.0)?;
    Ok(positions_of(&shortest_walks(&walks, ends.1)))
}

/// The positions of the pair's shortest walks in order, or the first cause other than 10.
pub fn walks_of_call(limit: u64, call: &WayCall) -> Answer<Vec<Vec<u16>>> {
    let plan = accepted_plan(call)?;
    walk_positions(limit, &plan, call.ends())
}

/// The shortest walks of a pair in order; the place of the first is 0.
pub trait CompleteList {
    /// How many there are.
    fn count(&self) -> u128;

    /// The positions of the walk at a place, which is below the count.
    fn walk(&self, place: u128) -> Vec<u16>;

    /// The place of the walk with which a buffer of at least T entries begins; none if there is none.
    fn place(&self, buffer: &[u16]) -> Option<u128>;
}

/// The plain lister's walks.
impl CompleteList for Vec<Vec<u16>> {
    fn count(&self) -> u128 {
        self.len() as u128
    }

    fn walk(&self, place: u128) -> Vec<u16> {
        self[place as usize].clone()
    }

    fn place(&self, buffer: &[u16]) -> Option<u128> {
        let place = self.iter().position(|walk| buffer.starts_with(walk));
        place.map(|place| place as u128)
    }
}

impl Way {
    /// The place of the walk to give: one below the count, or the count where there is none. Cause 10
    /// is that next way's buffer begins with none of them.
    fn place(self, list: &dyn CompleteList, buffer: &[u16]) -> Answer<u128> {
        match self {
            Way::First => Ok(0),
            Way::Next => {
                let offered = list.place(buffer);
                Ok(offered.ok_or(CallFault::NotShortest)? + 1)
            }
        }
    }

    /// The answer where there is no walk to give.
    fn nothing(self) -> Found {
        match self {
            Way::First => Found::NoWalk,
            Way::Next => Found::Last,
        }
    }
}

impl Means {
    /// The shortest walks of a pair of an accepted plan, or cause 9.
    fn list(self, plan: Plan, ends: Ends) -> Answer<Box<dyn CompleteList>> {
        Ok(match self.counting {
            Counting::Listed => Box::new(walk_positions(self.limit, &plan, ends)?),
            Counting::Fast => Box::new(fast_ways::list(self.limit, plan, ends)?),
        })
    }

    /// First way or next way: a walk is given by its positions in the first entries of the buffer.
    pub fn way(
        self,
        way: Way,
        input: PlanInput,
        (source, destination): Ends,
        buffer: &mut [u16],
        scratch: &mut [u64],
    ) -> Answer<Found> {
        let plan = accepted_plan(&WayCall {
            input,
            source,
            destination,
            buffer_length: buffer.len(),
            scratch_length: scratch.len(),
        })?;
        scratch[..lent::scratch_length(plan.stations, plan.slots)].fill(0);
        let list = self.list(plan, (source, destination))?;
        let place = way.place(list.as_ref(), buffer)?;
        if place == list.count() {
            return Ok(way.nothing());
        }
        let positions = list.walk(place);
        buffer[..positions.len()].copy_from_slice(&positions);
        Ok(Found::Walk(positions.len() as u16))
    }
}
