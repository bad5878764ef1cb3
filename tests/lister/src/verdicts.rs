//! Document 02's verdict on a list of positions that somebody else wrote (C-19).

use crate::answer::Answer;
use crate::causes::known_pair;
use crate::fast_ways;
use crate::lent::{clear, scratch_length};
use crate::means::{Counting, Means};
use crate::plan::{read, Ends, PlanInput};
use crate::ways::{walk_positions, CompleteList};

/// What a list is, held against the complete list of a pair.
#[derive(Clone, Copy, Debug, PartialEq, Eq, PartialOrd, Ord)]
pub enum Verdict {
    /// All shortest walks, one behind another.
    Complete,
    /// The first few whole walks, fewer than all, possibly none.
    Beginning,
    /// Anything else.
    Wrong,
}

/// All verdicts, in the order of their numbers.
pub const VERDICTS: [Verdict; 3] = [Verdict::Complete, Verdict::Beginning, Verdict::Wrong];

impl Verdict {
    /// The C interface's number of the verdict.
    pub fn number(self) -> u8 {
        match self {
            Verdict::Complete => 1,
            Verdict::Beginning => 2,
            Verdict::Wrong => 3,
        }
    }

    /// The word for it.
    pub fn word(self) -> &'static str {
        match self {
            Verdict::Complete => "complete",
            Verdict::Beginning => "beginning",
            Verdict::Wrong => "wrong",
        }
    }
}

/// The number of the verdict beside the number of an answer; 0 beside a refusal.
pub fn verdict_beside(answer: &Answer<Verdict>) -> u8 {
    answer.map_or(0, Verdict::number)
}

/// The verdict, from all shortest walks: the first ones, one behind another, are compared with the list.
pub fn verdict_on(walks: &[Vec<u16>], list: &[u16]) -> Verdict {
    let is_first = |count: usize| list == walks[..count].concat();
    if is_first(walks.len()) {
        Verdict::Complete
    } else if (0..walks.len()).any(is_first) {
        Verdict::Beginning
    } else {
        Verdict::Wrong
    }
}

/// The verdict where there are too many walks to be listed: walk after walk is taken off the list.
fn walk_by_walk(walks: &dyn CompleteList, list: &[u16]) -> Verdict {
    let (mut place, mut rest) = (0, list);
    while place < walks.count() && !rest.is_empty() {
        match rest.strip_prefix(walks.walk(place).as_slice()) {
            Some(behind) => rest = behind,
            None => return Verdict::Wrong,
        }
        place += 1;
    }
    match (rest.is_empty(), place == walks.count()) {
        (true, true) => Verdict::Complete,
        (true, false) => Verdict::Beginning,
        (false, _) => Verdict::Wrong,
    }
}

impl Means {
    /// The verdict on a list of positions, which may have any length.
    pub fn verdict(
        self,
        input: PlanInput,
        ends: Ends,
        list: &[u16],
        scratch: &mut [u64],
    ) -> Answer<Verdict> {
        let plan = read(input)?;
        known_pair(plan.stations, ends)?;
        clear(&mut [(scratch, scratch_length(plan.stations, plan.slots))])?;
        Ok(match self.counting {
            Counting::Listed => verdict_on(&walk_positions(self.limit, &plan, ends)?, list),
            Counting::Fast => walk_by_walk(&fast_ways::list(self.limit, plan, ends)?, list),
        })
    }
}
