//! The operations of libjoftaki_c.a, with the values beside the number as a part of the answer.

use lister::plan::{Ends, PlanInput};
use lister::ways::Way;

/// Operation 4: the number, the hops and the count.
pub fn pair(
    input: PlanInput,
    ends: Ends,
    through: &mut [u64],
    work: &mut [u64],
) -> (u32, u64, u64) {
    let (mut hops, mut count) = (0, 0);
    let number = archive::pair(input, ends, &mut hops, &mut count, through, work);
    (number, hops, count)
}

/// Operation 7 or 8: the number and the hops.
pub fn way(
    way: Way,
    input: PlanInput,
    ends: Ends,
    buffer: &mut [u16],
    work: &mut [u64],
) -> (u32, usize) {
    let mut hops = 0;
    let number = archive::way(way, input, ends, &mut hops, buffer, work);
    (number, hops as usize)
}

/// Document 02's verdict: the number, and that of the verdict.
pub fn verdict(input: PlanInput, ends: Ends, list: &[u16], work: &mut [u64]) -> (u32, u32) {
    let mut verdict = 0;
    let number = archive::verdict(input, ends, &mut verdict, list, work);
    (number, verdict)
}
