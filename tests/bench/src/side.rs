//! The two sides of the comparison: the library's archive, and the same passes in Rust.

use lister::answer::{beside, number};
use lister::operation::{way_hops, way_number};
use lister::plan::{Ends, PlanInput};
use lister::ways::Way;

use crate::{library, native};

/// Loads: the number.
pub type LoadsOf = fn(PlanInput, &mut [u64], &mut [u64], &mut [u64]) -> u32;

/// Pair: the number, the hops and the count.
type PairOf = fn(PlanInput, Ends, &mut [u64], &mut [u64]) -> (u32, u64, u64);

/// First way or next way: the number and the hops.
type WayOf = fn(Way, PlanInput, Ends, &mut [u16], &mut [u64]) -> (u32, usize);

/// Verdict: the number, and that of the verdict, 0 on refusal.
type VerdictOf = fn(PlanInput, Ends, &[u16], &mut [u64]) -> (u32, u32);

/// One implementation of the operations, answering as the C interface does.
#[derive(Clone, Copy, Debug)]
pub struct Side {
    pub name: &'static str,
    pub loads: LoadsOf,
    pub pair: PairOf,
    pub way: WayOf,
    pub verdict: VerdictOf,
}

/// libjoftaki_c.a
pub const LIBRARY: Side = Side {
    name: "library",
    loads: archive::loads,
    pair: library::pair,
    way: library::way,
    verdict: library::verdict,
};

/// The module `native`.
pub const RUST: Side = Side {
    name: "rust",
    loads: rust_loads,
    pair: rust_pair,
    way: rust_way,
    verdict: rust_verdict,
};

#[inline(never)]
fn rust_loads(input: PlanInput, pairs: &mut [u64], loads: &mut [u64], work: &mut [u64]) -> u32 {
    number(&native::tally::loads(input, pairs, loads, work)).into()
}

#[inline(never)]
fn rust_pair(
    input: PlanInput,
    ends: Ends,
    through: &mut [u64],
    work: &mut [u64],
) -> (u32, u64, u64) {
    let answer = native::pair::pair(input, ends, through, work);
    let (hops, count) = beside(&answer);
    (number(&answer).into(), hops, count)
}

#[inline(never)]
fn rust_way(
    way: Way,
    input: PlanInput,
    ends: Ends,
    buffer: &mut [u16],
    work: &mut [u64],
) -> (u32, usize) {
    let answer = native::listing::way(way, input, ends, buffer, work);
    (way_number(&answer), way_hops(&answer) as usize)
}

#[inline(never)]
fn rust_verdict(input: PlanInput, ends: Ends, list: &[u16], work: &mut [u64]) -> (u32, u32) {
    let answer = native::verdict::verdict(input, ends, list, work);
    let verdict = answer.map_or(0, |verdict| verdict.number());
    (number(&answer).into(), verdict)
}
