//! Cases for a program that runs foremost on cases from standard input.
//!
//! A case on standard input: n, T, g, the source, the destination, the length of the plan, the length
//! of the label and a mark, each 16 bits, high byte first; two lengths of 32 bits, high byte first;
//! then the label; then the plan. The lengths are the lent entries of the table of through counts and
//! of the scratch; both hold the mark before the call.
//!
//! The expected output has one line a case: the label, a colon, a space, the number, and slot, hops and
//! count, zeros beside a refusal; then the lent table and the scratch after the call as in
//! `pair_cases`. Most cases are pair's, with the same plan and the same memory.

mod arrivals;
mod drawn;
mod exact;
mod examples;
mod turnarounds;

use crate::pair_cases::{
    ladder_cases, limit_cases, refusal_cases, share_cases, small_cases, Case, Operation,
};

pub use arrivals::{Arrival, ARRIVALS};

/// The call of pair as a call of foremost.
fn by_foremost(case: Case) -> Option<Case> {
    let Operation::Pair(source, destination) = case.operation else {
        return None;
    };
    Some(Case {
        operation: Operation::Foremost(source, destination),
        ..case
    })
}

/// The calls of pair in pair-cases as calls of foremost, but for the plans around 2^64 walks: there the
/// numbers differ.
fn calls_of_pair() -> Vec<Case> {
    let cases = [
        refusal_cases(),
        limit_cases(),
        ladder_cases(),
        share_cases(),
        small_cases(),
    ];
    let cases = cases.into_iter().flatten();
    cases.filter_map(by_foremost).collect()
}

/// All cases, in the order of the files.
pub fn all_cases() -> Vec<Case> {
    [
        examples::cases(),
        arrivals::cases(),
        exact::cases(),
        calls_of_pair(),
        drawn::cases(),
        turnarounds::cases(),
    ]
    .concat()
}
