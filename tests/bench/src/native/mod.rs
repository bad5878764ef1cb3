//! The operations in Rust: the same passes as the proved crates, over the same places of the work
//! area, with slices as a Rust programmer takes them apart.

pub mod listing;
pub mod pair;
pub mod pass;
pub mod plan;
pub mod share;
pub mod tally;
pub mod verdict;
pub mod ways;
