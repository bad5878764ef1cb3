//! The plain lister: the operations of document 01 and of document 02's changes, answered from their
//! definitions alone.
//!
//! Every walk from a source is listed, hop by hop; the shortest are picked by comparing lengths;
//! a count is the length of a list. It serves as the other side of comparisons on small plans. The
//! modules `fast`, `fast_account`, `fast_pairs`, `fast_avoiding`, `fast_sets`, `fast_struck` and `fast_ways` alone
//! list no walk; they serve plans with too many.
//!
//! The words here, and document 01's where they differ:
//!
//! | Here | Document 01 |
//! |---|---|
//! | station, slot, contact, plan, position, appearance | the same |
//! | sender, hearer | a, b of a contact (t, a, b), as document 02's C-16 has it |
//! | turnaround | g, as document 02's C-17 has it |
//! | keeping | h, as document 02's C-21 has it |
//! | channels | c, as document 02's C-22 has it |
//! | walk | chain |
//! | hops | legs |
//! | path | way |
//! | shortest | least, with the fewest legs |
//! | interior | inside |
//! | shortest walks | the complete list |
//! | trace | listing |
//! | cursor | finger |
//! | buffer | lent table, way buffer |
//! | scratch | work area |
//!
//! The operations keep document 01's names.

pub mod account;
pub mod account_cases;
pub mod answer;
pub mod band;
pub mod band_cases;
pub mod band_runs;
pub mod call_cases;
pub mod cases;
pub mod causes;
pub mod cursor;
pub mod drawing;
pub mod drawing_bits;
pub mod drawing_samples;
pub mod drawn_cases;
pub mod fast;
pub mod fast_account;
pub mod fast_avoiding;
pub mod fast_pairs;
pub mod fast_sets;
pub mod fast_struck;
pub mod fast_ways;
pub mod files;
pub mod foremost;
pub mod foremost_cases;
pub mod lent;
pub mod lists;
pub mod load_cases;
pub mod load_program;
pub mod loads;
pub mod means;
pub mod numbers;
pub mod one_way;
pub mod operation;
pub mod pair;
pub mod pair_cases;
pub mod partial_cases;
pub mod plan;
pub mod plans;
pub mod program;
pub mod random;
pub mod reach;
pub mod reach_cases;
pub mod record_cases;
pub mod row;
pub mod set_cases;
pub mod sets;
pub mod shortest;
pub mod show;
pub mod stale;
pub mod struck;
pub mod struck_cases;
pub mod traces;
pub mod turned;
pub mod verdict_cases;
pub mod verdicts;
pub mod walk;
pub mod way_cases;
pub mod ways;

#[cfg(test)]
mod tests;
