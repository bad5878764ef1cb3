//! The archive libjoftaki_c.a from Rust: each of its functions with slices in the place of pointers and
//! lengths. The answers are the archive's; nothing is looked at or changed on the way.

mod calls;
mod declared;

pub use calls::*;

/// A slot of size_t has 64 bits.
const _: () = assert!(usize::BITS == u64::BITS);

/// A plan as a call names it: its bytes, n, T, g and h, all unchecked. Check, row and take look at neither g
/// nor h, and foremost not at h.
#[derive(Clone, Copy, Debug)]
pub struct PlanInput<'a> {
    pub bytes: &'a [u8],
    /// n
    pub stations: usize,
    /// T
    pub slots: usize,
    /// g
    pub turnaround: usize,
    /// h
    pub keeping: usize,
}

/// The source and the destination of a pair.
pub type Ends = (usize, usize);

/// The tables that reach is lent.
pub struct ReachTables<'a> {
    pub appearance_hops: &'a mut [u16],
    pub appearance_counts: &'a mut [u64],
    pub station_hops: &'a mut [u16],
    pub station_counts: &'a mut [u64],
}

/// First way or next way.
#[derive(Clone, Copy, Debug)]
pub enum Way {
    First,
    Next,
}

/// Taking a plan into a band of so many channels, or out of it.
#[derive(Clone, Copy, Debug)]
pub enum Taking {
    In(u16),
    Out,
}

/// The number of an accepted call.
pub const ACCEPTED: u32 = 0;
/// First way: the pair has no walk.
pub const NONE: u32 = 100;
/// Next way: there is no further walk.
pub const LAST: u32 = 101;
/// The hops of a pair without a walk.
pub const NO_WALK: u64 = 65535;
/// The bytes of a station's record of drawn loads.
pub const DRAWN_BYTES: usize = 18;

/// The named length of the work area of a plan.
pub fn work_length(input: PlanInput) -> usize {
    4 * input.stations * (input.slots + 1)
}
