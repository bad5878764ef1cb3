//! Answers, refusals and their numbers.

/// A fault of the plan: causes 1 to 5.
#[derive(Clone, Copy, Debug, PartialEq, Eq)]
pub enum PlanFault {
    /// 1: n or T is outside its limits.
    Limits,
    /// 2: the plan is no multiple of 6 bytes, or has too many records.
    Length,
    /// 3: a slot is 0 or above T.
    Slot,
    /// 4: a equals b, or one of them is not below n.
    Stations,
    /// 5: a record is not above the one before it.
    Order,
}

/// A fault of the call: causes 6 to 10, and document 02's from 11 on.
#[derive(Clone, Copy, Debug, PartialEq, Eq)]
pub enum CallFault {
    /// 6: a named station is not below n.
    Station,
    /// 7: source equals destination.
    SameStation,
    /// 8: a lent table or buffer is too short.
    TooShort,
    /// 9: an appearance or station has too many shortest walks; for foremost, an appearance.
    TooMany,
    /// 10: the offered positions are no shortest walk of the pair.
    NotShortest,
    /// 11: a byte of a set is neither 0 nor 1.
    SetByte,
    /// 12: g is outside its limits.
    Turnaround,
    /// 13: the number of sources is above n.
    Sources,
    /// 14: h is below g or above its limit.
    Keeping,
    /// 15: after a taking in an entry would be above c.
    Channels,
    /// 16: after a taking out an entry would be below 0.
    Untaken,
    /// 17: the position is not below the number of records.
    Position,
}

/// A refusal, of the plan or of the call.
#[derive(Clone, Copy, Debug, PartialEq, Eq)]
pub enum Refusal {
    Plan(PlanFault),
    Call(CallFault),
}

impl Refusal {
    /// The papers' number of the cause.
    pub fn number(self) -> u8 {
        match self {
            Refusal::Plan(PlanFault::Limits) => 1,
            Refusal::Plan(PlanFault::Length) => 2,
            Refusal::Plan(PlanFault::Slot) => 3,
            Refusal::Plan(PlanFault::Stations) => 4,
            Refusal::Plan(PlanFault::Order) => 5,
            Refusal::Call(CallFault::Station) => 6,
            Refusal::Call(CallFault::SameStation) => 7,
            Refusal::Call(CallFault::TooShort) => 8,
            Refusal::Call(CallFault::TooMany) => 9,
            Refusal::Call(CallFault::NotShortest) => 10,
            Refusal::Call(CallFault::SetByte) => 11,
            Refusal::Call(CallFault::Turnaround) => 12,
            Refusal::Call(CallFault::Sources) => 13,
            Refusal::Call(CallFault::Keeping) => 14,
            Refusal::Call(CallFault::Channels) => 15,
            Refusal::Call(CallFault::Untaken) => 16,
            Refusal::Call(CallFault::Position) => 17,
        }
    }
}

impl From<PlanFault> for Refusal {
    fn from(fault: PlanFault) -> Refusal {
        Refusal::Plan(fault)
    }
}

impl From<CallFault> for Refusal {
    fn from(fault: CallFault) -> Refusal {
        Refusal::Call(fault)
    }
}

/// What an operation answers: its values, or the first cause of refusal.
pub type Answer<V> = Result<V, Refusal>;

/// The number of an answer, 0 where the call is accepted.
pub fn number<V>(answer: &Answer<V>) -> u8 {
    match answer {
        Ok(_) => 0,
        Err(refusal) => refusal.number(),
    }
}

/// The values beside the number: those of an accepted call, zeros beside a refusal.
pub fn beside<V: Clone + Default>(answer: &Answer<V>) -> V {
    answer.as_ref().cloned().unwrap_or_default()
}
