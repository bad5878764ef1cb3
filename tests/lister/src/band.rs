//! Document 02's plans that share a band (C-22): take in and take out, and the bookkeeping of a run of them.

use crate::answer::Answer;
use crate::causes::{enough_channels, long_enough, none_untaken};
use crate::plan::{check, contacts, PlanInput, MOST_SLOTS};

/// The named entries of a band's table, slot 1 first, whatever T is.
pub const BAND_SLOTS: usize = MOST_SLOTS;

/// Which of the two operations is called; taking in has c, the band's channels.
#[derive(Clone, Copy, Debug, PartialEq, Eq)]
pub enum Taking {
    In(u16),
    Out,
}

/// A plan's records in each of the 255 slots, slot 1 first.
pub fn records_by_slot(bytes: &[u8]) -> Vec<i64> {
    let in_slot = |slot: usize| contacts(bytes).filter(move |contact| contact.slot == slot);
    let records = (1..=BAND_SLOTS).map(|slot| in_slot(slot).count() as i64);
    records.collect()
}

impl Taking {
    /// Take in or take out: each of the 255 entries with the plan's records in its slot added or subtracted.
    pub fn take(self, input: PlanInput, table: &mut [u16]) -> Answer<()> {
        check(input)?;
        long_enough(table.len(), BAND_SLOTS)?;
        let entries = table.iter().map(|entry| i64::from(*entry));
        let pairs = entries.zip(records_by_slot(input.bytes));
        let after: Vec<i64> = match self {
            Taking::In(_) => pairs.map(|(entry, records)| entry + records).collect(),
            Taking::Out => pairs.map(|(entry, records)| entry - records).collect(),
        };
        match self {
            Taking::In(channels) => enough_channels(channels, &after)?,
            Taking::Out => none_untaken(&after)?,
        }
        for (entry, after) in table.iter_mut().zip(after) {
            *entry = after as u16;
        }
        Ok(())
    }
}

/// The bookkeeping of a run of calls: the plans that are in, one taken in twice standing twice. It keeps no table.
#[derive(Clone, Debug)]
pub struct Band {
    /// c
    channels: u16,
    plans: Vec<Vec<u8>>,
}

impl Band {
    /// A band without plans.
    pub fn new(channels: u16) -> Band {
        let plans = Vec::new();
        Band { channels, plans }
    }

    /// The bytes of the plans that are in.
    pub fn plans(&self) -> &[Vec<u8>] {
        &self.plans
    }

    /// The number of records in each slot over the plans that are in.
    pub fn used(&self) -> Vec<u64> {
        let mut used = vec![0; BAND_SLOTS];
        for contact in self.plans.iter().flat_map(|plan| contacts(plan)) {
            used[contact.slot - 1] += 1;
        }
        used
    }

    /// What a call of the run answers that is lent so many entries; an accepted plan is then in, or one of it is out.
    /// Only plans that are in are taken out, but for calls that a number up to 8 refuses.
    pub fn take(&mut self, taking: Taking, input: PlanInput, length: usize) -> Answer<()> {
        check(input)?;
        long_enough(length, BAND_SLOTS)?;
        match taking {
            Taking::In(channels) => {
                assert_eq!(channels, self.channels, "a run has one c");
                let mut with = self.clone();
                with.plans.push(input.bytes.to_vec());
                let used: Vec<i64> = with.used().iter().map(|used| *used as i64).collect();
                enough_channels(channels, &used)?;
                *self = with;
            }
            Taking::Out => {
                let place = self.plans.iter().position(|plan| plan == input.bytes);
                self.plans.remove(place.expect("the plan is in"));
            }
        }
        Ok(())
    }
}
