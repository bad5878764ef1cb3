//! Through set by numbers of walks. This is no plain lister: it lists no walk.
//!
//! The shortest walks with no member interior are the walks of as many hops in the plan without the
//! members' contacts, source and destination keeping theirs; the others have a member interior. The
//! module serves plans with too many walks to be listed; the tests compare it with the plain lister on
//! small plans.

use crate::answer::Answer;
use crate::numbers::{Appearances, Walks};
use crate::plan::{Contact, Ends, Plan};

/// The plan without the contacts of some stations.
fn without(plan: &Plan, stations: &[usize]) -> Plan {
    let has = |contact: &Contact| {
        stations.contains(&contact.sender) || stations.contains(&contact.hearer)
    };
    let mut plan = plan.clone();
    plan.contacts.retain(|contact| !has(contact));
    plan
}

/// How many shortest walks of the pair have some member interior, or cause 9.
pub fn touched(limit: u64, plan: &Plan, ends: Ends, members: &[usize]) -> Answer<u64> {
    let (source, destination) = ends;
    let appearances = Appearances::new(plan);
    let walks = Walks::from_source(&appearances, source);
    walks.few_enough(limit)?;
    let Some((hops, count)) = walks.to_station(destination) else {
        return Ok(0);
    };
    let mut avoided = members.to_vec();
    avoided.retain(|member| *member != source && *member != destination);
    let appearances = Appearances::new(&without(plan, &avoided));
    let avoiding = Walks::from_source(&appearances, source).to_station(destination);
    let avoiding = match avoiding {
        Some((fewest, avoiding)) if fewest == hops => avoiding,
        _ => 0,
    };
    Ok((count - avoiding) as u64)
}
