//! The account of a station: of which pairs its load is made, and the first shortest walks of each pair that have
//! the station interior. The text is that of the programs which print it; their units keep every reading.

use crate::answer::Answer;
use crate::causes::known_station;
use crate::fast_account;
use crate::load_program::{accepted_plan, means_for};
use crate::loads::{share, Load};
use crate::means::{Counting, Means};
use crate::pair::PairValues;
use crate::plan::{Contact, Ends, Plan};
use crate::shortest::{count_of, hops_of, positions_of, shortest_walks, walks_within};
use crate::show::text_of;

/// The most walks of a pair that an account prints.
pub const MOST_SHOWN: usize = 8;

/// A pair of a station: some shortest walk has it interior.
#[derive(Clone, Debug, PartialEq, Eq)]
pub struct AccountPair {
    pub ends: Ends,
    pub values: PairValues,
    /// How many shortest walks have the station interior.
    pub through: u64,
    /// The positions of the first of these, up to `MOST_SHOWN`, in the order of the complete list.
    pub walks: Vec<Vec<u16>>,
}

/// All that an account of a station is printed from.
#[derive(Clone, Debug, PartialEq, Eq)]
pub struct Account {
    pub station: usize,
    pub load: Load,
    /// By source, then by destination.
    pub pairs: Vec<AccountPair>,
    contacts: Vec<Contact>,
}

impl AccountPair {
    /// The line of the pair, so many of its walks, and how many more there are.
    fn text(&self, contacts: &[Contact], number: usize) -> String {
        let (source, destination) = self.ends;
        let PairValues { hops, count } = self.values;
        let (through, share) = (self.through, share(self.through, count));
        let shown = &self.walks[..number.min(self.walks.len())];
        let walks: String = shown.iter().map(|walk| walk_text(contacts, walk)).collect();
        let more = through - shown.len() as u64;
        format!(
            "from {source} to {destination} hops {hops} through {through} count {count} share {share}\n\
             {walks}  more {more}\n"
        )
    }
}

/// The line of a walk: slot, sender and hearer of each hop.
fn walk_text(contacts: &[Contact], walk: &[u16]) -> String {
    let hop = |position: &u16| {
        let contact = contacts[usize::from(*position)];
        format!("{} {} {}", contact.slot, contact.sender, contact.hearer)
    };
    let hops: Vec<String> = walk.iter().map(hop).collect();
    format!("  {}\n", hops.join(", "))
}

impl Account {
    /// The text with up to so many walks of each pair, at most `MOST_SHOWN`.
    pub fn text(&self, number: usize) -> String {
        assert!(number <= MOST_SHOWN, "{number} walks are not kept");
        let Load { pairs, load } = self.load;
        let first = format!("station {} pairs {pairs} load {load}\n", self.station);
        let text = |pair: &AccountPair| pair.text(&self.contacts, number);
        first + &self.pairs.iter().map(text).collect::<String>()
    }
}

/// The pairs of a station by the complete lists: a walk is taken where it has the station interior.
fn listed_pairs(limit: u64, plan: &Plan, station: usize) -> Answer<Vec<AccountPair>> {
    let mut pairs = Vec::new();
    for source in 0..plan.stations {
        let walks = walks_within(limit, plan, source)?;
        for destination in (0..plan.stations).filter(|other| *other != source) {
            let complete = shortest_walks(&walks, destination);
            let mut inside = complete.clone();
            inside.retain(|walk| walk.has_interior(station));
            if inside.is_empty() {
                continue;
            }
            let through = count_of(&inside);
            inside.truncate(MOST_SHOWN);
            pairs.push(AccountPair {
                ends: (source, destination),
                values: PairValues {
                    hops: hops_of(&complete),
                    count: count_of(&complete),
                },
                through,
                walks: positions_of(&inside),
            });
        }
    }
    Ok(pairs)
}

impl Means {
    /// The account of a station of an accepted plan, or cause 6, or cause 9 of any source.
    pub fn account(self, plan: &Plan, station: usize) -> Answer<Account> {
        known_station(plan.stations, station)?;
        let load = self.loads_from(plan, plan.stations)?[station];
        let pairs = match self.counting {
            Counting::Listed => listed_pairs(self.limit, plan, station)?,
            Counting::Fast => fast_account::pairs(self.limit, plan, station)?,
        };
        Ok(Account {
            station,
            load,
            pairs,
            contacts: plan.contacts.clone(),
        })
    }
}

/// The account of a station for an input and a turnaround, by the means that the plan allows, or the first cause: 2
/// and 1 as the load programs give them, those of the plan, 12, 6 and 9.
pub fn account(turnaround: usize, bytes: &[u8], station: usize) -> Answer<Account> {
    let plan = accepted_plan(turnaround, bytes)?;
    means_for(&plan).account(&plan, station)
}

/// The whole text for an input, with up to so many walks of each pair; a refusal is one line.
pub fn account_text(turnaround: usize, bytes: &[u8], station: usize, number: usize) -> String {
    text_with(&account(turnaround, bytes, station), number)
}

/// The text of an account with up to so many walks of each pair; a refusal is one line.
pub fn text_with(account: &Answer<Account>, number: usize) -> String {
    let text = account.as_ref().map(|account| account.text(number));
    text_of(text.map_err(|refusal| *refusal))
}
