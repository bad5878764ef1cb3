//! The blocked forward pass: hops and counts from a source to every station, and for each station of
//! a block how many shortest paths do not have it inside.

use lister::plan::PlanInput;

use super::plan::contacts;

/// The hops of a station without a walk.
pub const NO_WALK: u64 = 65535;

/// What a pass works on: a source, and a block of stations from `low` on.
#[derive(Clone, Copy, Debug)]
pub struct Task {
    pub source: usize,
    pub low: usize,
    /// The stations of the block.
    pub block: usize,
}

/// Hops, counts and rows of every station: 2n + nB entries.
pub struct Part<'a> {
    pub hops: &'a mut [u64],
    pub counts: &'a mut [u64],
    /// A row of a block's entries for each station.
    rows: &'a mut [u64],
    block: usize,
}

/// The entries of a part.
fn part_size(n: usize, block: usize) -> usize {
    2 * n + n * block
}

impl<'a> Part<'a> {
    /// The part for n stations that takes a beginning of a work area.
    #[inline]
    fn new(work: &'a mut [u64], n: usize, block: usize) -> Part<'a> {
        let (hops, rest) = work.split_at_mut(n);
        let (counts, rest) = rest.split_at_mut(n);
        Part {
            hops,
            counts,
            rows: &mut rest[..n * block],
            block,
        }
    }

    /// The row of a station: how many shortest paths avoid each station of the block.
    pub fn row(&self, station: usize) -> &[u64] {
        &self.rows[station * self.block..][..self.block]
    }

    /// The same, to be written.
    fn row_mut(&mut self, station: usize) -> &mut [u64] {
        &mut self.rows[station * self.block..][..self.block]
    }

    /// No walk anywhere.
    fn clear(&mut self) {
        self.hops.fill(NO_WALK);
        self.counts.fill(0);
    }

    /// Sends what is settled for a sender on over one hop more, to what waits for its hearer.
    #[inline]
    fn send(&self, waiting: &mut Part, sender: usize, hearer: usize) {
        let hops = self.hops[sender];
        if hops == NO_WALK {
            return;
        }
        if hops < self.hops[hearer] {
            let before = waiting.hops[hearer];
            merge_row(waiting.row_mut(hearer), self.row(sender), before, hops + 1);
        }
        merge(
            &mut waiting.hops[hearer],
            &mut waiting.counts[hearer],
            hops + 1,
            self.counts[sender],
        );
    }

    /// Settles what waits in a part, for every station. True where a count is over 2^64 - 1.
    fn settle(&mut self, waiting: &mut Part, task: Task) -> bool {
        let mut over = false;
        for station in 0..self.hops.len() {
            if waiting.hops[station] < NO_WALK {
                over |= self.settle_one(waiting, task, station);
            }
        }
        over
    }

    /// Settles what waits for a station. True where its count is over 2^64 - 1.
    fn settle_one(&mut self, waiting: &mut Part, task: Task, station: usize) -> bool {
        let Task { source, low, block } = task;
        let hops = waiting.hops[station];
        let count = waiting.counts[station];
        let before = self.hops[station];
        let row = self.row_mut(station);
        merge_row(row, waiting.row(station), before, hops);
        if station != source && (low..low + block).contains(&station) {
            row[station - low] = 0;
        }
        merge(
            &mut self.hops[station],
            &mut self.counts[station],
            hops,
            count,
        );
        waiting.hops[station] = NO_WALK;
        waiting.counts[station] = 0;
        count == 0
    }

    /// Whether the settled entry of some station has a count over 2^64 - 1.
    fn any_overflows(&self) -> bool {
        let mut entries = self.hops.iter().zip(self.counts.iter());
        entries.any(|(hops, count)| *hops < NO_WALK && *count == 0)
    }
}

/// Takes a row beside `new` hops into a row beside `old` hops.
#[inline]
fn merge_row(row: &mut [u64], from: &[u64], old: u64, new: u64) {
    if new < old {
        row.copy_from_slice(from);
    } else if new == old {
        for (entry, sent) in row.iter_mut().zip(from) {
            *entry = entry.wrapping_add(*sent);
        }
    }
}

/// The sum of two counts. 0 stands for a count over 2^64 - 1 and stays.
fn add_counts(one: u64, other: u64) -> u64 {
    if one == 0 || other == 0 {
        return 0;
    }
    one.checked_add(other).unwrap_or(0)
}

/// Takes so many walks of `new` hops into an entry.
#[inline]
fn merge(hops: &mut u64, count: &mut u64, new: u64, walks: u64) {
    if new < *hops {
        *hops = new;
        *count = walks;
    } else if new == *hops {
        *count = add_counts(*count, walks);
    }
}

/// The slots for which a pass keeps what waits: min(g, T).
pub fn waiting_slots(input: PlanInput) -> usize {
    input.turnaround.min(input.slots)
}

/// The largest block for which a pass takes at most `entries` entries a station.
pub fn most_columns(input: PlanInput, entries: usize) -> usize {
    let parts = 1 + waiting_slots(input);
    input.stations.min(entries / parts - 2)
}

/// The entries of a pass: what may be sent on, and a part for each slot that waits.
pub fn pass_entries(input: PlanInput, block: usize) -> usize {
    (1 + waiting_slots(input)) * part_size(input.stations, block)
}

/// The pass: what is heard in a slot waits in that slot's part, and is settled g slots later, before the
/// part is used again; past the last slot the parts are settled one by one. None where an appearance or
/// a station has a count over 2^64 - 1.
pub fn pass<'a>(work: &'a mut [u64], input: PlanInput, task: Task) -> Option<Part<'a>> {
    let (n, q, block) = (input.stations, waiting_slots(input), task.block);
    let size = part_size(n, block);
    let (first, waiting) = work.split_at_mut(size);
    let mut settled = Part::new(first, n, block);
    settled.clear();
    for part in waiting.chunks_exact_mut(size).take(q) {
        Part::new(part, n, block).clear();
    }
    settled.hops[task.source] = 0;
    settled.counts[task.source] = 1;
    settled.row_mut(task.source).fill(1);
    let mut records = contacts(input.bytes).peekable();
    for slot in 1..=input.slots + q {
        let mut part = Part::new(&mut waiting[slot % q * size..][..size], n, block);
        if slot > q && settled.settle(&mut part, task) {
            return None;
        }
        while let Some(contact) = records.next_if(|contact| contact.slot == slot) {
            settled.send(&mut part, contact.sender, contact.hearer);
        }
    }
    (!settled.any_overflows()).then_some(settled)
}

/// The blocks of at most `most` of n stations: where each begins, and its size.
pub fn blocks(n: usize, most: usize) -> impl Iterator<Item = (usize, usize)> {
    (0..n)
        .step_by(most)
        .map(move |low| (low, most.min(n - low)))
}
