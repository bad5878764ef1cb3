//! The cursor, document 01's finger, and traces, document 01's listings.

use crate::answer::{Answer, CallFault};
use crate::means::LISTED;
use crate::ways::{walks_of_call, Found, Way, WayCall};

/// One step of a trace.
#[derive(Clone, Copy, Debug)]
pub enum Step<'a> {
    /// A call; the way buffer lent is a beginning of the trace's buffer, of the named length.
    Call(Way, WayCall<'a>),
    /// The caller writes one entry of the buffer.
    Write(usize, u16),
}

/// The cursor on the list of shortest walks, with a buffer of its own.
#[derive(Clone, Debug)]
pub struct Cursor {
    limit: u64,
    list: Vec<Vec<u16>>,
    place: Option<usize>,
    buffer: Vec<u16>,
}

impl Cursor {
    /// The cursor starts on the walk with which the buffer begins, or on none.
    pub fn start(limit: u64, list: Vec<Vec<u16>>, contents: &[u16]) -> Cursor {
        let place = list.iter().position(|walk| contents.starts_with(walk));
        Cursor {
            limit,
            list,
            place,
            buffer: contents.to_vec(),
        }
    }

    /// The cursor's buffer.
    pub fn buffer(&self) -> &[u16] {
        &self.buffer
    }

    /// The caller writes an entry between calls; the cursor stays.
    pub fn write(&mut self, entry: usize, value: u16) {
        self.buffer[entry] = value;
    }

    /// What the call must answer; its causes other than 10 come from the arguments alone.
    pub fn call(&mut self, way: Way, call: &WayCall) -> Answer<Found> {
        let causes = walks_of_call(self.limit, call).map(|_| ());
        self.answer(way, causes)
    }

    /// What a call must answer, its causes other than 10 being given.
    pub fn answer(&mut self, way: Way, causes: Answer<()>) -> Answer<Found> {
        causes?;
        match way {
            Way::First if self.list.is_empty() => Ok(Found::NoWalk),
            Way::First => Ok(self.go_to(0)),
            Way::Next => match self.place {
                None => Err(CallFault::NotShortest.into()),
                Some(place) if place + 1 == self.list.len() => Ok(Found::Last),
                Some(place) => Ok(self.go_to(place + 1)),
            },
        }
    }

    /// The cursor goes to a walk, and that walk is given.
    fn go_to(&mut self, place: usize) -> Found {
        self.place = Some(place);
        for (entry, position) in self.list[place].iter().enumerate() {
            self.buffer[entry] = *position;
        }
        Found::Walk(self.list[place].len() as u16)
    }
}

/// Runs a trace; gives the first step where an answer or the whole buffer is not the cursor's.
pub fn first_difference(
    limit: u64,
    list: Vec<Vec<u16>>,
    contents: &[u16],
    trace: &[Step],
) -> Option<usize> {
    let mut cursor = Cursor::start(limit, list, contents);
    let mut buffer = contents.to_vec();
    for (at, step) in trace.iter().enumerate() {
        match step {
            Step::Write(entry, value) => {
                buffer[*entry] = *value;
                cursor.write(*entry, *value);
            }
            Step::Call(way, call) => {
                let lent = &mut buffer[..call.buffer_length];
                let mut scratch = vec![1; call.scratch_length];
                let listed = LISTED.within(limit);
                let answer = listed.way(*way, call.input, call.ends(), lent, &mut scratch);
                if answer != cursor.call(*way, call) || buffer != cursor.buffer() {
                    return Some(at);
                }
            }
        }
    }
    None
}
