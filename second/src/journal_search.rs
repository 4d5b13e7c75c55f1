//! "first k entries that no started session leaves", by a search for calls that leave them: from an accepted
//! start every call that might have written the next entry is made, and those go on that wrote it byte by byte.

use crate::calls::Call;
use crate::compiled::CompiledChart;
use crate::journal::{fields, Journal};
use crate::limits::{MAX_ENTRIES, SLOT_BYTES};
use crate::names::is_name;
use crate::recorded::Recorded;
use crate::recorded_calls::RecordedCall;
use crate::session::{ACCEPTED, NO_TRACE_ROOM};
use crate::timed::Timed;

/// The room of the start, and of the runs that are to have enough.
const AMPLE: usize = 5_000;
/// Trace rooms of the runs that are tried.
const ROOMS: [usize; 4] = [0, 1, 8, AMPLE];

/// What the search found.
#[derive(Clone, PartialEq, Eq, Debug)]
pub enum Search {
    /// Calls that leave the entries, all of them with this session, clock record and last trace.
    Left(Box<(Timed, Vec<u32>)>),
    NotLeft,
    /// The ample room is too small.
    Unknown,
}

/// A session that has left the entries so far, and the trace of the last.
type Leaving = (Recorded, Vec<u32>);

/// Searches for calls that leave the first k entries of a journal.
pub fn search(compiled: &CompiledChart, journal: &Journal, k: u64) -> Search {
    if journal.count() > MAX_ENTRIES as u64 || k > journal.count() {
        return Search::NotLeft;
    }
    let started = Recorded::ended().start(Some(compiled), AMPLE);
    let mut unknown = started.answer.number == NO_TRACE_ROOM;
    let mut found: Vec<Leaving> = match started.answer.number {
        ACCEPTED => vec![(started.clone().recorded(), started.answer.trace)],
        _ => Vec::new(),
    };
    for place in 0..k as usize {
        let entry = journal.entry(place);
        let mut next: Vec<Leaving> = Vec::new();
        for (recorded, _) in &found {
            for call in calls_for(entry) {
                let after = RecordedCall::Call(call.clone()).done_on(recorded.clone(), Some(compiled));
                let wrote = after.journal.count() == place as u64 + 1 && after.journal.entry(place) == entry;
                unknown |= !wrote && after.answer.number == NO_TRACE_ROOM && asks_in_ample(&call, entry);
                let leaving = (after.clone().recorded(), after.answer.trace);
                if wrote && !next.contains(&leaving) {
                    next.push(leaving);
                }
            }
        }
        found = next;
    }
    match &found[..] {
        [] if unknown => Search::Unknown,
        [] => Search::NotLeft,
        [(recorded, trace)] => Search::Left(Box::new((recorded.timed.clone(), trace.clone()))),
        _ => panic!("calls that leave the same entries leave several sessions"),
    }
}

/// Whether a call asks for just the rounds of the entry, with the ample room.
fn asks_in_ample(call: &Call, entry: &[u8]) -> bool {
    let (_, number, _) = fields(entry);
    matches!(*call, Call::Run { rounds, room: AMPLE } if u64::from(rounds) == number)
}

/// Every call that might write these bytes, whatever their kind: posts of the beginnings of the slot that are names
/// (others are refused), the clock that is the number, runs asked for so many rounds, for one more and for as
/// many as may be.
fn calls_for(entry: &[u8]) -> Vec<Call> {
    let (_, number, slot) = fields(entry);
    let beginnings = (0..=SLOT_BYTES).map(|length| &slot[..length]).filter(|name| is_name(name));
    let mut calls: Vec<Call> = beginnings.map(|name| Call::Post { name: name.to_vec() }).collect();
    calls.push(Call::Clock { ticks: number });
    let asked = [u32::try_from(number).ok(), u32::try_from(number.saturating_add(1)).ok(), Some(u32::MAX)];
    for rounds in asked.into_iter().flatten() {
        calls.extend(ROOMS.map(|room| Call::Run { rounds, room }));
    }
    calls
}
