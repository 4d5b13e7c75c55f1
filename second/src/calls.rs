//! Lists of calls, and what a whole list gives.

use crate::clock::Clock;
use crate::compiled::CompiledChart;
use crate::limits::HISTORY_PLACES;
use crate::numbers::RowNumber;
use crate::session::{Answer, Session};
use crate::timed::{watch_nothing, Timed, Watcher};

#[derive(Clone, PartialEq, Eq, Debug)]
pub enum Call {
    Start { room: usize },
    Post { name: Vec<u8> },
    Clock { ticks: u64 },
    Run { rounds: u32, room: usize },
}

impl Call {
    /// Does the call on a session with its clock record, under the eyes of a watcher.
    pub fn done_on(&self, timed: Timed, lent: Option<&CompiledChart>, watcher: Watcher) -> Answer {
        match self {
            Call::Start { room } => timed.start(lent, *room, watcher),
            Call::Post { name } => timed.post(lent, name),
            Call::Clock { ticks } => timed.clock(lent, *ticks),
            Call::Run { rounds, room } => timed.run(lent, *rounds, *room, watcher),
        }
    }
}

/// What one call gave, as eight lists of numbers.
#[derive(Clone, PartialEq, Eq, Debug)]
pub struct Dump {
    pub answer_and_rounds: Vec<u64>,
    pub trace: Vec<u64>,
    pub configuration: Vec<u64>,
    pub stored: Vec<u64>,
    pub internal: Vec<u64>,
    pub external: Vec<u64>,
    pub mode: Vec<u64>,
    pub clock: Vec<u64>,
}

impl Dump {
    pub fn of(answer: &Answer) -> Dump {
        let session = &answer.session;
        Dump {
            answer_and_rounds: vec![answer.number, u64::from(answer.rounds)],
            trace: answer.trace.iter().map(|&entry| u64::from(entry)).collect(),
            configuration: session.configuration.rows().map(|row| row.0 as u64).collect(),
            stored: flatten_stored(session),
            internal: flatten_names(&session.internal.names()),
            external: flatten_names(&session.external.names()),
            mode: vec![session.mode],
            clock: flatten_clock(&answer.clock),
        }
    }

    pub fn lists(&self) -> [&Vec<u64>; 8] {
        [
            &self.answer_and_rounds,
            &self.trace,
            &self.configuration,
            &self.stored,
            &self.internal,
            &self.external,
            &self.mode,
            &self.clock,
        ]
    }
}

/// For each row with something stored: the row, the count, the rows.
fn flatten_stored(session: &Session) -> Vec<u64> {
    let mut flat = Vec::new();
    for row in (0..HISTORY_PLACES).map(RowNumber) {
        let set = session.stored[row.0];
        if !set.is_empty() {
            flat.extend([row.0 as u64, set.len() as u64]);
            flat.extend(set.rows().map(|stored| stored.0 as u64));
        }
    }
    flat
}

/// For each name: its length, its bytes.
fn flatten_names(names: &[Vec<u8>]) -> Vec<u64> {
    let mut flat = Vec::new();
    for name in names {
        flat.push(name.len() as u64);
        flat.extend(name.iter().map(|&byte| u64::from(byte)));
    }
    flat
}

/// The ticks, then for each pending send: its due time, its event, its id; no id has no bytes.
fn flatten_clock(clock: &Clock) -> Vec<u64> {
    let mut flat = vec![clock.ticks];
    for send in clock.pending() {
        flat.push(send.due);
        flat.extend(flatten_names(&[send.event, send.id.unwrap_or_default()]));
    }
    flat
}

/// The dumps of a list of calls, from an ended session.
pub fn dumps(compiled: &CompiledChart, calls: &[Call]) -> Vec<Dump> {
    let mut timed = Timed::ended();
    let mut dumps = Vec::new();
    for call in calls {
        let answer = call.done_on(timed, Some(compiled), &mut watch_nothing);
        dumps.push(Dump::of(&answer));
        timed = answer.timed();
    }
    dumps
}
