//! A session, what is chosen for its next round, and posts, with the answers of "Calls and answers".

use crate::clock::Clock;
use crate::compiled::CompiledChart;
use crate::legal::{can_be_stored, is_legal};
use crate::limits::{HISTORY_PLACES, QUEUE_NAMES};
use crate::names::{is_name, slot_holds_name, slot_of, text_of, Slot, EMPTY_SLOT};
use crate::numbers::RowNumber;
use crate::row_set::RowSet;
use crate::selection::{Moment, Selection, StoredHistory};
use crate::timed::{watch_nothing, RoundRecord, Timed};

pub const ENDED: u64 = 0;
pub const RUNNING: u64 = 1;
pub const CLOSING: u64 = 2;

pub const ACCEPTED: u64 = 0;
pub const BAD_NAME: u64 = 6;
pub const QUEUE_FULL: u64 = 7;
pub const BAD_COMPILED_CHART: u64 = 8;
pub const BAD_SESSION: u64 = 9;
pub const NO_TRACE_ROOM: u64 = 10;
pub const SESSION_ENDED: u64 = 11;
pub const BAD_TICKS: u64 = 14;
pub const JOURNAL_FULL: u64 = 15;
pub const TOO_MANY_CONFIGURATIONS: u64 = 16;
pub const HAS_HISTORY: u64 = 17;

pub const STATUS_MORE: u64 = 100;
pub const STATUS_IDLE: u64 = 101;
pub const STATUS_ENDED: u64 = 102;

/// "an internal and an external queue of at most 32 names each", oldest first.
#[derive(Clone, PartialEq, Eq, Debug)]
pub struct Queue {
    pub slots: [Slot; QUEUE_NAMES],
    pub count: u64,
}

impl Queue {
    pub const EMPTY: Queue = Queue { slots: [EMPTY_SLOT; QUEUE_NAMES], count: 0 };

    /// "well-formed names in its queues and zeros in their unused places".
    pub fn is_well_formed(&self) -> bool {
        if self.count > QUEUE_NAMES as u64 {
            return false;
        }
        let (used, unused) = self.slots.split_at(self.count as usize);
        used.iter().all(|slot| slot_holds_name(slot)) && unused.iter().all(|slot| *slot == EMPTY_SLOT)
    }

    pub fn names(&self) -> Vec<Vec<u8>> {
        let used = &self.slots[..self.count as usize];
        used.iter().map(|slot| text_of(slot).unwrap_or(&[]).to_vec()).collect()
    }

    /// The queue of these names, if there is room for them.
    pub fn of(names: &[Vec<u8>]) -> Option<Queue> {
        if names.len() > QUEUE_NAMES {
            return None;
        }
        let mut queue = Queue::EMPTY;
        for (place, name) in names.iter().enumerate() {
            queue.slots[place] = slot_of(name);
        }
        queue.count = names.len() as u64;
        Some(queue)
    }
}

#[derive(Clone, PartialEq, Eq, Debug)]
pub struct Session {
    pub configuration: RowSet,
    /// One place for each row; the empty set where nothing is stored.
    pub stored: Vec<RowSet>,
    pub internal: Queue,
    pub external: Queue,
    pub mode: u64,
}

/// A session and a clock record after a call, with what the call answered and wrote. "posts take no clock
/// record" (R-9): a new one stands here for theirs.
#[derive(Clone, PartialEq, Eq, Debug)]
pub struct Answer {
    pub session: Session,
    pub clock: Clock,
    /// The answer of a start, a post or a clock call, the status of a run.
    pub number: u64,
    pub rounds: u32,
    pub trace: Vec<u32>,
}

/// Where the selected transitions of a round came from.
#[derive(Clone, PartialEq, Eq, Debug)]
pub enum Trigger {
    Eventless,
    Internal(Vec<u8>),
    External(Vec<u8>),
    Closing,
    Start,
}

impl Session {
    /// An ended session that stores nothing, spelt with zeros throughout.
    pub fn ended() -> Session {
        Session {
            configuration: RowSet::EMPTY,
            stored: vec![RowSet::EMPTY; HISTORY_PLACES],
            internal: Queue::EMPTY,
            external: Queue::EMPTY,
            mode: ENDED,
        }
    }

    /// "A well-formed session has ..."
    pub fn is_well_formed(&self, compiled: &CompiledChart) -> bool {
        self.internal.is_well_formed()
            && self.external.is_well_formed()
            && self.mode_is_right(compiled)
            && (0..HISTORY_PLACES).all(|row| self.stored_is_right(compiled, RowNumber(row)))
    }

    /// "has a legal configuration ... unless ended; is closing exactly if a final under root is
    /// active; is ended exactly if nothing is active, its queues then empty".
    fn mode_is_right(&self, compiled: &CompiledChart) -> bool {
        if self.configuration.is_empty() {
            return self.mode == ENDED && self.internal.count == 0 && self.external.count == 0;
        }
        let tree = &compiled.tree;
        if !is_legal(tree, &self.configuration) {
            return false;
        }
        let done = self.configuration.rows().any(|row| tree.is_final_under_root(row));
        self.mode == if done { CLOSING } else { RUNNING }
    }

    fn stored_is_right(&self, compiled: &CompiledChart, row: RowNumber) -> bool {
        let set = &self.stored[row.0];
        let is_history = row.0 < compiled.tree.row_count() && compiled.tree.is_history(row);
        set.is_empty() || is_history && can_be_stored(&compiled.tree, row, set)
    }

    fn answer(self, number: u64) -> Answer {
        Answer { session: self, clock: Clock::NEW, number, rounds: 0, trace: Vec::new() }
    }

    /// Start, which "ignores its session" and its clock record.
    pub fn start(self, lent: Option<&CompiledChart>, room: usize) -> Answer {
        Timed::of(self).start(lent, room, &mut watch_nothing)
    }

    /// Run, beside a new clock record.
    pub fn run(self, lent: Option<&CompiledChart>, rounds: u32, room: usize) -> Answer {
        Timed::of(self).run(lent, rounds, room, &mut watch_nothing)
    }

    /// Post. "Order: 8, 9, 6, 11, 7, 10."
    pub fn post(self, lent: Option<&CompiledChart>, name: &[u8]) -> Answer {
        let Some(compiled) = lent else {
            return self.answer(BAD_COMPILED_CHART);
        };
        if !self.is_well_formed(compiled) {
            return self.answer(BAD_SESSION);
        }
        if !is_name(name) {
            return self.answer(BAD_NAME);
        }
        if self.mode == ENDED {
            return self.answer(SESSION_ENDED);
        }
        let mut names = self.external.names();
        names.push(name.to_vec());
        match Queue::of(&names) {
            Some(external) => Session { external, ..self }.answer(ACCEPTED),
            None => self.answer(QUEUE_FULL),
        }
    }

    /// A closing session is never idle: it still has its last round.
    pub fn is_idle(&self, compiled: &CompiledChart) -> bool {
        self.mode == RUNNING && self.choose(compiled).is_none()
    }

    fn moment<'a>(&'a self, compiled: &'a CompiledChart) -> Moment<'a> {
        Moment { compiled, configuration: &self.configuration, stored: StoredHistory(&self.stored) }
    }

    /// "eventless transitions (no descriptor) first. If none is selected, the oldest internal
    /// event; if there is none, the oldest external event; if there is none, the session is idle."
    pub fn choose(&self, compiled: &CompiledChart) -> Option<(Trigger, Selection)> {
        let moment = self.moment(compiled);
        let eventless = moment.select(None);
        if !eventless.kept.is_empty() {
            return Some((Trigger::Eventless, eventless));
        }
        if let Some(name) = self.internal.names().first() {
            return Some((Trigger::Internal(name.clone()), moment.select(Some(name))));
        }
        let names = self.external.names();
        let name = names.first()?;
        Some((Trigger::External(name.clone()), moment.select(Some(name))))
    }

    /// "A taken event leaves the internal queue before new ones join."
    pub fn after(&self, record: &RoundRecord) -> Option<Session> {
        let mut internal = self.internal.names();
        let mut external = self.external.names();
        match record.trigger {
            Trigger::Internal(_) => drop(internal.remove(0)),
            Trigger::External(_) => drop(external.remove(0)),
            _ => {}
        }
        internal.extend(record.step.queued.iter().cloned());
        Some(Session {
            configuration: record.step.configuration,
            stored: record.step.stored.clone(),
            internal: Queue::of(&internal)?,
            external: Queue::of(&external)?,
            mode: if record.step.closing { CLOSING } else { RUNNING },
        })
    }
}
