//! A follower that remembers: it keeps its entries as a list, and beside each what it left and wrote. To step
//! back it recalls that, and replays nothing. It follows lists from an ended session on, so that 8 and 9 are
//! never due.

use crate::calls::Call;
use crate::compiled::CompiledChart;
use crate::journal::Entry;
use crate::limits::{MAX_ENTRIES, MAX_TICKS};
use crate::names::is_name;
use crate::recorded_calls::RecordedCall;
use crate::session::*;
use crate::timed::{watch_nothing, Timed};

/// What the accepted start or an entry left and wrote.
#[derive(Clone, PartialEq, Eq, Debug)]
pub struct Snapshot {
    pub entry: Option<Entry>,
    pub timed: Timed,
    pub trace: Vec<u32>,
}

pub struct Remembering<'a> {
    compiled: &'a CompiledChart,
    pub now: Timed,
    /// The accepted start and the entries since; nothing, if no start was accepted.
    pub kept: Vec<Snapshot>,
}

impl<'a> Remembering<'a> {
    pub fn new(compiled: &'a CompiledChart) -> Remembering<'a> {
        Remembering { compiled, now: Timed::ended(), kept: Vec::new() }
    }

    pub fn entries(&self) -> Vec<Entry> {
        self.kept.iter().filter_map(|snapshot| snapshot.entry.clone()).collect()
    }

    /// Whether a post, clock call or run that could be entered finds no place.
    fn is_full(&self) -> bool {
        self.kept.len() == MAX_ENTRIES + 1
    }

    pub fn call(&mut self, call: &RecordedCall) -> Answer {
        let answer = match call {
            RecordedCall::Call(call) => self.call_and_keep(call),
            RecordedCall::StepBack { room } => self.step_back(*room),
        };
        self.now = answer.clone().timed();
        answer
    }

    fn call_and_keep(&mut self, call: &Call) -> Answer {
        if self.is_full() && self.could_be_entered(call) {
            return self.answer(JOURNAL_FULL, Vec::new());
        }
        if let Call::Start { .. } = call {
            self.kept.clear();
        }
        let was_ended = self.now.session.mode == ENDED;
        let answer = call.done_on(self.now.clone(), Some(self.compiled), &mut watch_nothing);
        let entry = match call {
            Call::Post { name } => Some(Entry::Post(name.clone())),
            Call::Clock { ticks } => Some(Entry::Clock(*ticks)),
            Call::Run { .. } => Some(Entry::Run(u64::from(answer.rounds))),
            Call::Start { .. } => None,
        };
        let kept = match call {
            Call::Run { .. } => !was_ended,
            _ => answer.number == ACCEPTED,
        };
        if kept {
            self.kept.push(Snapshot { entry, timed: answer.clone().timed(), trace: answer.trace.clone() });
        }
        answer
    }

    /// Nothing that is told before 15 refuses the call.
    fn could_be_entered(&self, call: &Call) -> bool {
        let lives = self.now.session.mode != ENDED;
        match call {
            Call::Start { .. } => false,
            Call::Post { name } => lives && is_name(name),
            Call::Clock { ticks } => lives && (self.now.clock.ticks..=MAX_TICKS).contains(ticks),
            Call::Run { .. } => lives,
        }
    }

    fn step_back(&mut self, room: usize) -> Answer {
        let Some(Snapshot { timed, trace, .. }) = self.kept.iter().rev().nth(1).cloned() else {
            return self.answer(ACCEPTED, Vec::new());
        };
        if trace.len() > room {
            return self.answer(NO_TRACE_ROOM, Vec::new());
        }
        self.kept.pop();
        self.now = timed;
        self.answer(ACCEPTED, trace)
    }

    fn answer(&self, number: u64, trace: Vec<u32>) -> Answer {
        let Timed { session, clock } = self.now.clone();
        Answer { session, clock, number, rounds: 0, trace }
    }
}
