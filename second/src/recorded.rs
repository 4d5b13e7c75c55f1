//! A session with its clock record and its journal, and the calls that enter into it.

use crate::compiled::CompiledChart;
use crate::journal::{Entry, Journal};
use crate::limits::MAX_ENTRIES;
use crate::replay::{replay, Replayed};
use crate::session::*;
use crate::timed::{watch_nothing, Timed};

#[derive(Clone, PartialEq, Eq, Debug)]
pub struct Recorded {
    pub timed: Timed,
    pub journal: Journal,
}

/// What a call answered and wrote, with session, clock record and journal after it.
#[derive(Clone, PartialEq, Eq, Debug)]
pub struct RecordedAnswer {
    pub answer: Answer,
    pub journal: Journal,
}

/// "the order is now 8, 9, 6, 11, 14, 15, 7, 10".
pub const ORDER: [u64; 8] = [
    BAD_COMPILED_CHART,
    BAD_SESSION,
    BAD_NAME,
    SESSION_ENDED,
    BAD_TICKS,
    JOURNAL_FULL,
    QUEUE_FULL,
    NO_TRACE_ROOM,
];

impl RecordedAnswer {
    pub fn recorded(self) -> Recorded {
        Recorded { timed: self.answer.timed(), journal: self.journal }
    }
}

impl Recorded {
    /// Before the first start: zeros throughout.
    pub fn ended() -> Recorded {
        Recorded { timed: Timed::ended(), journal: Journal::empty() }
    }

    /// Leaves all.
    fn answer(self, number: u64) -> RecordedAnswer {
        let Timed { session, clock } = self.timed;
        let answer = Answer { session, clock, number, rounds: 0, trace: Vec::new() };
        RecordedAnswer { answer, journal: self.journal }
    }

    /// "any start, refused too, empties it first".
    pub fn start(self, lent: Option<&CompiledChart>, room: usize) -> RecordedAnswer {
        let journal = self.journal.counting(0);
        RecordedAnswer { answer: self.timed.start(lent, room, &mut watch_nothing), journal }
    }

    pub fn post(self, lent: Option<&CompiledChart>, name: &[u8]) -> RecordedAnswer {
        let given = self.timed.clone().post(lent, name);
        self.unless_refused(given, |_| Entry::Post(name.to_vec()))
    }

    pub fn clock(self, lent: Option<&CompiledChart>, ticks: u64) -> RecordedAnswer {
        let given = self.timed.clone().clock(lent, ticks);
        self.unless_refused(given, |_| Entry::Clock(ticks))
    }

    /// "A run stopped by refusal 7 or 10 is entered with its completed rounds."
    pub fn run(self, lent: Option<&CompiledChart>, rounds: u32, room: usize) -> RecordedAnswer {
        let given = self.timed.clone().run(lent, rounds, room, &mut watch_nothing);
        self.unless_refused(given, |answer| Entry::Run(u64::from(answer.rounds)))
    }

    /// What a post, a clock call or a run gives beside the journal, unless that refuses it, and its entry. Of all
    /// that refuses the call the first in order is told; a run that 7 or 10 has stopped is no refused one.
    fn unless_refused(self, given: Answer, entry: impl Fn(&Answer) -> Entry) -> RecordedAnswer {
        let count = self.journal.count();
        let is_run = matches!(entry(&given), Entry::Run(_));
        let of_ended = is_run && self.timed.session.mode == ENDED;
        let refuses = |number: u64| match number {
            BAD_SESSION => given.number == number || count > MAX_ENTRIES as u64,
            JOURNAL_FULL => count == MAX_ENTRIES as u64 && !of_ended,
            QUEUE_FULL | NO_TRACE_ROOM => given.number == number && !is_run,
            _ => given.number == number,
        };
        if let Some(refusal) = ORDER.into_iter().find(|&number| refuses(number)) {
            return self.answer(refusal);
        }
        let journal = if of_ended { self.journal } else { self.journal.entered(&entry(&given)) };
        RecordedAnswer { answer: given, journal }
    }

    /// "Stepping back one is replay to its length less one (at 0, nothing changes), and the last entry is
    /// dropped".
    pub fn step_back(self, lent: Option<&CompiledChart>, room: usize) -> RecordedAnswer {
        let Some(before) = self.journal.count().checked_sub(1) else {
            return self.answer(if lent.is_some() { ACCEPTED } else { BAD_COMPILED_CHART });
        };
        match replay(lent, &self.journal, before, room) {
            Ok(Replayed { timed, trace }) => {
                let left = Recorded { timed, journal: self.journal.counting(before) }.answer(ACCEPTED);
                RecordedAnswer { answer: Answer { trace, ..left.answer }, ..left }
            }
            Err(refusal) => self.answer(refusal),
        }
    }
}
