//! A session with its clock record, and the calls that take both: start, run and clock. "the clock record
//! passes on like the session" (R-9).

use crate::clock::Clock;
use crate::compiled::CompiledChart;
use crate::limits::{MAX_TICKS, QUEUE_NAMES};
use crate::microstep::{Step, TraceEntry};
use crate::selection::Selection;
use crate::session::*;

#[derive(Clone, PartialEq, Eq, Debug)]
pub struct Timed {
    pub session: Session,
    pub clock: Clock,
}

/// All that one round did, before it was judged, for whoever watches.
#[derive(Clone, PartialEq, Eq, Debug)]
pub struct RoundRecord {
    pub trigger: Trigger,
    pub selection: Selection,
    pub step: Step,
}

/// Sees each worked out round: session and record before, what was done, and both after or the refusal.
pub type Watcher<'a> = &'a mut dyn FnMut(&Timed, &RoundRecord, Result<&Timed, u64>);

pub fn watch_nothing(_: &Timed, _: &RoundRecord, _: Result<&Timed, u64>) {}

impl Answer {
    pub fn timed(self) -> Timed {
        Timed { session: self.session, clock: self.clock }
    }
}

impl Timed {
    /// A session beside a new record.
    pub fn of(session: Session) -> Timed {
        Timed { session, clock: Clock::NEW }
    }

    /// Before the first start: zeros throughout.
    pub fn ended() -> Timed {
        Timed::of(Session::ended())
    }

    /// 9 is for a session or a record that is not well formed.
    pub fn is_well_formed(&self, compiled: &CompiledChart) -> bool {
        self.session.is_well_formed(compiled) && self.clock.is_well_formed(self.session.mode)
    }

    fn answer(self, number: u64) -> Answer {
        Answer { session: self.session, clock: self.clock, number, rounds: 0, trace: Vec::new() }
    }

    /// Start. It "ignores its session", and "any start, refused too, first sets [the clock] to 0 and drops
    /// whatever was pending". "Whatever the table says of the session, a refused start (7, 8, 10) hands
    /// back an ended session with no stored history and an unchanged trace."
    pub fn start(self, lent: Option<&CompiledChart>, room: usize, watcher: Watcher) -> Answer {
        let Some(compiled) = lent else {
            return Timed::ended().answer(BAD_COMPILED_CHART);
        };
        let empty = Timed::of(Session { mode: RUNNING, ..Session::ended() });
        let step = Step::from(empty.session.configuration, &empty.session.stored).start(compiled);
        let record = RoundRecord { trigger: Trigger::Start, selection: Selection::default(), step };
        let judged = empty.judge(&record, room);
        watcher(&empty, &record, judged.as_ref().map_err(|&refusal| refusal));
        match judged {
            Ok(timed) => Answer { trace: numbers_of(&record.step.trace), ..timed.answer(ACCEPTED) },
            Err(refusal) => Timed::ended().answer(refusal),
        }
    }

    /// Post. "posts take no clock record".
    pub fn post(self, lent: Option<&CompiledChart>, name: &[u8]) -> Answer {
        Answer { clock: self.clock, ..self.session.post(lent, name) }
    }

    /// Clock. "one earlier than the last or over 2^62 is new refusal 14, after 11 (an ended session), and
    /// changes nothing."
    pub fn clock(self, lent: Option<&CompiledChart>, ticks: u64) -> Answer {
        let Some(compiled) = lent else {
            return self.answer(BAD_COMPILED_CHART);
        };
        if !self.is_well_formed(compiled) {
            return self.answer(BAD_SESSION);
        }
        if self.session.mode == ENDED {
            return self.answer(SESSION_ENDED);
        }
        if ticks < self.clock.ticks || ticks > MAX_TICKS {
            return self.answer(BAD_TICKS);
        }
        let mut names = self.session.external.names();
        let (joining, clock) = self.clock.joining(ticks, QUEUE_NAMES - names.len());
        names.extend(joining);
        let external = Queue::of(&names).expect("no more join than the queue has room for");
        Timed { session: Session { external, ..self.session }, clock }.answer(ACCEPTED)
    }

    /// Run. "It stops when that number is done, or earlier at idle, ended or a refused round."
    pub fn run(self, lent: Option<&CompiledChart>, rounds: u32, room: usize, watcher: Watcher) -> Answer {
        let Some(compiled) = lent else {
            return self.answer(BAD_COMPILED_CHART);
        };
        if !self.is_well_formed(compiled) {
            return self.answer(BAD_SESSION);
        }
        let mut now = self;
        let (mut done, mut trace, mut refusal) = (0, Vec::new(), None);
        while done < rounds && refusal.is_none() {
            let Some(record) = now.work_out_round(compiled) else { break };
            let judged = now.judge(&record, room - trace.len());
            watcher(&now, &record, judged.as_ref().map_err(|&refusal| refusal));
            match judged {
                Ok(after) => {
                    now = after;
                    done += 1;
                    trace.extend(numbers_of(&record.step.trace));
                }
                Err(number) => refusal = Some(number),
            }
        }
        let status = now.status(compiled, refusal);
        Answer { rounds: done, trace, ..now.answer(status) }
    }

    /// "Its status: ... ended; else idle if running with nothing left to choose; else the refusal,
    /// if fewer were done than asked; else more." Pending sends leave a session idle.
    fn status(&self, compiled: &CompiledChart, refusal: Option<u64>) -> u64 {
        if self.session.mode == ENDED {
            STATUS_ENDED
        } else if self.session.is_idle(compiled) {
            STATUS_IDLE
        } else {
            refusal.unwrap_or(STATUS_MORE)
        }
    }

    /// The next round, worked out to its end; nothing if the session is ended or idle.
    fn work_out_round(&self, compiled: &CompiledChart) -> Option<RoundRecord> {
        let session = &self.session;
        let step = Step::from(session.configuration, &session.stored);
        match session.mode {
            RUNNING => {
                let (trigger, selection) = session.choose(compiled)?;
                let step = step.take(compiled, &selection.kept);
                Some(RoundRecord { trigger, selection, step })
            }
            CLOSING => Some(RoundRecord {
                trigger: Trigger::Closing,
                selection: Selection::default(),
                step: step.close(compiled),
            }),
            _ => None,
        }
    }

    /// Session and record after the round, or its refusal. A full queue or table is told before a full
    /// trace; "a closing round's sends are only shown".
    fn judge(&self, record: &RoundRecord, room: usize) -> Result<Timed, u64> {
        let after = match record.trigger {
            Trigger::Closing => Timed {
                session: Session { stored: self.session.stored.clone(), ..Session::ended() },
                clock: self.clock.emptied(),
            },
            _ => Timed {
                session: self.session.after(record).ok_or(QUEUE_FULL)?,
                clock: self.clock.after(&record.step.timings).ok_or(QUEUE_FULL)?,
            },
        };
        if record.step.trace.len() > room {
            return Err(NO_TRACE_ROOM);
        }
        Ok(after)
    }
}

fn numbers_of(trace: &[TraceEntry]) -> Vec<u32> {
    trace.iter().map(|entry| entry.number()).collect()
}
