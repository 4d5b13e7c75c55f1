//! The session and its calls.

use super::answers::*;
use super::chart::{Chart, Index};
use super::clock::Clock;
use super::limits::{MOST_ROWS, MOST_TICKS, QUEUE_BYTES, QUEUE_NAMES, WORDS};
use super::names::{done_name, is_name, Slot, SLOT};
use super::round::{Beside, Queued, Round, DRAFT};
use super::row_set::RowSet;
use super::selection::{Selection, Trigger};

pub(super) const MODE_ENDED: u64 = 0;
pub(super) const MODE_RUNNING: u64 = 1;
pub(super) const MODE_CLOSING: u64 = 2;

/// In the order in which C has it: the numbers, then the queues.
#[repr(C)]
#[derive(Clone, Copy, PartialEq, Eq, Debug)]
pub struct Session {
    pub configuration: [u64; WORDS],
    /// A set for each row that there may be.
    pub history: [u64; MOST_ROWS * WORDS],
    pub internal_count: u64,
    pub external_count: u64,
    pub mode: u64,
    /// 32 slots, the oldest name first, zeros behind the last.
    pub internal: [u8; QUEUE_BYTES],
    pub external: [u8; QUEUE_BYTES],
}

#[repr(C)]
#[derive(Clone, Copy, PartialEq, Eq, Debug)]
pub struct Started {
    pub answer: u32,
    pub count: usize,
}

#[repr(C)]
#[derive(Clone, Copy, PartialEq, Eq, Debug)]
pub struct Ran {
    pub status: u32,
    pub rounds: u32,
    pub count: usize,
}

/// A post and a run behind it.
#[repr(C)]
#[derive(Clone, Copy, PartialEq, Eq, Debug)]
pub struct Stepped {
    pub answer: u32,
    pub status: u32,
    pub rounds: u32,
    pub count: usize,
}

impl Ran {
    fn refused(status: u32) -> Ran {
        Ran { status, rounds: 0, count: 0 }
    }
}

impl Session {
    pub const ENDED: Session = Session {
        configuration: [0; WORDS],
        history: [0; MOST_ROWS * WORDS],
        internal_count: 0,
        external_count: 0,
        mode: MODE_ENDED,
        internal: [0; QUEUE_BYTES],
        external: [0; QUEUE_BYTES],
    };

    // The calls, which change the session and the clock record where they are

    pub fn start(&mut self, clock: &mut Clock, numbers: &[u64], names: &[u8], trace: &mut [u32]) -> Started {
        *self = Session::ENDED;
        *clock = Clock::NEW;
        let refused = |answer| Started { answer, count: 0 };
        let mut index = Index::BLANK;
        let Some(chart) = Chart::open(numbers, names, &mut index) else { return refused(BAD_CHART) };
        let mut draft = [0; DRAFT];
        let mut round = Round::over(&mut draft);
        let beside = Beside { chart: &chart, clock };
        round.start(beside);
        if round.queued > QUEUE_NAMES || round.timers.full {
            return refused(FULL);
        }
        let Some(place) = trace.get_mut(..round.count) else { return refused(NO_ROOM) };
        match round.entries() {
            Some(entries) => place.copy_from_slice(entries),
            None => Round::over(place).start(beside),
        }
        self.move_on(&chart, &round);
        round.timers.apply(chart.tables.names, clock);
        Started { answer: DONE, count: round.count }
    }

    pub fn post(&mut self, numbers: &[u64], names: &[u8], name: &[u8]) -> u32 {
        let mut index = Index::BLANK;
        match Chart::open(numbers, names, &mut index) {
            None => BAD_CHART,
            Some(chart) if !self.is_well_formed(&chart) => BAD_SESSION,
            Some(_) => self.post_known(name),
        }
    }

    pub fn run(
        &mut self,
        clock: &mut Clock,
        numbers: &[u64],
        names: &[u8],
        rounds: u32,
        trace: &mut [u32],
    ) -> Ran {
        let mut index = Index::BLANK;
        match Chart::open(numbers, names, &mut index) {
            None => Ran::refused(BAD_CHART),
            Some(chart) if !self.is_timed_well(clock, &chart) => Ran::refused(BAD_SESSION),
            Some(chart) => self.run_known(clock, &chart, rounds, trace),
        }
    }

    /// The host gives the clock: what is due joins the external queue.
    pub fn clock(&mut self, clock: &mut Clock, numbers: &[u64], names: &[u8], ticks: u64) -> u32 {
        let mut index = Index::BLANK;
        match Chart::open(numbers, names, &mut index) {
            None => return BAD_CHART,
            Some(chart) if !self.is_timed_well(clock, &chart) => return BAD_SESSION,
            Some(_) => {}
        }
        if self.mode == MODE_ENDED {
            return SESSION_ENDED;
        }
        if ticks < clock.ticks || ticks > MOST_TICKS {
            return BAD_TICKS;
        }
        let slots: &mut [Slot] = self.external.as_chunks_mut().0;
        let waiting = self.external_count as usize;
        self.external_count += clock.move_on(ticks, &mut slots[waiting..]) as u64;
        DONE
    }

    fn is_timed_well(&self, clock: &Clock, chart: &Chart) -> bool {
        self.is_well_formed(chart) && clock.is_well_formed(self.mode)
    }

    /// One call for an event: a post, and then a run, whatever the post answers. Chart and session
    /// are checked once; a post takes no clock record.
    pub fn step(
        &mut self,
        clock: &mut Clock,
        numbers: &[u64],
        names: &[u8],
        name: &[u8],
        rounds: u32,
        trace: &mut [u32],
    ) -> Stepped {
        let mut index = Index::BLANK;
        let (answer, ran) = match Chart::open(numbers, names, &mut index) {
            None => (BAD_CHART, Ran::refused(BAD_CHART)),
            Some(chart) if !self.is_well_formed(&chart) => (BAD_SESSION, Ran::refused(BAD_SESSION)),
            Some(chart) => {
                let answer = self.post_known(name);
                match clock.is_well_formed(self.mode) {
                    true => (answer, self.run_known(clock, &chart, rounds, trace)),
                    false => (answer, Ran::refused(BAD_SESSION)),
                }
            }
        };
        Stepped { answer, status: ran.status, rounds: ran.rounds, count: ran.count }
    }

    /// To a well-formed session.
    fn post_known(&mut self, name: &[u8]) -> u32 {
        if !is_name(name) {
            return BAD_NAME;
        }
        if self.mode == MODE_ENDED {
            return SESSION_ENDED;
        }
        if self.external_count == QUEUE_NAMES as u64 {
            return FULL;
        }
        let slot = self.external_count as usize * SLOT;
        self.external[slot..slot + name.len()].copy_from_slice(name);
        self.external_count += 1;
        DONE
    }

    /// Of a well-formed session and record.
    fn run_known(&mut self, clock: &mut Clock, chart: &Chart, rounds: u32, trace: &mut [u32]) -> Ran {
        let mut selection = Selection::none();
        let mut draft = [0; DRAFT];
        let mut round = Round::over(&mut draft);
        let mut done = 0;
        let mut count = 0;
        let status = loop {
            let trigger = match self.mode {
                MODE_ENDED => break ENDED,
                MODE_CLOSING => Trigger::Closing,
                _ => match selection.choose(chart, self) {
                    Some(trigger) => trigger,
                    None => break IDLE,
                },
            };
            if done == rounds {
                break MORE;
            }
            let beside = Beside { chart, clock };
            if trigger == Trigger::Closing {
                round.close(beside, self);
            } else {
                round.take(beside, self, &selection);
                let left = self.internal_count as usize - usize::from(trigger == Trigger::Internal);
                if left + round.queued > QUEUE_NAMES || round.timers.full {
                    break FULL;
                }
            }
            let Some(place) = trace[count..].get_mut(..round.count) else { break NO_ROOM };
            match round.entries() {
                Some(entries) => place.copy_from_slice(entries),
                None if trigger == Trigger::Closing => Round::over(place).close(beside, self),
                None => Round::over(place).take(beside, self, &selection),
            }
            count += round.count;
            done += 1;
            match trigger {
                Trigger::Closing => {
                    *self = Session { history: self.history, ..Session::ENDED };
                    clock.empty();
                }
                _ => {
                    self.take_event(trigger);
                    self.store(chart, selection.exits);
                    self.move_on(chart, &round);
                    round.timers.apply(chart.tables.names, clock);
                }
            }
        };
        Ran { status, rounds: done, count }
    }

    // What a round reads of the session

    #[inline]
    pub fn configuration(&self) -> RowSet {
        RowSet(self.configuration)
    }

    /// What a history has stored, the empty set for nothing.
    #[inline]
    pub fn stored(&self, history: usize) -> RowSet {
        RowSet(self.history.as_chunks().0[history])
    }

    #[inline]
    pub fn first_internal(&self) -> Option<&Slot> {
        (self.internal_count > 0).then(|| self.internal.first_chunk()).flatten()
    }

    #[inline]
    pub fn first_external(&self) -> Option<&Slot> {
        (self.external_count > 0).then(|| self.external.first_chunk()).flatten()
    }

    // What it changes

    fn take_event(&mut self, trigger: Trigger) {
        match trigger {
            Trigger::Internal => take_first(&mut self.internal, &mut self.internal_count),
            Trigger::External => take_first(&mut self.external, &mut self.external_count),
            Trigger::Eventless | Trigger::Closing => {}
        }
    }

    /// Each exited owner of a history stores what was active.
    fn store(&mut self, chart: &Chart, exits: RowSet) {
        for history in chart.kinds().histories.rows() {
            if exits.contains(chart.parent(history)) {
                let set = chart.to_store(self.configuration(), history);
                self.history.as_chunks_mut().0[history] = set.0;
            }
        }
    }

    /// The configuration that the round has reached, and the names that it has raised.
    fn move_on(&mut self, chart: &Chart, round: &Round) {
        self.configuration = round.configuration.0;
        self.mode = if round.closing { MODE_CLOSING } else { MODE_RUNNING };
        let slots: &mut [Slot] = self.internal.as_chunks_mut().0;
        for name in round.names() {
            slots[self.internal_count as usize] = match name {
                Queued::Raised(name) => chart.tables.names[name],
                Queued::DoneOf(row) => done_name(chart.tables.id(row)),
            };
            self.internal_count += 1;
        }
    }
}

/// The oldest name leaves, the others move up.
fn take_first(queue: &mut [u8; QUEUE_BYTES], count: &mut u64) {
    let used = *count as usize * SLOT;
    queue.copy_within(SLOT..used, 0);
    queue[used - SLOT..used].fill(0);
    *count -= 1;
}
