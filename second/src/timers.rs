//! The sends and cancels of a round worked out once more, from its trace: each pending send by itself,
//! from its sending to what takes it.

use crate::clock::{Clock, Pending, Timing};
use crate::coverage::Coverage;
use crate::invariants::{ensure, Found};
use crate::limits::MAX_PENDING;
use crate::microstep::{Step, TraceEntry};
use crate::tables::Chart;

pub struct Timers<'a> {
    pub chart: &'a Chart,
    pub before: &'a Clock,
    pub step: &'a Step,
}

/// A send that was pending or was sent in the round, and where in the round it was sent and taken.
struct Life {
    send: Pending,
    from: usize,
    to: Option<usize>,
}

impl Timers<'_> {
    /// All sends, with the first cancel of an equal id behind each.
    fn lives(&self) -> Vec<Life> {
        let timings = &self.step.timings;
        let taken = |from: usize, id: &Option<Vec<u8>>| {
            (from..timings.len()).find(|&place| match (&timings[place], id) {
                (Timing::Cancel { id: taken }, Some(id)) => taken == id,
                _ => false,
            })
        };
        let before = self.before.pending().into_iter();
        let mut lives: Vec<Life> =
            before.map(|send| Life { to: taken(0, &send.id), send, from: 0 }).collect();
        for (place, timing) in timings.iter().enumerate() {
            if let Timing::Send { event, delay, id } = timing {
                let send = Pending { due: self.before.ticks + delay, event: event.clone(), id: id.clone() };
                lives.push(Life { to: taken(place, &send.id), send, from: place + 1 });
            }
        }
        lives
    }

    /// How many are pending once so many sends and cancels are done.
    fn pending_after(&self, lives: &[Life], done: usize) -> usize {
        lives.iter().filter(|life| life.from <= done && life.to.is_none_or(|to| to >= done)).count()
    }

    /// Whether more than 32 are pending at any moment.
    pub fn is_full(&self) -> bool {
        let lives = self.lives();
        (0..=self.step.timings.len()).any(|done| self.pending_after(&lives, done) > MAX_PENDING)
    }

    /// The record that the completed round leaves.
    pub fn left_right(&self, closing: bool, after: &Clock) -> Found {
        self.shown_right()?;
        ensure(after.ticks == self.before.ticks, "no round moves the clock")?;
        let lives = self.lives().into_iter().filter(|life| life.to.is_none() && !closing);
        let left: Vec<Pending> = lives.map(|life| life.send).collect();
        ensure(after.pending() == left, "what was sent and not cancelled is pending, in order of sending")
    }

    /// Each send and cancel has its entry, "with its name's number".
    fn shown_right(&self) -> Found {
        let shown = self.step.trace.iter().filter_map(|entry| match *entry {
            TraceEntry::Sent(name) => Some((8, self.chart.name(name))),
            TraceEntry::Cancelled(name) => Some((9, self.chart.name(name))),
            _ => None,
        });
        let done = self.step.timings.iter().map(|timing| match timing {
            Timing::Send { event, .. } => (8, &event[..]),
            Timing::Cancel { id } => (9, &id[..]),
        });
        ensure(shown.eq(done), "each send and cancel is shown, in order")
    }

    pub fn count(&self, closing: bool, coverage: &mut Coverage) {
        let timings = &self.step.timings;
        coverage.note_if("rounds or starts with sends or cancels", !timings.is_empty());
        coverage.note_if("closing rounds with sends or cancels", closing && !timings.is_empty());
        coverage.note_if("sessions that end with pending sends", closing && self.before.count > 0);
        let lives = self.lives();
        let sent = lives.iter().filter(|life| life.from > 0).count();
        coverage.add("sends", sent as u64);
        let with_id = lives.iter().filter(|life| life.from > 0 && life.send.id.is_some()).count();
        coverage.add("sends with an id", with_id as u64);
        coverage.add("cancels", (timings.len() - sent) as u64);
        let taken = |same_round: bool| {
            lives.iter().filter(|life| life.to.is_some() && (life.from > 0) == same_round).count() as u64
        };
        coverage.add("sends that a later round cancels", taken(false));
        coverage.add("sends that their own round cancels", taken(true));
        let most = (0..=timings.len()).map(|done| self.pending_after(&lives, done)).max().unwrap_or(0);
        coverage.note_if("rounds with 32 pending sends", most == MAX_PENDING);
        let at_end = self.pending_after(&lives, timings.len());
        coverage.note_if("full tables that a later cancel would empty", most > MAX_PENDING && at_end < most);
    }
}
