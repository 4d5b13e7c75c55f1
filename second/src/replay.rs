//! Replay (R-10): "From the compiled chart and the first k entries, replay gives exactly the session and the
//! clock record after entry k and the trace that entry k wrote". What is possible is asked of each entry in
//! the documents' words, not of the calls; rounds are done one by one, and those that come round again are
//! counted and not done.

use crate::compiled::CompiledChart;
use crate::journal::{Entry, Journal};
use crate::limits::{MAX_ENTRIES, MAX_ROUNDS, MAX_TICKS, QUEUE_NAMES};
use crate::session::*;
use crate::timed::{watch_nothing, Timed};

/// Session and clock record after entry k, and the trace that it wrote.
#[derive(Clone, PartialEq, Eq, Debug)]
pub struct Replayed {
    pub timed: Timed,
    pub trace: Vec<u32>,
}

/// What wrote last.
#[derive(Clone, Debug)]
enum Writer {
    Start,
    /// A post or a clock call.
    Nothing,
    Run {
        before: Box<Timed>,
        rounds: u64,
    },
}

/// Where entries have led, and how many entries of trace the last of them wrote.
#[derive(Clone, Debug)]
struct Stand {
    timed: Timed,
    writer: Writer,
    written: u128,
}

/// Replay, or its refusal. "Too little trace room is 10; first k entries that no started session leaves, a chart
/// whose start gives 7, or too large a k, are 9".
pub fn replay(lent: Option<&CompiledChart>, journal: &Journal, k: u64, room: usize) -> Result<Replayed, u64> {
    let compiled = lent.ok_or(BAD_COMPILED_CHART)?;
    let (stand, _) = walk(compiled, journal, k);
    stand.ok_or(BAD_SESSION)?.shown(compiled, room).ok_or(NO_TRACE_ROOM)
}

/// How many rounds the first k entries are, as far as they are possible.
pub fn rounds_of(compiled: &CompiledChart, journal: &Journal, k: u64) -> u64 {
    walk(compiled, journal, k).1
}

/// Where the first k entries lead, if a started session can have left them, and the rounds on the way.
fn walk(compiled: &CompiledChart, journal: &Journal, k: u64) -> (Option<Stand>, u64) {
    let mut rounds = 0;
    if journal.count() > MAX_ENTRIES as u64 || k > journal.count() {
        return (None, rounds);
    }
    let mut stand = Stand::started(compiled);
    for place in 0..k as usize {
        let Some(before) = stand else { break };
        let entry = Entry::read(journal.entry(place));
        stand = entry.and_then(|entry| before.after(compiled, &entry, &mut rounds));
    }
    (stand, rounds)
}

impl Stand {
    /// "0 is the accepted start": with room enough it is refused with 7 or not at all.
    fn started(compiled: &CompiledChart) -> Option<Stand> {
        let answer = Timed::ended().start(Some(compiled), usize::MAX, &mut watch_nothing);
        let written = answer.trace.len() as u128;
        (answer.number == ACCEPTED).then(|| Stand { timed: answer.timed(), writer: Writer::Start, written })
    }

    /// What one more entry leads to, if it is possible here.
    fn after(self, compiled: &CompiledChart, entry: &Entry, rounds: &mut u64) -> Option<Stand> {
        if self.timed.session.mode == ENDED {
            return None;
        }
        let silent = |timed| Stand { timed, writer: Writer::Nothing, written: 0 };
        match *entry {
            Entry::Post(ref name) => posted(self.timed, name).map(silent),
            Entry::Clock(ticks) => clocked(self.timed, ticks).map(silent),
            Entry::Run(asked) => {
                let lap = Lap::of(compiled, self.timed.clone(), asked);
                *rounds += lap.done;
                let writer = Writer::Run { before: Box::new(self.timed), rounds: asked };
                (lap.done == asked).then_some(Stand { timed: lap.timed, writer, written: lap.written })
            }
        }
    }

    /// The trace is written only where it fits.
    fn shown(self, compiled: &CompiledChart, room: usize) -> Option<Replayed> {
        if self.written > room as u128 {
            return None;
        }
        let again = match self.writer {
            Writer::Nothing => return Some(Replayed { timed: self.timed, trace: Vec::new() }),
            Writer::Start => Timed::ended().start(Some(compiled), room, &mut watch_nothing),
            Writer::Run { before, rounds } => {
                before.run(Some(compiled), rounds as u32, room, &mut watch_nothing)
            }
        };
        assert_eq!(again.trace.len() as u128, self.written, "what was counted is written");
        assert!(again.clone().timed() == self.timed, "one run and rounds one by one lead to one session");
        Some(Replayed { trace: again.trace, timed: self.timed })
    }
}

/// "a post puts its name last in the external queue"; the queue has room for it.
fn posted(timed: Timed, name: &[u8]) -> Option<Timed> {
    let mut names = timed.session.external.names();
    names.push(name.to_vec());
    let external = Queue::of(&names)?;
    Some(Timed { session: Session { external, ..timed.session }, ..timed })
}

/// A clock neither earlier than the last nor over 2^62.
fn clocked(timed: Timed, ticks: u64) -> Option<Timed> {
    if ticks < timed.clock.ticks || ticks > MAX_TICKS {
        return None;
    }
    let mut names = timed.session.external.names();
    let (joining, clock) = timed.clock.joining(ticks, QUEUE_NAMES - names.len());
    names.extend(joining);
    let external = Queue::of(&names)?;
    Some(Timed { session: Session { external, ..timed.session }, clock })
}

/// Rounds one after the other, with as much room as they need.
struct Lap {
    timed: Timed,
    done: u64,
    written: u128,
}

/// The first rounds after which a session is remembered.
const FIRST_REMEMBERED: u64 = 32;

impl Lap {
    /// As many of the rounds asked for as are completed; none, if no run may be asked for so many.
    fn of(compiled: &CompiledChart, timed: Timed, asked: u64) -> Lap {
        let mut now = Lap { timed, done: 0, written: 0 };
        if asked > MAX_ROUNDS {
            return now;
        }
        let mut remembered = (now.timed.clone(), 0, 0);
        let mut forget_at = FIRST_REMEMBERED;
        while now.done < asked && now.round(compiled) {
            let (ref timed, done, written) = remembered;
            if now.timed == *timed {
                now.come_round(asked, now.done - done, now.written - written);
            } else if now.done == forget_at {
                remembered = (now.timed.clone(), now.done, now.written);
                forget_at *= 2;
            }
        }
        now
    }

    /// One round more, unless the session is idle, ended or refused.
    fn round(&mut self, compiled: &CompiledChart) -> bool {
        let answer = self.timed.clone().run(Some(compiled), 1, usize::MAX, &mut watch_nothing);
        let completed = answer.rounds == 1;
        self.done += u64::from(answer.rounds);
        self.written += answer.trace.len() as u128;
        self.timed = answer.timed();
        completed
    }

    /// So many rounds, which write so much, lead to where they began: all but the last few are counted.
    fn come_round(&mut self, asked: u64, rounds: u64, written: u128) {
        let times = (asked - self.done) / rounds;
        self.done += times * rounds;
        self.written += u128::from(times) * written;
    }
}
