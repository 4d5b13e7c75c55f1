//! A chart with a session, its clock record and its journal, on which calls are done one after the other, each held
//! to a line that was worked out by hand.

use super::answers::compiled;
use crate::builder::{Builder, Do};
use crate::clock::Clock;
use crate::compiled::CompiledChart;
use crate::invariants::{ensure, Found};
use crate::journal::{Entry, Journal};
use crate::recorded::{Recorded, RecordedAnswer};
use crate::recorded_calls::RecordedCall;
use crate::replay::replay;
use crate::session::{Session, ENDED};
use crate::tables::Chart;

pub struct Desk {
    pub chart: CompiledChart,
    pub now: Recorded,
}

/// Rows 1 s, 2 t, 3 m, 4 f (final under root). From s, e leads to t (transition 0), whose entry sends x (slot 4) in 5
/// ticks; many (1) raises 33 names on its way to m, which is refused with 7; go (2) leads to f. From t, e (3)
/// and x (4) lead back to s.
pub fn timer() -> Chart {
    let mut b = Builder::new();
    b.state("", "s").state("", "t").state("", "m").final_("", "f");
    b.on_entry("t", &[Do::Send("x", 5, "")]).on_entry("m", &[Do::Raise("r")]);
    b.on("s", "e", "t").on("s", "many", "m").doing(&[Do::Raise("r"); 32]).on("s", "go", "f");
    b.on("t", "e", "s").on("t", "x", "s");
    b.chart()
}

/// A chart whose start raises 33 names: 7.
pub fn no_start() -> Chart {
    let mut b = Builder::new();
    b.state("", "a").state("a", "b").on_entry("a", &[Do::Raise("r"); 32]).on_entry("b", &[Do::Raise("r")]);
    b.chart()
}

pub fn step_back() -> RecordedCall {
    RecordedCall::StepBack { room: 200 }
}

pub fn entry_post(name: &str) -> Entry {
    Entry::Post(name.as_bytes().to_vec())
}

impl Desk {
    pub fn new(chart: &Chart) -> Desk {
        Desk { chart: compiled(chart), now: Recorded::ended() }
    }

    /// A started session, with these entries in its journal instead of what it did.
    pub fn with_entries(chart: &Chart, entries: &[Entry]) -> Desk {
        let mut desk = Desk::new(chart);
        desk.now = desk.now.start(Some(&desk.chart), 200).recorded();
        desk.now.journal = Journal::of(entries);
        desk
    }

    pub fn call(&mut self, call: impl Into<RecordedCall>) -> RecordedAnswer {
        let given = call.into().done_on(self.now.clone(), Some(&self.chart));
        self.now = given.clone().recorded();
        given
    }

    /// Does a call, and holds what it gave to a line.
    pub fn gives(&mut self, call: impl Into<RecordedCall>, expected: &str) -> Found {
        let line = line(&self.call(call));
        ensure(line == expected, &format!("{line:?} and not {expected:?}"))
    }

    /// The call is refused with this number, and leaves all.
    pub fn refuses(&mut self, call: impl Into<RecordedCall>, number: u64) -> Found {
        let before = self.now.clone();
        let given = self.call(call).answer;
        let found = given.number;
        ensure(found == number, &format!("{found} is given, not {number}"))?;
        ensure(given.rounds == 0 && given.trace.is_empty(), "a refused call writes nothing")?;
        ensure(self.now == before, "a refused call leaves all")
    }

    /// What replay of the first k entries gives: session, clock record and trace, or the refusal.
    pub fn replays(&self, k: u64, room: usize, expected: &str) -> Found {
        let line = match replay(Some(&self.chart), &self.now.journal, k, room) {
            Ok(replayed) => {
                format!(
                    "0{}; {}",
                    traced(&replayed.trace),
                    state(&replayed.timed.session, &replayed.timed.clock)
                )
            }
            Err(refusal) => refusal.to_string(),
        };
        ensure(line == expected, &format!("replay of {k}: {line:?} and not {expected:?}"))
    }
}

/// Answer or status and rounds, the trace as kinds and indices; session and clock record; the journal.
fn line(given: &RecordedAnswer) -> String {
    let RecordedAnswer { answer, journal } = given;
    let rounds = if answer.rounds > 0 { format!(" in {}", answer.rounds) } else { String::new() };
    let state = state(&answer.session, &answer.clock);
    format!("{}{rounds}{}; {state}; {}", answer.number, traced(&answer.trace), entries(journal))
}

fn traced(trace: &[u32]) -> String {
    trace.iter().map(|entry| format!(" ({},{})", entry / 65_536, entry % 65_536)).collect()
}

/// The active rows, the external queue, and the clock with what is pending, as far as there is any.
fn state(session: &Session, clock: &Clock) -> String {
    let mut text = match session.mode {
        ENDED => "ended".to_string(),
        _ => {
            format!(
                "rows{}",
                session.configuration.rows().map(|row| format!(" {}", row.0)).collect::<String>()
            )
        }
    };
    for name in session.external.names() {
        text += &format!(" + {}", String::from_utf8_lossy(&name));
    }
    if clock.ticks > 0 {
        text += &format!(", clock {}", clock.ticks);
    }
    for send in clock.pending() {
        text += &format!(", {} at {}", String::from_utf8_lossy(&send.event), send.due);
    }
    text
}

fn entries(journal: &Journal) -> String {
    let Some(entries) = journal.entries() else { return format!("{} counted", journal.count()) };
    let one = |entry: &Entry| match entry {
        Entry::Post(name) => format!("post {}", String::from_utf8_lossy(name)),
        Entry::Run(rounds) => format!("run {rounds}"),
        Entry::Clock(ticks) => format!("clock {ticks}"),
    };
    match entries.len() {
        0 => "none".to_string(),
        _ => entries.iter().map(one).collect::<Vec<_>>().join(", "),
    }
}
