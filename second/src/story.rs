//! The story of the README as calls: a region whose id has 52 bytes finishes while every other part of
//! the session is full. Its done name has 63 bytes and a zero behind them, and nothing else may change.

use crate::builder::Builder;
use crate::calls::Call;
use crate::limits::{MAX_ID_BYTES, MAX_NAME_BYTES, QUEUE_NAMES};
use crate::names::slot_of;
use crate::readings::{post, run, start};
use crate::session::{Queue, Session};
use crate::tables::Chart;

fn id() -> String {
    "i".repeat(MAX_ID_BYTES)
}

/// The name that the last round queues.
pub fn done_name() -> Vec<u8> {
    format!("done.state.{}", id()).into_bytes()
}

/// Event go leaves s, whose history then has stored, for a parallel with the region; its first state
/// leaves for the region's final without an event.
pub fn chart() -> Chart {
    let mut b = Builder::new();
    b.state("", "s").state("s", "x").deep("s", "h").list("h", "x", &[]);
    b.parallel("", "p").state("p", &id()).state(&id(), "a").final_(&id(), "f").state("p", "r").state("", "z");
    b.on("s", "go", "p").on("a", "", "f").on("p", &format!("done.state.{}", id()), "z").on("z", "back", "h");
    b.chart()
}

/// The calls before the round: history has stored, and 32 names of 63 bytes are posted.
pub fn before() -> Vec<Call> {
    let full = "n".repeat(MAX_NAME_BYTES);
    let mut calls = vec![start(), post("go"), run(1)];
    calls.extend((0..QUEUE_NAMES).map(|_| post(&full)));
    calls
}

/// The round in which the region finishes.
pub fn last() -> Call {
    run(1)
}

/// The session that the round must leave: the name and zeros in the first slot, the count, the
/// configuration given here; every other byte as it was.
pub fn expected(before: &Session, after: &Session) -> Session {
    let mut internal = Queue { count: 1, ..before.internal.clone() };
    internal.slots[0] = slot_of(&done_name());
    Session { configuration: after.configuration, internal, ..before.clone() }
}
