//! Sessions and clock records of the engine as those of the second program, and back. Nothing is lost on the
//! way, whether they are well formed or not.

use crate::contenders::Held;
use crate::engine::{Clock, Session};
use second::clock::Clock as Record;
use second::limits::{HISTORY_PLACES, QUEUE_NAMES, ROW_SET_WORDS, SLOT_BYTES};
use second::names::EMPTY_SLOT;
use second::row_set::RowSet;
use second::session::{Queue, Session as Followed};
use second::timed::Timed;

fn queue_from(bytes: &[u8], count: u64) -> Queue {
    let mut slots = [EMPTY_SLOT; QUEUE_NAMES];
    slots.copy_from_slice(bytes.as_chunks().0);
    Queue { slots, count }
}

pub fn followed(session: &Session) -> Followed {
    let stored: &[[u64; ROW_SET_WORDS]] = session.history.as_chunks().0;
    Followed {
        configuration: RowSet(session.configuration),
        stored: stored.iter().map(|&words| RowSet(words)).collect(),
        internal: queue_from(&session.internal, session.internal_count),
        external: queue_from(&session.external, session.external_count),
        mode: session.mode,
    }
}

pub fn plain(followed: &Followed) -> Session {
    assert_eq!(followed.stored.len(), HISTORY_PLACES);
    let mut session = Session {
        configuration: followed.configuration.0,
        internal_count: followed.internal.count,
        external_count: followed.external.count,
        mode: followed.mode,
        ..Session::ENDED
    };
    for (place, set) in session.history.chunks_mut(ROW_SET_WORDS).zip(&followed.stored) {
        place.copy_from_slice(&set.0);
    }
    for (place, slot) in session.internal.chunks_mut(SLOT_BYTES).zip(&followed.internal.slots) {
        place.copy_from_slice(slot);
    }
    for (place, slot) in session.external.chunks_mut(SLOT_BYTES).zip(&followed.external.slots) {
        place.copy_from_slice(slot);
    }
    session
}

pub fn timed(held: &Held) -> Timed {
    let Clock { ticks, count, due, events, ids } = held.clock;
    Timed { session: followed(&held.session), clock: Record { ticks, count, due, events, ids } }
}

pub fn recorded(record: &Record) -> Clock {
    let &Record { ticks, count, due, events, ids } = record;
    Clock { ticks, count, due, events, ids }
}

pub fn held(timed: &Timed) -> Held {
    Held { session: plain(&timed.session), clock: recorded(&timed.clock) }
}
