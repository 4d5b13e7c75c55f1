//! Sessions with something of one part changed: each kind of part apart.

use crate::cells::{self, CELLS, EXTERNAL, EXTERNAL_COUNT, INTERNAL, INTERNAL_COUNT, MODE, STORED};
use crate::compiled::CompiledChart;
use crate::limits::{HISTORY_PLACES, QUEUE_NAMES, ROW_SET_WORDS, SLOT_BYTES, WORD_BITS};
use crate::names::text_of;
use crate::numbers::RowNumber;
use crate::random::Random;
use crate::session::{Queue, Session};
use std::fmt;

#[derive(Clone, Copy, PartialEq, Eq, Debug)]
pub enum Which {
    Internal,
    External,
}

/// A kind of cell.
#[derive(Clone, Copy, PartialEq, Eq, Debug)]
pub enum SessionPart {
    /// A word of the configuration.
    Configuration(usize),
    /// A word of what is stored for a history, for another row, past the rows.
    StoredOfHistory(usize),
    StoredOfOther(usize),
    StoredPastRows(usize),
    /// The first byte of a name in a queue, another byte of it, a byte behind it, a byte of a slot
    /// that is not used.
    FirstByte(Which),
    TextByte(Which),
    LaterByte(Which),
    UnusedByte(Which),
    Count(Which),
    Mode,
}

pub fn all() -> Vec<SessionPart> {
    let mut parts = Vec::new();
    for word in 0..ROW_SET_WORDS {
        parts.push(SessionPart::Configuration(word));
        parts.push(SessionPart::StoredOfHistory(word));
        parts.push(SessionPart::StoredOfOther(word));
        parts.push(SessionPart::StoredPastRows(word));
    }
    for which in [Which::Internal, Which::External] {
        parts.push(SessionPart::FirstByte(which));
        parts.push(SessionPart::TextByte(which));
        parts.push(SessionPart::LaterByte(which));
        parts.push(SessionPart::UnusedByte(which));
        parts.push(SessionPart::Count(which));
    }
    parts.push(SessionPart::Mode);
    parts
}

impl fmt::Display for SessionPart {
    fn fmt(&self, out: &mut fmt::Formatter<'_>) -> fmt::Result {
        write!(out, "{self:?}")
    }
}

/// A well-formed session with one cell of this part changed; nothing, if it has no such cell.
pub fn damaged(
    session: &Session,
    part: SessionPart,
    compiled: &CompiledChart,
    random: &mut Random,
) -> Option<Session> {
    let at = cell_of(session, part, compiled, random)?;
    let mut changed = session.clone();
    let rows = compiled.chart.rows.len();
    cells::change(&mut changed, at, |old| {
        let new = match cells::is_byte(at) {
            true => some_byte(random),
            false => some_word(old, at, rows, random),
        };
        if new == old {
            old ^ 1
        } else {
            new
        }
    });
    Some(changed)
}

fn some_byte(random: &mut Random) -> u64 {
    const BYTES: [u64; 8] =
        [0, b' ' as u64, b'*' as u64, b'.' as u64, b'-' as u64, b'9' as u64, b'z' as u64, 0x80];
    match random.chance(20) {
        true => random.number() % 256,
        false => random.pick(&BYTES).unwrap_or(0),
    }
}

/// A set's word mostly gains or loses a row that the chart has; a count or a mode mostly stays
/// small.
fn some_word(old: u64, at: usize, rows: usize, random: &mut Random) -> u64 {
    match random.below(10) {
        0 => u64::MAX,
        1 => 0,
        2 => random.number(),
        3 => old ^ (1 << random.below(WORD_BITS)),
        _ if at < INTERNAL => old ^ (1 << random.below(rows_of_word(at % ROW_SET_WORDS, rows))),
        _ => random.below(QUEUE_NAMES + 4) as u64,
    }
}

/// How many of so many rows have their bits in this word of a set; in a word of none any bit may change.
fn rows_of_word(word: usize, rows: usize) -> usize {
    match rows.saturating_sub(word * WORD_BITS) {
        0 => WORD_BITS,
        left => left.min(WORD_BITS),
    }
}

fn cell_of(
    session: &Session,
    part: SessionPart,
    compiled: &CompiledChart,
    random: &mut Random,
) -> Option<usize> {
    let rows = compiled.chart.rows.len();
    let stored = |row: usize, word: usize| STORED + ROW_SET_WORDS * row + word;
    let of = |history: bool| -> Vec<usize> {
        (0..rows).filter(|&row| compiled.tree.is_history(RowNumber(row)) == history).collect()
    };
    Some(match part {
        SessionPart::Configuration(word) => word,
        SessionPart::StoredOfHistory(word) => stored(random.pick(&of(true))?, word),
        SessionPart::StoredOfOther(word) => stored(random.pick(&of(false))?, word),
        SessionPart::StoredPastRows(word) => {
            stored(random.pick(&(rows..HISTORY_PLACES).collect::<Vec<usize>>())?, word)
        }
        SessionPart::FirstByte(which)
        | SessionPart::TextByte(which)
        | SessionPart::LaterByte(which)
        | SessionPart::UnusedByte(which) => queue_byte(session, part, which, random)?,
        SessionPart::Count(Which::Internal) => INTERNAL_COUNT,
        SessionPart::Count(Which::External) => EXTERNAL_COUNT,
        SessionPart::Mode => MODE,
    })
}

fn queue_byte(session: &Session, part: SessionPart, which: Which, random: &mut Random) -> Option<usize> {
    let (queue, first) = match which {
        Which::Internal => (&session.internal, INTERNAL),
        Which::External => (&session.external, EXTERNAL),
    };
    let used = queue.count as usize;
    let slots: Vec<usize> = match part {
        SessionPart::UnusedByte(_) => (used..QUEUE_NAMES).collect(),
        _ => (0..used).collect(),
    };
    let slot = random.pick(&slots)?;
    let text = text_length(queue, slot);
    let byte = match part {
        SessionPart::FirstByte(_) => 0,
        SessionPart::TextByte(_) => random.below(text),
        _ => random.between(text, SLOT_BYTES - 1),
    };
    Some(first + SLOT_BYTES * slot + byte)
}

fn text_length(queue: &Queue, slot: usize) -> usize {
    text_of(&queue.slots[slot]).map_or(0, <[u8]>::len)
}

/// A session whose cells are any numbers, or those of the given parts alone, the rest being the
/// given session's.
pub fn at_will(session: &Session, random: &mut Random) -> Session {
    let parts = [
        0..CELLS,
        0..INTERNAL_COUNT,
        0..STORED,
        STORED..INTERNAL,
        INTERNAL..EXTERNAL,
        EXTERNAL..INTERNAL_COUNT,
        INTERNAL_COUNT..CELLS,
    ];
    let part = parts[random.below(parts.len())].clone();
    let mut changed = session.clone();
    for at in part {
        cells::change(&mut changed, at, |_| random.number());
    }
    changed
}
