//! A session as a row of cells, in the order of its fields: 4 words of the configuration, 1,024 of
//! the stored history, 2,048 bytes of each queue, the counts of both, the mode.

use crate::limits::{HISTORY_PLACES, QUEUE_NAMES, ROW_SET_WORDS, SLOT_BYTES};
use crate::session::Session;

pub const STORED: usize = ROW_SET_WORDS;
pub const INTERNAL: usize = STORED + ROW_SET_WORDS * HISTORY_PLACES;
pub const EXTERNAL: usize = INTERNAL + SLOT_BYTES * QUEUE_NAMES;
pub const INTERNAL_COUNT: usize = EXTERNAL + SLOT_BYTES * QUEUE_NAMES;
pub const EXTERNAL_COUNT: usize = INTERNAL_COUNT + 1;
pub const MODE: usize = EXTERNAL_COUNT + 1;
pub const CELLS: usize = MODE + 1;

enum Cell<'a> {
    Word(&'a mut u64),
    Byte(&'a mut u8),
}

fn find(session: &mut Session, at: usize) -> Cell<'_> {
    let queue_byte = |first: usize| ((at - first) / SLOT_BYTES, (at - first) % SLOT_BYTES);
    match at {
        0..STORED => Cell::Word(&mut session.configuration.0[at]),
        STORED..INTERNAL => {
            let (row, word) = ((at - STORED) / ROW_SET_WORDS, (at - STORED) % ROW_SET_WORDS);
            Cell::Word(&mut session.stored[row].0[word])
        }
        INTERNAL..EXTERNAL => {
            let (slot, byte) = queue_byte(INTERNAL);
            Cell::Byte(&mut session.internal.slots[slot][byte])
        }
        EXTERNAL..INTERNAL_COUNT => {
            let (slot, byte) = queue_byte(EXTERNAL);
            Cell::Byte(&mut session.external.slots[slot][byte])
        }
        INTERNAL_COUNT => Cell::Word(&mut session.internal.count),
        EXTERNAL_COUNT => Cell::Word(&mut session.external.count),
        MODE => Cell::Word(&mut session.mode),
        _ => panic!("a session has no cell {at}"),
    }
}

/// Gives the cell what `change` makes of its number; of a byte's new number the low 8 bits count.
pub fn change(session: &mut Session, at: usize, change: impl FnOnce(u64) -> u64) {
    match find(session, at) {
        Cell::Word(word) => *word = change(*word),
        Cell::Byte(byte) => *byte = change(u64::from(*byte)) as u8,
    }
}

pub fn is_byte(at: usize) -> bool {
    (INTERNAL..INTERNAL_COUNT).contains(&at)
}

/// All cells.
pub fn all(session: &Session) -> impl Iterator<Item = u64> + '_ {
    let bytes = |slots: &'_ [[u8; SLOT_BYTES]; QUEUE_NAMES]| {
        slots.as_flattened().iter().map(|&byte| u64::from(byte)).collect::<Vec<_>>()
    };
    let words = session.configuration.0.into_iter().chain(session.stored.iter().flat_map(|set| set.0));
    words.chain(bytes(&session.internal.slots)).chain(bytes(&session.external.slots)).chain([
        session.internal.count,
        session.external.count,
        session.mode,
    ])
}
