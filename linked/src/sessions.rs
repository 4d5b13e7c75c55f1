//! Sessions and clock records of the second program as the library takes them.

use crate::compare::ensure;
use crate::library::{self, Compiled, CONFIGURATION, EXTERNAL_COUNT, HISTORY, INTERNAL_COUNT};
use crate::library::{MODE, NUMBERS, QUEUE_BYTES};
use second::compiled::Places;
use second::limits::{QUEUE_NAMES, ROW_SET_WORDS};
use second::names::Slot;
use second::session::Session;
use second::timed::Timed;

impl From<&Session> for library::Session {
    fn from(session: &Session) -> library::Session {
        let mut numbers = [0; NUMBERS];
        numbers[CONFIGURATION].copy_from_slice(&session.configuration.0);
        for (words, set) in numbers[HISTORY].chunks_mut(ROW_SET_WORDS).zip(&session.stored) {
            words.copy_from_slice(&set.0);
        }
        numbers[INTERNAL_COUNT] = session.internal.count;
        numbers[EXTERNAL_COUNT] = session.external.count;
        numbers[MODE] = session.mode;
        library::Session {
            numbers,
            internal: bytes(&session.internal.slots),
            external: bytes(&session.external.slots),
        }
    }
}

impl From<&Timed> for library::Timed {
    fn from(timed: &Timed) -> library::Timed {
        let clock = timed.clock.bytes().try_into().expect("a record has so many bytes");
        library::Timed { session: (&timed.session).into(), clock }
    }
}

impl<'a> From<&'a Places> for Compiled<'a> {
    fn from(places: &'a Places) -> Compiled<'a> {
        Compiled { numbers: &places.numbers, names: &places.names }
    }
}

fn bytes(slots: &[Slot; QUEUE_NAMES]) -> [u8; QUEUE_BYTES] {
    slots.as_flattened().try_into().expect("as many bytes as the slots have")
}

/// Every byte of what the library left is as the second program has it.
pub fn alike(given: &library::Session, own: &Session) -> Result<(), String> {
    let own = library::Session::from(own);
    let same = [
        ("configuration", given.numbers[CONFIGURATION] == own.numbers[CONFIGURATION]),
        ("history", given.numbers[HISTORY] == own.numbers[HISTORY]),
        ("internal queue", given.internal == own.internal),
        ("external queue", given.external == own.external),
        ("internal count", given.numbers[INTERNAL_COUNT] == own.numbers[INTERNAL_COUNT]),
        ("external count", given.numbers[EXTERNAL_COUNT] == own.numbers[EXTERNAL_COUNT]),
        ("mode", given.numbers[MODE] == own.numbers[MODE]),
    ];
    for (part, same) in same {
        ensure(same, || format!("the {part} left is another"))?;
    }
    Ok(())
}

/// The same of the session and the clock record.
pub fn timed_alike(given: &library::Timed, own: &Timed) -> Result<(), String> {
    alike(&given.session, &own.session)?;
    let bytes = own.clock.bytes();
    let other = given.clock.iter().zip(&bytes).position(|(given, own)| given != own);
    ensure(other.is_none(), || format!("byte {} of the clock record left is another", other.unwrap_or(0)))
}
