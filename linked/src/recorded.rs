//! Lists of calls with a journal, and replays: each case of the second program is lent to the library between
//! guards, and every place must be as the case says afterwards.

use crate::compare::{add, difference, ensure, Guarded};
use crate::proposed::Kept;
use crate::seeds::Tally;
use second::list_cases::{list_cases, ListCase};
use second::recorded_calls::CALL_CELLS;
use second::replay_cases::{replay_cases, ReplayCase};
use second::session_places::SessionPlaces;

/// Kinds of calls in a list: start, post, run, clock call, step back.
pub const KINDS: usize = 5;

/// Counts of what was compared, by answer or status.
#[derive(Clone)]
pub struct Counts {
    pub calls: [[u64; 103]; KINDS],
    /// Lists that were performed to their end, and those that were not.
    pub lists: [u64; 2],
    pub replays: [u64; 11],
}

impl Counts {
    pub fn none() -> Counts {
        Counts { calls: [[0; 103]; KINDS], lists: [0; 2], replays: [0; 11] }
    }
}

impl Tally for Counts {
    fn join(&mut self, other: &Counts) {
        add(self.calls.as_flattened_mut(), other.calls.as_flattened());
        add(&mut self.lists, &other.lists);
        add(&mut self.replays, &other.replays);
    }
}

/// What stands around a place.
const GUARD: u8 = 0xa7;

/// These cells between guards.
fn guarded<T: Copy>(cells: &[T], guard: T) -> Guarded<T> {
    let mut guarded = Guarded::new(cells.len(), || guard);
    guarded.lent().copy_from_slice(cells);
    guarded
}

/// The places of a session, its clock record and its journal between guards.
struct Lent {
    numbers: Guarded<u64>,
    bytes: [Guarded<u8>; 4],
}

impl Lent {
    fn of(places: &SessionPlaces) -> Lent {
        let SessionPlaces { numbers, internal, external, clock, journal } = places;
        let bytes = [internal, external, clock, journal].map(|bytes| guarded(bytes, GUARD));
        Lent { numbers: guarded(numbers, u64::from(GUARD)), bytes }
    }

    fn lend(&mut self) -> Kept<'_> {
        let [internal, external, clock, journal] = &mut self.bytes;
        Kept {
            numbers: self.numbers.lent(),
            internal: internal.lent(),
            external: external.lent(),
            clock: clock.lent(),
            journal: journal.lent(),
        }
    }

    fn holds(&self, places: &SessionPlaces) -> Result<(), String> {
        let own = Lent::of(places);
        same("number of the session", &self.numbers, &own.numbers)?;
        let parts = ["byte of the internal queue", "byte of the external queue", "byte of the record"];
        for ((given, own), part) in
            self.bytes.iter().zip(&own.bytes).zip(parts.iter().chain(&["byte of the journal"]))
        {
            same(part, given, own)?;
        }
        Ok(())
    }
}

fn same<T: Copy + PartialEq + std::fmt::Debug>(
    what: &str,
    given: &Guarded<T>,
    own: &Guarded<T>,
) -> Result<(), String> {
    ensure(given.cells == own.cells, || difference(what, &given.cells, &own.cells))
}

fn list_alike(case: &ListCase, counts: &mut Counts) -> Result<(), String> {
    let mut session = Lent::of(&case.before.session);
    let mut cells = guarded(&case.before.cells, u64::from(GUARD));
    let mut trace = guarded(&case.before.trace, u32::from(GUARD));
    let found = session.lend().record((&case.chart).into(), cells.lent(), &case.text, trace.lent());
    ensure(found == case.performed, || format!("{found} calls are performed, not {}", case.performed))?;
    same("cell of the list", &cells, &guarded(&case.after.cells, u64::from(GUARD)))?;
    same("entry of the trace", &trace, &guarded(&case.after.trace, u32::from(GUARD)))?;
    session.holds(&case.after.session)?;
    let calls = case.after.cells.chunks_exact(CALL_CELLS);
    add(&mut counts.lists, if case.performed == calls.len() { &[1, 0] } else { &[0, 1] });
    for call in calls.take(case.performed) {
        counts.calls[call[0] as usize][call[4] as usize] += 1;
    }
    Ok(())
}

fn replay_alike(case: &ReplayCase, counts: &mut Counts) -> Result<(), String> {
    let mut session = Lent::of(&case.before.session);
    let mut trace = guarded(&case.before.trace, u32::from(GUARD));
    let given = session.lend().replay((&case.chart).into(), case.k, trace.lent());
    let (found, wanted) = ((u64::from(given.answer), given.count), (case.answer, case.count));
    ensure(found == wanted, || format!("a replay of {} gives {found:?}, not {wanted:?}", case.k))?;
    same("entry of the trace", &trace, &guarded(&case.after.trace, u32::from(GUARD)))?;
    session.holds(&case.after.session)?;
    counts.replays[case.answer as usize] += 1;
    Ok(())
}

/// Compares all that a seed makes.
pub fn try_seed(seed: u64, counts: &mut Counts) -> Result<(), String> {
    for case in list_cases(seed) {
        list_alike(&case, counts).map_err(|what| format!("a list, {}: {what}", case.about))?;
    }
    for case in replay_cases(seed) {
        replay_alike(&case, counts).map_err(|what| format!("{}: {what}", case.about))?;
    }
    Ok(())
}
