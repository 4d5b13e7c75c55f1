//! Clock records as the prover's definition spells them, lists and not slots, each with whether it is well
//! formed.

use crate::clock::{Clock, Pending};
use crate::limits::{MAX_DELAY, MAX_PENDING, MAX_TICKS};
use crate::names::is_name;
use crate::session::{CLOSING, ENDED, RUNNING};

/// A send whose names may be none: no id has no bytes.
#[derive(Clone, PartialEq, Eq, Debug)]
pub struct ListedSend {
    pub due: u64,
    pub event: Vec<u8>,
    pub id: Vec<u8>,
}

#[derive(Clone, PartialEq, Eq, Debug)]
pub struct ListedRecord {
    pub ticks: u64,
    pub pending: Vec<ListedSend>,
}

pub struct RecordExample {
    pub about: &'static str,
    pub mode: u64,
    pub record: ListedRecord,
    pub fits: bool,
}

impl ListedRecord {
    /// The record in slots, if lists of this kind can stand for one.
    fn clock(&self) -> Option<Clock> {
        let names = |send: &ListedSend| is_name(&send.event) && (send.id.is_empty() || is_name(&send.id));
        if !self.pending.iter().all(names) {
            return None;
        }
        let pending = self.pending.iter().map(|send| Pending {
            due: send.due,
            event: send.event.clone(),
            id: (!send.id.is_empty()).then(|| send.id.clone()),
        });
        Clock::of(self.ticks, &pending.collect::<Vec<_>>())
    }
}

struct Collector(Vec<RecordExample>);

impl Collector {
    /// What is expected is said and worked out.
    fn add(&mut self, about: &'static str, mode: u64, ticks: u64, pending: &[ListedSend], fits: bool) {
        let record = ListedRecord { ticks, pending: pending.to_vec() };
        let found = record.clock().is_some_and(|clock| clock.is_well_formed(mode));
        assert_eq!(found, fits, "{about}");
        self.0.push(RecordExample { about, mode, record, fits });
    }
}

fn send(due: u64, event: &str, id: &str) -> ListedSend {
    ListedSend { due, event: event.as_bytes().to_vec(), id: id.as_bytes().to_vec() }
}

pub fn examples() -> Vec<RecordExample> {
    let mut c = Collector(Vec::new());
    add_clocks(&mut c);
    add_names(&mut c);
    add_modes(&mut c);
    c.0
}

fn add_clocks(c: &mut Collector) {
    c.add("a new record", RUNNING, 0, &[], true);
    c.add("the greatest clock", RUNNING, MAX_TICKS, &[], true);
    c.add("a clock over 2^62", RUNNING, MAX_TICKS + 1, &[], false);
    c.add("the latest due time", RUNNING, 7, &[send(7 + MAX_DELAY, "e", "")], true);
    c.add("a due time too late", RUNNING, 7, &[send(8 + MAX_DELAY, "e", "")], false);
    c.add("the greatest due time", RUNNING, MAX_TICKS, &[send(MAX_TICKS + MAX_DELAY, "e", "")], true);
    c.add(
        "a due time past the greatest",
        RUNNING,
        MAX_TICKS,
        &[send(MAX_TICKS + MAX_DELAY + 1, "e", "")],
        false,
    );
    c.add("a due time in the past", RUNNING, 7, &[send(0, "e", "i")], true);
    c.add(
        "a due time too late behind a good one",
        RUNNING,
        0,
        &[send(1, "e", ""), send(1 << 32, "e", "")],
        false,
    );
    c.add(
        "due times in any order, sends alike",
        RUNNING,
        5,
        &[send(9, "e", "i"), send(6, "e", "i"), send(9, "e", "i")],
        true,
    );
}

fn add_names(c: &mut Collector) {
    let long = "n".repeat(63);
    let too_long = "n".repeat(64);
    c.add("names of 63 bytes", RUNNING, 0, &[send(0, &long, &long)], true);
    c.add("an event of 64 bytes", RUNNING, 0, &[send(0, &too_long, "")], false);
    c.add("an id of 64 bytes", RUNNING, 0, &[send(0, "e", &too_long)], false);
    c.add("no event", RUNNING, 0, &[send(0, "", "i")], false);
    c.add("a star for an event", RUNNING, 0, &[send(0, "*", "i")], false);
    c.add("a descriptor for an id", RUNNING, 0, &[send(0, "e", "i.*")], false);
    c.add("an id with an empty token", RUNNING, 0, &[send(0, "e", "i..j")], false);
    c.add("an id that begins with a digit", RUNNING, 0, &[send(0, "7.up", "9")], true);
    c.add("the second event none", RUNNING, 0, &[send(0, "e", ""), send(0, "a b", "")], false);
}

fn add_modes(c: &mut Collector) {
    c.add("32 sends", RUNNING, 0, &vec![send(0, "e", "i"); MAX_PENDING], true);
    c.add("33 sends", RUNNING, 0, &vec![send(0, "e", "i"); MAX_PENDING + 1], false);
    c.add("pending while closing", CLOSING, 3, &[send(4, "e", "")], true);
    c.add("pending once ended", ENDED, 3, &[send(4, "e", "")], false);
    c.add("ended, nothing pending, a clock that stays", ENDED, 3, &[], true);
    c.add("ended, a clock over 2^62", ENDED, MAX_TICKS + 1, &[], false);
}
