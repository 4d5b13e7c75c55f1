//! The journal: a place of 40,968 bytes. The count stands in eight bytes, the lowest first, then 512
//! entries of 80 bytes: a kind and a number of eight bytes each, and a slot.

use crate::limits::{MAX_ENTRIES, SLOT_BYTES};
use crate::names::{is_name, slot_of, text_of, EMPTY_SLOT};

const NUMBER_BYTES: usize = 8;
pub const ENTRY_BYTES: usize = 2 * NUMBER_BYTES + SLOT_BYTES;
pub const JOURNAL_BYTES: usize = NUMBER_BYTES + ENTRY_BYTES * MAX_ENTRIES;

/// The kinds of entries.
pub const POST: u64 = 1;
pub const RUN: u64 = 2;
pub const CLOCK: u64 = 3;

/// "accepted posts, clock calls and runs (with the rounds done)".
#[derive(Clone, PartialEq, Eq, Debug)]
pub enum Entry {
    Post(Vec<u8>),
    Run(u64),
    Clock(u64),
}

impl Entry {
    /// A post has the number 0 and its name in the slot, the others a number and a slot of zeros.
    pub fn bytes(&self) -> [u8; ENTRY_BYTES] {
        let (kind, number, slot) = match self {
            Entry::Post(name) => (POST, 0, slot_of(name)),
            Entry::Run(rounds) => (RUN, *rounds, EMPTY_SLOT),
            Entry::Clock(ticks) => (CLOCK, *ticks, EMPTY_SLOT),
        };
        let mut bytes = [0; ENTRY_BYTES];
        bytes[..NUMBER_BYTES].copy_from_slice(&kind.to_le_bytes());
        bytes[NUMBER_BYTES..2 * NUMBER_BYTES].copy_from_slice(&number.to_le_bytes());
        bytes[2 * NUMBER_BYTES..].copy_from_slice(&slot);
        bytes
    }

    /// The entry that is written so; nothing, if none is.
    pub fn read(bytes: &[u8]) -> Option<Entry> {
        let (kind, number, slot) = fields(bytes);
        match kind {
            POST if number == 0 => {
                text_of(slot).filter(|name| is_name(name)).map(|name| Entry::Post(name.to_vec()))
            }
            RUN if slot == EMPTY_SLOT => Some(Entry::Run(number)),
            CLOCK if slot == EMPTY_SLOT => Some(Entry::Clock(number)),
            _ => None,
        }
    }
}

/// Kind, number and slot of an entry's bytes, whatever they are.
pub fn fields(bytes: &[u8]) -> (u64, u64, &[u8]) {
    (number_at(bytes, 0), number_at(bytes, NUMBER_BYTES), &bytes[2 * NUMBER_BYTES..])
}

fn number_at(bytes: &[u8], at: usize) -> u64 {
    u64::from_le_bytes(bytes[at..at + NUMBER_BYTES].try_into().expect("eight bytes"))
}

#[derive(Clone, PartialEq, Eq, Debug)]
pub struct Journal {
    bytes: Vec<u8>,
}

impl Journal {
    /// A journal of zeros.
    pub fn empty() -> Journal {
        Journal { bytes: vec![0; JOURNAL_BYTES] }
    }

    /// The journal of these entries, zeros behind them.
    pub fn of(entries: &[Entry]) -> Journal {
        entries.iter().fold(Journal::empty(), Journal::entered)
    }

    /// "A place of another length" is no journal.
    pub fn read(bytes: &[u8]) -> Option<Journal> {
        (bytes.len() == JOURNAL_BYTES).then(|| Journal { bytes: bytes.to_vec() })
    }

    pub fn bytes(&self) -> &[u8] {
        &self.bytes
    }

    pub fn bytes_mut(&mut self) -> &mut [u8] {
        &mut self.bytes
    }

    pub fn count(&self) -> u64 {
        number_at(&self.bytes, 0)
    }

    /// The journal with another count, all its other bytes as they were.
    pub fn counting(mut self, count: u64) -> Journal {
        self.bytes[..NUMBER_BYTES].copy_from_slice(&count.to_le_bytes());
        self
    }

    /// The bytes of an entry, counted or not.
    pub fn entry(&self, place: usize) -> &[u8] {
        &self.bytes[Journal::place_of(place)..][..ENTRY_BYTES]
    }

    /// Where the bytes of an entry begin.
    pub fn place_of(place: usize) -> usize {
        NUMBER_BYTES + ENTRY_BYTES * place
    }

    /// Writes an entry behind the last one. There is room for it.
    pub fn entered(mut self, entry: &Entry) -> Journal {
        let place = self.count() as usize;
        self.bytes[Journal::place_of(place)..][..ENTRY_BYTES].copy_from_slice(&entry.bytes());
        self.counting(place as u64 + 1)
    }

    /// The counted entries, if each is one and there are no more than may be.
    pub fn entries(&self) -> Option<Vec<Entry>> {
        let count = Some(self.count()).filter(|&count| count <= MAX_ENTRIES as u64)?;
        (0..count as usize).map(|place| Entry::read(self.entry(place))).collect()
    }
}
