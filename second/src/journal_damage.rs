//! Journals with something of one field changed: each kind of field apart.

use crate::journal::{fields, Journal, CLOCK, ENTRY_BYTES, POST, RUN};
use crate::limits::{MAX_ENTRIES, MAX_ROUNDS, MAX_TICKS, SLOT_BYTES};
use crate::random::Random;
use std::fmt;

/// Which entries.
#[derive(Clone, Copy, PartialEq, Eq, Debug)]
pub enum Of {
    Post,
    Run,
    Clock,
}

/// A kind of field, or of what may befall entries as a whole.
#[derive(Clone, Copy, PartialEq, Eq, Debug)]
pub enum JournalPart {
    Count,
    Kind(Of),
    Number(Of),
    /// The first byte of a posted name, another byte of it, a byte behind it.
    FirstByte,
    TextByte,
    LaterByte,
    /// A byte of the slot of a run or a clock call.
    SlotByte(Of),
    /// One entry left out, one there twice, two that have changed places.
    LeftOut,
    Twice,
    Swapped,
    /// A byte behind the last entry, which no one reads.
    Behind,
}

pub fn all() -> Vec<JournalPart> {
    use JournalPart::*;
    let mut parts = vec![Count, FirstByte, TextByte, LaterByte, SlotByte(Of::Run), SlotByte(Of::Clock)];
    for of in [Of::Post, Of::Run, Of::Clock] {
        parts.extend([Kind(of), Number(of)]);
    }
    parts.extend([LeftOut, Twice, Swapped, Behind]);
    parts
}

impl fmt::Display for JournalPart {
    fn fmt(&self, out: &mut fmt::Formatter<'_>) -> fmt::Result {
        write!(out, "{self:?}")
    }
}

impl Of {
    fn number(self) -> u64 {
        match self {
            Of::Post => POST,
            Of::Run => RUN,
            Of::Clock => CLOCK,
        }
    }
}

/// A journal of entries with one field of this part changed, and the first entry that may be another now; nothing, if it
/// has none such.
pub fn damaged(journal: &Journal, part: JournalPart, random: &mut Random) -> Option<(Journal, usize)> {
    let count = journal.count() as usize;
    let some = |of: Of, random: &mut Random| {
        let is_of = |&place: &usize| fields(journal.entry(place)).0 == of.number();
        random.pick(&(0..count).filter(is_of).collect::<Vec<_>>())
    };
    let mut changed = journal.clone();
    let place = match part {
        JournalPart::Count => return Some((changed.counting(other_count(journal.count(), random)), 0)),
        JournalPart::Kind(of) => {
            let place = some(of, random)?;
            set_number(&mut changed, place, 0, other_kind(of, random));
            place
        }
        JournalPart::Number(of) => {
            let place = some(of, random)?;
            let number = other_number(of, fields(journal.entry(place)).1, random);
            set_number(&mut changed, place, 1, number);
            place
        }
        JournalPart::FirstByte | JournalPart::TextByte | JournalPart::LaterByte => {
            let place = some(Of::Post, random)?;
            let slot = fields(journal.entry(place)).2;
            let length = slot.iter().position(|&byte| byte == 0).unwrap_or(SLOT_BYTES);
            let at = match part {
                JournalPart::FirstByte => 0,
                JournalPart::TextByte => random.below(length),
                _ => random.between(length.min(SLOT_BYTES - 1), SLOT_BYTES - 1),
            };
            change_byte(&mut changed, place, at, random);
            place
        }
        JournalPart::SlotByte(of) => {
            let place = some(of, random)?;
            change_byte(&mut changed, place, random.below(SLOT_BYTES), random);
            place
        }
        JournalPart::LeftOut | JournalPart::Twice | JournalPart::Swapped => {
            return rearranged(journal, part, random);
        }
        JournalPart::Behind => {
            let (first, end) = (Journal::place_of(count), changed.bytes().len());
            if first == end {
                return None;
            }
            let at = match random.below(3) {
                0 => first,
                1 => end - 1,
                _ => random.between(first, end - 1),
            };
            changed.bytes_mut()[at] ^= 1 << random.below(8);
            count
        }
    };
    Some((changed, place))
}

fn set_number(journal: &mut Journal, place: usize, column: usize, number: u64) {
    let at = Journal::place_of(place) + 8 * column;
    journal.bytes_mut()[at..at + 8].copy_from_slice(&number.to_le_bytes());
}

/// Another byte at a place of an entry's slot: often one that no name has.
fn change_byte(journal: &mut Journal, place: usize, at: usize, random: &mut Random) {
    let byte = &mut journal.bytes_mut()[Journal::place_of(place) + ENTRY_BYTES - SLOT_BYTES + at];
    let other = random.pick(&[0, 1, b' ', b'*', b'.', b'-', b'9', b'e', b'f', 0x80, 0xff]).unwrap_or(0);
    *byte = if other == *byte { *byte ^ 1 } else { other };
}

fn other_count(count: u64, random: &mut Random) -> u64 {
    match random.below(8) {
        0 => MAX_ENTRIES as u64 + 1,
        1 => u64::MAX,
        2 => count + (1 << 32),
        3 => MAX_ENTRIES as u64,
        4 | 5 => count + 1,
        6 => count.wrapping_sub(1),
        _ => random.below(count as usize + 1) as u64,
    }
}

fn other_kind(of: Of, random: &mut Random) -> u64 {
    let known = [POST, RUN, CLOCK].into_iter().filter(|&kind| kind != of.number()).collect::<Vec<_>>();
    match random.below(6) {
        0 => 0,
        1 => 4,
        2 => of.number() | 1 << random.between(8, 63),
        3 => random.number(),
        _ => random.pick(&known).expect("there are two"),
    }
}

/// Often just beside what it was, or just at its limit or past it.
fn other_number(of: Of, number: u64, random: &mut Random) -> u64 {
    let limit = if of == Of::Clock { MAX_TICKS } else { MAX_ROUNDS };
    match random.below(10) {
        0 | 1 => number.wrapping_add(1),
        2 | 3 => number.wrapping_sub(1),
        4 => limit,
        5 => limit + 1,
        6 => u64::MAX,
        7 => number ^ 1 << random.below(64),
        8 => random.below(6) as u64 + u64::from(of == Of::Post),
        _ => number.wrapping_add(random.between(2, 9) as u64),
    }
}

/// Entries left out, doubled and swapped, and the first place that may hold another entry then.
fn rearranged(journal: &Journal, part: JournalPart, random: &mut Random) -> Option<(Journal, usize)> {
    let mut entries: Vec<Vec<u8>> =
        (0..journal.count() as usize).map(|place| journal.entry(place).to_vec()).collect();
    if entries.len() < 2 || entries.len() == MAX_ENTRIES {
        return None;
    }
    let place = random.below(entries.len() - 1);
    match part {
        JournalPart::LeftOut => drop(entries.remove(place)),
        JournalPart::Twice => entries.insert(place, entries[place].clone()),
        _ => {
            let other = random.between(place + 1, entries.len() - 1);
            entries.swap(place, other);
        }
    }
    let mut changed = journal.clone().counting(entries.len() as u64);
    let first = Journal::place_of(0);
    changed.bytes_mut()[first..first + ENTRY_BYTES * entries.len()].copy_from_slice(&entries.concat());
    Some((changed, place))
}
