//! Clock records with something of one part changed: each kind of part apart.

use crate::clock::{Clock, Pending};
use crate::limits::{MAX_DELAY, MAX_PENDING, MAX_TICKS, SLOT_BYTES};
use crate::names::is_name;
use crate::random::Random;
use std::fmt;

/// Which slots of a record.
#[derive(Clone, Copy, PartialEq, Eq, Debug)]
pub enum Slots {
    Events,
    Ids,
}

/// A kind of place.
#[derive(Clone, Copy, PartialEq, Eq, Debug)]
pub enum ClockPart {
    Ticks,
    Count,
    /// The due time of a pending send, and of a free place.
    Due,
    FreeDue,
    /// The first byte of a name, another byte of it, a byte behind it, a byte of a free place.
    FirstByte(Slots),
    TextByte(Slots),
    LaterByte(Slots),
    FreeByte(Slots),
}

pub fn all() -> Vec<ClockPart> {
    let mut parts = vec![ClockPart::Ticks, ClockPart::Count, ClockPart::Due, ClockPart::FreeDue];
    for slots in [Slots::Events, Slots::Ids] {
        parts.push(ClockPart::FirstByte(slots));
        parts.push(ClockPart::TextByte(slots));
        parts.push(ClockPart::LaterByte(slots));
        parts.push(ClockPart::FreeByte(slots));
    }
    parts
}

pub fn any(random: &mut Random) -> ClockPart {
    random.pick(&all()).expect("there are some")
}

impl fmt::Display for ClockPart {
    fn fmt(&self, out: &mut fmt::Formatter<'_>) -> fmt::Result {
        write!(out, "{self:?}")
    }
}

/// A well-formed record with one number or byte of this part changed; nothing, if it has none such.
pub fn damaged(clock: &Clock, part: ClockPart, random: &mut Random) -> Option<Clock> {
    let mut changed = clock.clone();
    let used: Vec<usize> = (0..clock.count as usize).collect();
    let free: Vec<usize> = (clock.count as usize..MAX_PENDING).collect();
    match part {
        ClockPart::Ticks => changed.ticks = other_ticks(clock.ticks, random),
        ClockPart::Count => changed.count = other_count(clock.count, random),
        ClockPart::Due => {
            let place = random.pick(&used)?;
            changed.due[place] = other_due(clock, place, random);
        }
        ClockPart::FreeDue => changed.due[random.pick(&free)?] = 1 + random.number() % 9,
        ClockPart::FreeByte(slots) => {
            let place = random.pick(&free)?;
            slots_of(&mut changed, slots)[place][random.below(SLOT_BYTES)] = some_byte(random).max(1);
        }
        ClockPart::FirstByte(slots) | ClockPart::TextByte(slots) | ClockPart::LaterByte(slots) => {
            let slot = &mut slots_of(&mut changed, slots)[random.pick(&used)?];
            let length = slot.iter().position(|&byte| byte == 0).unwrap_or(SLOT_BYTES);
            let at = match part {
                ClockPart::FirstByte(_) => 0,
                ClockPart::TextByte(_) if length > 0 => random.below(length),
                _ => random.between(length.min(SLOT_BYTES - 1), SLOT_BYTES - 1),
            };
            slot[at] = Some(some_byte(random)).filter(|&byte| byte != slot[at]).unwrap_or(slot[at] ^ 1);
        }
    }
    Some(changed)
}

fn slots_of(clock: &mut Clock, slots: Slots) -> &mut [[u8; SLOT_BYTES]; MAX_PENDING] {
    match slots {
        Slots::Events => &mut clock.events,
        Slots::Ids => &mut clock.ids,
    }
}

fn some_byte(random: &mut Random) -> u8 {
    random.pick(&[0, 1, b' ', b'*', b'.', b'-', b'9', b'z', 0x80, 0xff]).unwrap_or(0)
}

/// Past the limit, or so that due times may be too far beyond it.
fn other_ticks(ticks: u64, random: &mut Random) -> u64 {
    match random.below(6) {
        0 => MAX_TICKS + 1,
        1 => u64::MAX,
        2 => ticks ^ (1 << random.below(64)),
        3 => random.number(),
        4 => ticks.saturating_sub(1),
        _ => 0,
    }
}

fn other_count(count: u64, random: &mut Random) -> u64 {
    match random.below(6) {
        0 => u64::MAX,
        1 => MAX_PENDING as u64 + 1,
        2 => count + 1,
        3 => count ^ (1 << random.below(64)),
        _ => count.wrapping_sub(1),
    }
}

/// Often just at the limit or just past it.
fn other_due(clock: &Clock, place: usize, random: &mut Random) -> u64 {
    match random.below(6) {
        0 => clock.ticks + MAX_DELAY,
        1 | 2 => clock.ticks + MAX_DELAY + 1,
        3 => u64::MAX,
        4 => random.number(),
        _ => clock.due[place] ^ (1 << random.below(64)),
    }
}

/// The same sentence as the quick test: some clock and some sends with names and no others spell just this
/// record.
pub fn is_spelt(clock: &Clock) -> bool {
    if clock.count > MAX_PENDING as u64 || clock.ticks > MAX_TICKS {
        return false;
    }
    let text = |slot: &[u8]| slot.iter().copied().take_while(|&byte| byte != 0).collect::<Vec<u8>>();
    let send = |place: usize| {
        let id = text(&clock.ids[place]);
        let event = text(&clock.events[place]);
        Pending { due: clock.due[place], event, id: (!id.is_empty()).then_some(id) }
    };
    let sends: Vec<Pending> = (0..clock.count as usize).map(send).collect();
    sends.iter().all(|send| {
        is_name(&send.event)
            && send.id.as_deref().is_none_or(is_name)
            && send.due.saturating_sub(clock.ticks) <= MAX_DELAY
    }) && Clock::of(clock.ticks, &sends).as_ref() == Some(clock)
}
