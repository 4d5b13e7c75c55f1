//! The clock record, and what a round does to it.

use super::limits::{MOST_DELAY, MOST_PENDING, MOST_TICKS};
use super::names::{holds_name, Slot, SLOT};
use super::session::MODE_ENDED;
use super::tables::NONE;
use super::well_formed::is_blank;

/// In the order in which C has it. The sends stand in order of sending, zeros behind the last; an id of
/// zeros is none.
#[repr(C)]
#[derive(Clone, Copy, PartialEq, Eq, Debug)]
pub struct Clock {
    pub ticks: u64,
    pub count: u64,
    pub due: [u64; MOST_PENDING],
    pub events: [Slot; MOST_PENDING],
    pub ids: [Slot; MOST_PENDING],
}

impl Clock {
    pub const NEW: Clock = Clock {
        ticks: 0,
        count: 0,
        due: [0; MOST_PENDING],
        events: [[0; SLOT]; MOST_PENDING],
        ids: [[0; SLOT]; MOST_PENDING],
    };

    pub(super) fn is_well_formed(&self, mode: u64) -> bool {
        if self.ticks > MOST_TICKS || self.count > MOST_PENDING as u64 || mode == MODE_ENDED && self.count > 0
        {
            return false;
        }
        let used = self.count as usize;
        let latest = self.ticks + MOST_DELAY;
        is_blank(&self.due[used..])
            && is_blank(self.events[used..].as_flattened())
            && is_blank(self.ids[used..].as_flattened())
            && self.due[..used].iter().all(|&due| due <= latest)
            && self.events[..used].iter().all(holds_name)
            && self.ids[..used].iter().all(|id| is_blank(id) || holds_name(id))
    }

    /// The place of the next send to join: the least due time, and of equals the first.
    fn next_due(&self) -> Option<usize> {
        let due = self.due[..self.count as usize].iter().enumerate();
        due.filter(|(_, &due)| due <= self.ticks)
            .min_by_key(|(place, &due)| (due, *place))
            .map(|(place, _)| place)
    }

    /// Moves the clock on. What is due goes to the slots, as far as there are some; how many went.
    pub(super) fn move_on(&mut self, ticks: u64, slots: &mut [Slot]) -> usize {
        self.ticks = ticks;
        for (joined, slot) in slots.iter_mut().enumerate() {
            let Some(place) = self.next_due() else { return joined };
            *slot = self.events[place];
            self.keep(!(1 << place));
        }
        slots.len()
    }

    /// Ending a session empties the table.
    pub(super) fn empty(&mut self) {
        self.keep(0);
    }

    /// Those sends alone stay that have their bit set, in their order.
    fn keep(&mut self, kept: u32) {
        let used = self.count as usize;
        let mut left = 0;
        for place in 0..used {
            if kept & 1 << place != 0 {
                if left < place {
                    self.due[left] = self.due[place];
                    self.events[left] = self.events[place];
                    self.ids[left] = self.ids[place];
                }
                left += 1;
            }
        }
        self.due[left..used].fill(0);
        self.events[left..used].fill([0; SLOT]);
        self.ids[left..used].fill([0; SLOT]);
        self.count = left as u64;
    }
}

/// A send of the round, by the numbers of its names.
#[derive(Clone, Copy)]
struct Sent {
    event: u16,
    id: u16,
    delay: u32,
}

/// The sends and cancels of a round, worked out beside the record.
pub struct Timers {
    /// A bit for each send of the record that is pending still.
    kept: u32,
    sent: [Sent; MOST_PENDING],
    count: usize,
    /// A send found no place.
    pub full: bool,
    /// They are shown and nothing else.
    only_shown: bool,
    any: bool,
}

impl Timers {
    pub const NONE: Timers = Timers {
        kept: 0,
        sent: [Sent { event: 0, id: 0, delay: 0 }; MOST_PENDING],
        count: 0,
        full: false,
        only_shown: false,
        any: false,
    };

    #[inline]
    pub fn begin(&mut self, only_shown: bool) {
        self.any = false;
        self.full = false;
        self.only_shown = only_shown;
    }

    /// Looked at once there is a send or a cancel.
    fn note_any(&mut self, clock: &Clock) {
        if !self.any {
            self.any = true;
            self.kept = ((1_u64 << clock.count) - 1) as u32;
            self.count = 0;
        }
    }

    pub fn send(&mut self, clock: &Clock, [event, delay, id]: [u64; 3]) {
        if self.only_shown || self.full {
            return;
        }
        self.note_any(clock);
        self.full = self.kept.count_ones() as usize + self.count == MOST_PENDING;
        if !self.full {
            self.sent[self.count] = Sent { event: event as u16, id: id as u16, delay: delay as u32 };
            self.count += 1;
        }
    }

    pub fn cancel(&mut self, clock: &Clock, names: &[Slot], id: usize) {
        if self.only_shown || self.full {
            return;
        }
        self.note_any(clock);
        for place in 0..clock.count as usize {
            if clock.ids[place] == names[id] {
                self.kept &= !(1 << place);
            }
        }
        let mut left = 0;
        for place in 0..self.count {
            let sent = self.sent[place];
            if u64::from(sent.id) == NONE || names[sent.id as usize] != names[id] {
                self.sent[left] = sent;
                left += 1;
            }
        }
        self.count = left;
    }

    /// The record as the round leaves it; there is a place for every send.
    pub fn apply(&self, names: &[Slot], clock: &mut Clock) {
        if !self.any || self.only_shown {
            return;
        }
        clock.keep(self.kept);
        for sent in &self.sent[..self.count] {
            let place = clock.count as usize;
            clock.due[place] = clock.ticks + u64::from(sent.delay);
            clock.events[place] = names[sent.event as usize];
            if u64::from(sent.id) != NONE {
                clock.ids[place] = names[sent.id as usize];
            }
            clock.count += 1;
        }
    }
}
