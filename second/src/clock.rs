//! The clock record (R-9): the last clock and the pending sends, "names, order and free places as in
//! queues".

use crate::limits::{MAX_DELAY, MAX_PENDING, MAX_TICKS, SLOT_BYTES};
use crate::names::{slot_holds_name, slot_of, text_of, Slot, EMPTY_SLOT};
use crate::session::ENDED;

/// A send or a cancel as a block does it.
#[derive(Clone, PartialEq, Eq, Debug)]
pub enum Timing {
    Send { event: Vec<u8>, delay: u64, id: Option<Vec<u8>> },
    Cancel { id: Vec<u8> },
}

/// A pending send.
#[derive(Clone, PartialEq, Eq, Debug)]
pub struct Pending {
    pub due: u64,
    pub event: Vec<u8>,
    pub id: Option<Vec<u8>>,
}

/// Places of pending sends in order of sending; a send without an id has an id of zeros.
#[derive(Clone, PartialEq, Eq, Debug)]
pub struct Clock {
    pub ticks: u64,
    pub count: u64,
    pub due: [u64; MAX_PENDING],
    pub events: [Slot; MAX_PENDING],
    pub ids: [Slot; MAX_PENDING],
}

/// The numbers before the slots: ticks, count and due times.
const NUMBERS: usize = 2 + MAX_PENDING;
/// The place that is lent for a record.
pub const CLOCK_BYTES: usize = 8 * NUMBERS + 2 * SLOT_BYTES * MAX_PENDING;

impl Clock {
    /// "any start, refused too, first sets it to 0 and drops whatever was pending".
    pub const NEW: Clock = Clock {
        ticks: 0,
        count: 0,
        due: [0; MAX_PENDING],
        events: [EMPTY_SLOT; MAX_PENDING],
        ids: [EMPTY_SLOT; MAX_PENDING],
    };

    /// The record of these sends, if there is room for them.
    pub fn of(ticks: u64, pending: &[Pending]) -> Option<Clock> {
        if pending.len() > MAX_PENDING {
            return None;
        }
        let mut clock = Clock { ticks, count: pending.len() as u64, ..Clock::NEW };
        for (place, send) in pending.iter().enumerate() {
            clock.due[place] = send.due;
            clock.events[place] = slot_of(&send.event);
            clock.ids[place] = send.id.as_deref().map_or(EMPTY_SLOT, slot_of);
        }
        Some(clock)
    }

    /// The pending sends in order of sending.
    pub fn pending(&self) -> Vec<Pending> {
        (0..self.count as usize)
            .map(|place| Pending {
                due: self.due[place],
                event: text_of(&self.events[place]).unwrap_or(&[]).to_vec(),
                id: text_of(&self.ids[place]).map(<[u8]>::to_vec),
            })
            .collect()
    }

    /// "Well formed means the clock at most 2^62, due times at most 4,294,967,295 beyond it, names, order
    /// and free places as in queues, nothing pending once ended".
    pub fn is_well_formed(&self, mode: u64) -> bool {
        self.ticks <= MAX_TICKS
            && self.count <= MAX_PENDING as u64
            && (mode != ENDED || self.count == 0)
            && (0..MAX_PENDING).all(|place| match (place as u64) < self.count {
                true => self.is_pending(place),
                false => self.is_free(place),
            })
    }

    fn is_pending(&self, place: usize) -> bool {
        let id = &self.ids[place];
        self.due[place] <= self.ticks + MAX_DELAY
            && slot_holds_name(&self.events[place])
            && (*id == EMPTY_SLOT || slot_holds_name(id))
    }

    fn is_free(&self, place: usize) -> bool {
        self.due[place] == 0 && self.events[place] == EMPTY_SLOT && self.ids[place] == EMPTY_SLOT
    }

    /// The record after a round's sends and cancels, one after the other; nothing, if one of the sends
    /// finds the table full.
    pub fn after(&self, timings: &[Timing]) -> Option<Clock> {
        let mut pending = self.pending();
        for timing in timings {
            match timing {
                Timing::Send { .. } if pending.len() == MAX_PENDING => return None,
                Timing::Send { event, delay, id } => {
                    // "A send is due at the last clock plus its delay."
                    let due = self.ticks + delay;
                    pending.push(Pending { due, event: event.clone(), id: id.clone() });
                }
                // "Cancel takes every pending send of an equal id."
                Timing::Cancel { id } => pending.retain(|send| send.id.as_ref() != Some(id)),
            }
        }
        Clock::of(self.ticks, &pending)
    }

    /// "whatever is due, a delay of 0 included, joins the external queue by due time, then by order of
    /// sending, as far as the queue has room; the rest stays pending." The names that join, and the record
    /// that they leave.
    pub fn joining(&self, ticks: u64, room: usize) -> (Vec<Vec<u8>>, Clock) {
        let pending = self.pending();
        let mut due: Vec<usize> = (0..pending.len()).filter(|&place| pending[place].due <= ticks).collect();
        due.sort_by_key(|&place| (pending[place].due, place));
        due.truncate(room);
        let names = due.iter().map(|&place| pending[place].event.clone()).collect();
        let staying = (0..pending.len()).filter(|place| !due.contains(place));
        let rest: Vec<Pending> = staying.map(|place| pending[place].clone()).collect();
        (names, Clock::of(ticks, &rest).expect("none is added"))
    }

    /// "Ending a session empties the table."
    pub fn emptied(&self) -> Clock {
        Clock { ticks: self.ticks, ..Clock::NEW }
    }

    /// The record as it is lent: numbers of 8 bytes, the lowest first, then the slots.
    pub fn bytes(&self) -> Vec<u8> {
        let numbers = [self.ticks, self.count].into_iter().chain(self.due);
        let slots = self.events.iter().chain(&self.ids).flatten();
        numbers.flat_map(u64::to_le_bytes).chain(slots.copied()).collect()
    }

    /// The record that so many bytes spell.
    pub fn read(bytes: &[u8]) -> Option<Clock> {
        if bytes.len() != CLOCK_BYTES {
            return None;
        }
        let (numbers, slots) = bytes.split_at(8 * NUMBERS);
        let mut clock = Clock::NEW;
        for (place, number) in numbers.chunks_exact(8).enumerate() {
            *clock.number_mut(place) = u64::from_le_bytes(number.try_into().expect("eight bytes"));
        }
        for (place, slot) in slots.chunks_exact(SLOT_BYTES).enumerate() {
            clock.slot_mut(place).copy_from_slice(slot);
        }
        Some(clock)
    }

    /// Its numbers in order: ticks, count, due times.
    pub fn number_mut(&mut self, place: usize) -> &mut u64 {
        match place {
            0 => &mut self.ticks,
            1 => &mut self.count,
            _ => &mut self.due[place - 2],
        }
    }

    fn slot_mut(&mut self, place: usize) -> &mut Slot {
        match place.checked_sub(MAX_PENDING) {
            Some(id) => &mut self.ids[id],
            None => &mut self.events[place],
        }
    }
}
