//! One safe function for each function of the static library: slices that are lent here are there,
//! aligned and apart, which is all that the library asks.

use crate::exports::*;
use second::clock::CLOCK_BYTES;
use second::limits::{HISTORY_PLACES, QUEUE_NAMES, ROW_SET_WORDS, SLOT_BYTES};
use std::ops::Range;

/// Where the parts of a session's numbers stand.
pub const CONFIGURATION: Range<usize> = 0..ROW_SET_WORDS;
pub const HISTORY: Range<usize> = CONFIGURATION.end..CONFIGURATION.end + ROW_SET_WORDS * HISTORY_PLACES;
pub const INTERNAL_COUNT: usize = HISTORY.end;
pub const EXTERNAL_COUNT: usize = INTERNAL_COUNT + 1;
pub const MODE: usize = EXTERNAL_COUNT + 1;
pub const NUMBERS: usize = MODE + 1;
pub const QUEUE_BYTES: usize = SLOT_BYTES * QUEUE_NAMES;

/// A session as C holds it: 12,344 bytes with nothing between the fields.
#[repr(C)]
#[derive(Clone, PartialEq, Eq, Debug)]
pub struct Session {
    pub numbers: [u64; NUMBERS],
    pub internal: [u8; QUEUE_BYTES],
    pub external: [u8; QUEUE_BYTES],
}

const _: () = assert!(size_of::<Session>() == 12_344 && CLOCK_BYTES == 4_368);

/// A session with its clock record, 4,368 bytes more.
#[repr(C)]
#[derive(Clone, PartialEq, Eq, Debug)]
pub struct Timed {
    pub session: Session,
    pub clock: [u8; CLOCK_BYTES],
}

/// The three places that a session is lent in and that of the clock record, of whatever lengths.
pub struct Parts<'a> {
    pub numbers: &'a mut [u64],
    pub internal: &'a mut [u8],
    pub external: &'a mut [u8],
    pub clock: &'a mut [u8],
}

impl Session {
    /// For a post, which takes no clock record.
    pub fn lend(&mut self) -> Parts<'_> {
        let Session { numbers, internal, external } = self;
        Parts { numbers, internal, external, clock: &mut [] }
    }
}

impl Timed {
    pub fn lend(&mut self) -> Parts<'_> {
        Parts { clock: &mut self.clock, ..self.session.lend() }
    }
}

/// A compiled chart, or what is lent as one.
#[derive(Clone, Copy)]
pub struct Compiled<'a> {
    pub numbers: &'a [u64],
    pub names: &'a [u8],
}

pub fn version() -> u32 {
    unsafe { auttervil_raw3_version() }
}

/// Reads a text; the tables stand at the beginning of both places.
pub fn read(text: &[u8], numbers: &mut [u64], names: &mut [u8]) -> Read {
    unsafe {
        auttervil_raw3_read(
            text.as_ptr(),
            text.len(),
            numbers.as_mut_ptr(),
            numbers.len(),
            names.as_mut_ptr(),
            names.len(),
        )
    }
}

/// What a read works in, of the sizes that the header's `auttervil_scratch` has.
pub struct Scratch {
    pub cells: Vec<u64>,
    pub bytes: Vec<u8>,
    pub ids: Vec<u16>,
    pub spots: Vec<u16>,
    pub sources: Vec<u16>,
    pub ranks: Vec<u16>,
}

impl Scratch {
    pub fn filled(with: u8) -> Scratch {
        Scratch {
            cells: vec![u64::from(with); 27_756],
            bytes: vec![with; 49_152],
            ids: vec![u16::from(with); 24_434],
            spots: vec![u16::from(with); 16_388],
            sources: vec![u16::from(with); 2_913],
            ranks: vec![u16::from(with); 2_913],
        }
    }

    pub fn read(&mut self, text: &[u8], numbers: &mut [u64], names: &mut [u8]) -> Read {
        unsafe {
            auttervil_raw3_read_with(
                text.as_ptr(),
                text.len(),
                numbers.as_mut_ptr(),
                numbers.len(),
                names.as_mut_ptr(),
                names.len(),
                self.cells.as_mut_ptr(),
                self.cells.len(),
                self.bytes.as_mut_ptr(),
                self.bytes.len(),
                self.ids.as_mut_ptr(),
                self.ids.len(),
                self.spots.as_mut_ptr(),
                self.spots.len(),
                self.sources.as_mut_ptr(),
                self.sources.len(),
                self.ranks.as_mut_ptr(),
                self.ranks.len(),
            )
        }
    }
}

/// Writes a chart; the text stands at the beginning of the buffer.
pub fn write(numbers: &[u64], names: &[u8], buffer: &mut [u8]) -> Written {
    unsafe {
        auttervil_raw3_write(
            numbers.as_ptr(),
            numbers.len(),
            names.as_ptr(),
            names.len(),
            buffer.as_mut_ptr(),
            buffer.len(),
        )
    }
}

pub fn numbers_size(numbers: &[u64]) -> usize {
    unsafe { auttervil_raw3_numbers_size(numbers.as_ptr(), numbers.len()) }
}

pub fn names_size(numbers: &[u64]) -> usize {
    unsafe { auttervil_raw3_names_size(numbers.as_ptr(), numbers.len()) }
}

pub fn compile(numbers: &[u64], names: &[u8], place: &mut [u64], name_place: &mut [u8]) -> u64 {
    let answer = unsafe {
        auttervil_raw3_compile(
            numbers.as_ptr(),
            numbers.len(),
            names.as_ptr(),
            names.len(),
            place.as_mut_ptr(),
            place.len(),
            name_place.as_mut_ptr(),
            name_place.len(),
        )
    };
    u64::from(answer)
}

impl Compiled<'_> {
    pub fn check(self) -> u64 {
        let Compiled { numbers, names } = self;
        let answer =
            unsafe { auttervil_raw3_check(numbers.as_ptr(), numbers.len(), names.as_ptr(), names.len()) };
        u64::from(answer)
    }

    pub fn room(self) -> usize {
        let Compiled { numbers, names } = self;
        unsafe { auttervil_raw3_room(numbers.as_ptr(), numbers.len(), names.as_ptr(), names.len()) }
    }

    pub fn fingerprint(self) -> u64 {
        let Compiled { numbers, names } = self;
        unsafe { auttervil_raw3_fingerprint(numbers.as_ptr(), numbers.len(), names.as_ptr(), names.len()) }
    }
}

/// The session and the record are changed where they lie.
impl Parts<'_> {
    pub fn start(self, chart: Compiled, trace: &mut [u32]) -> Started {
        unsafe {
            auttervil_raw3_start(
                self.numbers.as_mut_ptr(),
                self.numbers.len(),
                self.internal.as_mut_ptr(),
                self.internal.len(),
                self.external.as_mut_ptr(),
                self.external.len(),
                self.clock.as_mut_ptr(),
                self.clock.len(),
                chart.numbers.as_ptr(),
                chart.numbers.len(),
                chart.names.as_ptr(),
                chart.names.len(),
                trace.as_mut_ptr(),
                trace.len(),
            )
        }
    }

    pub fn post(self, chart: Compiled, name: &[u8]) -> u32 {
        unsafe {
            auttervil_raw3_post(
                self.numbers.as_mut_ptr(),
                self.numbers.len(),
                self.internal.as_ptr(),
                self.internal.len(),
                self.external.as_mut_ptr(),
                self.external.len(),
                chart.numbers.as_ptr(),
                chart.numbers.len(),
                chart.names.as_ptr(),
                chart.names.len(),
                name.as_ptr(),
                name.len(),
            )
        }
    }

    pub fn run(self, chart: Compiled, rounds: u32, trace: &mut [u32]) -> Ran {
        unsafe {
            auttervil_raw3_run(
                self.numbers.as_mut_ptr(),
                self.numbers.len(),
                self.internal.as_mut_ptr(),
                self.internal.len(),
                self.external.as_mut_ptr(),
                self.external.len(),
                self.clock.as_mut_ptr(),
                self.clock.len(),
                chart.numbers.as_ptr(),
                chart.numbers.len(),
                chart.names.as_ptr(),
                chart.names.len(),
                rounds,
                trace.as_mut_ptr(),
                trace.len(),
            )
        }
    }

    pub fn clock(self, chart: Compiled, ticks: u64) -> u32 {
        unsafe {
            auttervil_raw3_advance(
                self.numbers.as_mut_ptr(),
                self.numbers.len(),
                self.internal.as_ptr(),
                self.internal.len(),
                self.external.as_mut_ptr(),
                self.external.len(),
                self.clock.as_mut_ptr(),
                self.clock.len(),
                chart.numbers.as_ptr(),
                chart.numbers.len(),
                chart.names.as_ptr(),
                chart.names.len(),
                ticks,
            )
        }
    }

    pub fn step(self, chart: Compiled, name: &[u8], rounds: u32, trace: &mut [u32]) -> Stepped {
        unsafe {
            auttervil_raw3_step(
                self.numbers.as_mut_ptr(),
                self.numbers.len(),
                self.internal.as_mut_ptr(),
                self.internal.len(),
                self.external.as_mut_ptr(),
                self.external.len(),
                self.clock.as_mut_ptr(),
                self.clock.len(),
                chart.numbers.as_ptr(),
                chart.numbers.len(),
                chart.names.as_ptr(),
                chart.names.len(),
                name.as_ptr(),
                name.len(),
                rounds,
                trace.as_mut_ptr(),
                trace.len(),
            )
        }
    }

    /// How many of the calls were performed; each has written what it gave behind its own four numbers.
    pub fn perform(self, chart: Compiled, calls: &mut [u64], text: &[u8], trace: &mut [u32]) -> usize {
        unsafe {
            auttervil_raw3_perform(
                self.numbers.as_mut_ptr(),
                self.numbers.len(),
                self.internal.as_mut_ptr(),
                self.internal.len(),
                self.external.as_mut_ptr(),
                self.external.len(),
                self.clock.as_mut_ptr(),
                self.clock.len(),
                chart.numbers.as_ptr(),
                chart.numbers.len(),
                chart.names.as_ptr(),
                chart.names.len(),
                calls.as_mut_ptr(),
                calls.len(),
                text.as_ptr(),
                text.len(),
                trace.as_mut_ptr(),
                trace.len(),
            )
        }
    }
}
