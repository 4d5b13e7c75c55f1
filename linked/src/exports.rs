//! The functions of the static library as C sees them, declared here and nowhere else: a lent slice
//! is a pointer and the count of its elements. Nothing checks these lines against the library's
//! source.

use std::os::raw::c_uint;

/// What a start gives: the first `count` entries of the trace are its own.
#[repr(C)]
#[derive(Clone, Copy, PartialEq, Eq, Debug)]
pub struct Started {
    pub answer: c_uint,
    pub count: usize,
}

#[repr(C)]
#[derive(Clone, Copy, PartialEq, Eq, Debug)]
pub struct Ran {
    pub status: c_uint,
    pub rounds: c_uint,
    pub count: usize,
}

/// The answer of the post; status, rounds and count of the run.
#[repr(C)]
#[derive(Clone, Copy, PartialEq, Eq, Debug)]
pub struct Stepped {
    pub answer: c_uint,
    pub status: c_uint,
    pub rounds: c_uint,
    pub count: usize,
}

/// What reading a text gives: the offset of a fault, and how much of the two places the tables take.
#[repr(C)]
#[derive(Clone, Copy, PartialEq, Eq, Debug)]
pub struct Read {
    pub answer: c_uint,
    pub offset: usize,
    pub cells: usize,
    pub bytes: usize,
}

/// What writing a chart gives: the length of its text.
#[repr(C)]
#[derive(Clone, Copy, PartialEq, Eq, Debug)]
pub struct Written {
    pub answer: c_uint,
    pub length: usize,
}

const _: () = assert!(size_of::<Started>() == 16 && size_of::<Ran>() == 16 && size_of::<Stepped>() == 24);
const _: () = assert!(size_of::<Read>() == 32 && size_of::<Written>() == 16);

extern "C" {
    pub fn auttervil_raw3_version() -> c_uint;
    pub fn auttervil_raw3_read(
        text: *const u8,
        text_count: usize,
        numbers: *mut u64,
        numbers_count: usize,
        names: *mut u8,
        names_count: usize,
    ) -> Read;
    pub fn auttervil_raw3_read_with(
        text: *const u8,
        text_count: usize,
        numbers: *mut u64,
        numbers_count: usize,
        names: *mut u8,
        names_count: usize,
        cells: *mut u64,
        cells_count: usize,
        bytes: *mut u8,
        bytes_count: usize,
        ids: *mut u16,
        ids_count: usize,
        spots: *mut u16,
        spots_count: usize,
        sources: *mut u16,
        sources_count: usize,
        ranks: *mut u16,
        ranks_count: usize,
    ) -> Read;
    pub fn auttervil_raw3_write(
        numbers: *const u64,
        numbers_count: usize,
        names: *const u8,
        names_count: usize,
        buffer: *mut u8,
        buffer_count: usize,
    ) -> Written;
    pub fn auttervil_raw3_numbers_size(numbers: *const u64, numbers_count: usize) -> usize;
    pub fn auttervil_raw3_names_size(numbers: *const u64, numbers_count: usize) -> usize;
    pub fn auttervil_raw3_compile(
        numbers: *const u64,
        numbers_count: usize,
        names: *const u8,
        names_count: usize,
        place: *mut u64,
        place_count: usize,
        name_place: *mut u8,
        name_place_count: usize,
    ) -> c_uint;
    pub fn auttervil_raw3_check(
        chart: *const u64,
        chart_count: usize,
        names: *const u8,
        names_count: usize,
    ) -> c_uint;
    pub fn auttervil_raw3_room(
        chart: *const u64,
        chart_count: usize,
        names: *const u8,
        names_count: usize,
    ) -> usize;
    pub fn auttervil_raw3_fingerprint(
        chart: *const u64,
        chart_count: usize,
        names: *const u8,
        names_count: usize,
    ) -> u64;
    pub fn auttervil_raw3_start(
        numbers: *mut u64,
        numbers_count: usize,
        internal: *mut u8,
        internal_count: usize,
        external: *mut u8,
        external_count: usize,
        clock: *mut u8,
        clock_count: usize,
        chart: *const u64,
        chart_count: usize,
        names: *const u8,
        names_count: usize,
        trace: *mut u32,
        trace_count: usize,
    ) -> Started;
    pub fn auttervil_raw3_post(
        numbers: *mut u64,
        numbers_count: usize,
        internal: *const u8,
        internal_count: usize,
        external: *mut u8,
        external_count: usize,
        chart: *const u64,
        chart_count: usize,
        names: *const u8,
        names_count: usize,
        name: *const u8,
        name_count: usize,
    ) -> c_uint;
    pub fn auttervil_raw3_run(
        numbers: *mut u64,
        numbers_count: usize,
        internal: *mut u8,
        internal_count: usize,
        external: *mut u8,
        external_count: usize,
        clock: *mut u8,
        clock_count: usize,
        chart: *const u64,
        chart_count: usize,
        names: *const u8,
        names_count: usize,
        rounds: c_uint,
        trace: *mut u32,
        trace_count: usize,
    ) -> Ran;
    pub fn auttervil_raw3_advance(
        numbers: *mut u64,
        numbers_count: usize,
        internal: *const u8,
        internal_count: usize,
        external: *mut u8,
        external_count: usize,
        clock: *mut u8,
        clock_count: usize,
        chart: *const u64,
        chart_count: usize,
        names: *const u8,
        names_count: usize,
        ticks: u64,
    ) -> c_uint;
    pub fn auttervil_raw3_step(
        numbers: *mut u64,
        numbers_count: usize,
        internal: *mut u8,
        internal_count: usize,
        external: *mut u8,
        external_count: usize,
        clock: *mut u8,
        clock_count: usize,
        chart: *const u64,
        chart_count: usize,
        names: *const u8,
        names_count: usize,
        name: *const u8,
        name_count: usize,
        rounds: c_uint,
        trace: *mut u32,
        trace_count: usize,
    ) -> Stepped;
    pub fn auttervil_raw3_perform(
        numbers: *mut u64,
        numbers_count: usize,
        internal: *mut u8,
        internal_count: usize,
        external: *mut u8,
        external_count: usize,
        clock: *mut u8,
        clock_count: usize,
        chart: *const u64,
        chart_count: usize,
        names: *const u8,
        names_count: usize,
        calls: *mut u64,
        calls_count: usize,
        text: *const u8,
        text_count: usize,
        trace: *mut u32,
        trace_count: usize,
    ) -> usize;
}
