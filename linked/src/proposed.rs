//! Exports for journals and flat tables as they are proposed, each with a safe function. They stand behind
//! the features `journal` and `flat` and are out of the build until the library has them.

use crate::library::Compiled;
use std::os::raw::c_uint;

/// What a replay gives: the first `count` entries of the trace are those of entry k.
#[cfg(feature = "journal")]
#[repr(C)]
#[derive(Clone, Copy, PartialEq, Eq, Debug)]
pub struct Replayed {
    pub answer: c_uint,
    pub count: usize,
}

#[cfg(feature = "journal")]
extern "C" {
    /// A list of calls with a journal: kinds 0 to 3 as `auttervil_raw3_perform` has them, 4 a step back. How many
    /// were performed.
    pub fn auttervil_raw3_record(
        numbers: *mut u64,
        numbers_count: usize,
        internal: *mut u8,
        internal_count: usize,
        external: *mut u8,
        external_count: usize,
        clock: *mut u8,
        clock_count: usize,
        journal: *mut u8,
        journal_count: usize,
        chart: *const u64,
        chart_count: usize,
        names: *const u8,
        names_count: usize,
        calls: *mut u64,
        calls_count: usize,
        text: *const u8,
        text_count: usize,
        trace: *mut u32,
        trace_count: usize,
    ) -> usize;
    pub fn auttervil_raw3_replay(
        numbers: *mut u64,
        numbers_count: usize,
        internal: *mut u8,
        internal_count: usize,
        external: *mut u8,
        external_count: usize,
        clock: *mut u8,
        clock_count: usize,
        journal: *const u8,
        journal_count: usize,
        chart: *const u64,
        chart_count: usize,
        names: *const u8,
        names_count: usize,
        k: u64,
        trace: *mut u32,
        trace_count: usize,
    ) -> Replayed;
}

#[cfg(feature = "flat")]
extern "C" {
    /// The names stand in the text; each has two numbers, where it begins and where it ends. The answer.
    pub fn auttervil_raw3_flatten(
        chart: *const u64,
        chart_count: usize,
        names: *const u8,
        names_count: usize,
        parts: *const u64,
        parts_count: usize,
        text: *const u8,
        text_count: usize,
        place: *mut u64,
        place_count: usize,
    ) -> c_uint;
}

/// The places of a session, its clock record and its journal, of whatever lengths.
#[cfg(feature = "journal")]
pub struct Kept<'a> {
    pub numbers: &'a mut [u64],
    pub internal: &'a mut [u8],
    pub external: &'a mut [u8],
    pub clock: &'a mut [u8],
    pub journal: &'a mut [u8],
}

#[cfg(feature = "journal")]
impl Kept<'_> {
    pub fn record(self, chart: Compiled, calls: &mut [u64], text: &[u8], trace: &mut [u32]) -> usize {
        unsafe {
            auttervil_raw3_record(
                self.numbers.as_mut_ptr(),
                self.numbers.len(),
                self.internal.as_mut_ptr(),
                self.internal.len(),
                self.external.as_mut_ptr(),
                self.external.len(),
                self.clock.as_mut_ptr(),
                self.clock.len(),
                self.journal.as_mut_ptr(),
                self.journal.len(),
                chart.numbers.as_ptr(),
                chart.numbers.len(),
                chart.names.as_ptr(),
                chart.names.len(),
                calls.as_mut_ptr(),
                calls.len(),
                text.as_ptr(),
                text.len(),
                trace.as_mut_ptr(),
                trace.len(),
            )
        }
    }

    pub fn replay(self, chart: Compiled, k: u64, trace: &mut [u32]) -> Replayed {
        unsafe {
            auttervil_raw3_replay(
                self.numbers.as_mut_ptr(),
                self.numbers.len(),
                self.internal.as_mut_ptr(),
                self.internal.len(),
                self.external.as_mut_ptr(),
                self.external.len(),
                self.clock.as_mut_ptr(),
                self.clock.len(),
                self.journal.as_ptr(),
                self.journal.len(),
                chart.numbers.as_ptr(),
                chart.numbers.len(),
                chart.names.as_ptr(),
                chart.names.len(),
                k,
                trace.as_mut_ptr(),
                trace.len(),
            )
        }
    }
}

#[cfg(feature = "flat")]
pub fn flatten(chart: Compiled, parts: &[u64], text: &[u8], place: &mut [u64]) -> u64 {
    let answer = unsafe {
        auttervil_raw3_flatten(
            chart.numbers.as_ptr(),
            chart.numbers.len(),
            chart.names.as_ptr(),
            chart.names.len(),
            parts.as_ptr(),
            parts.len(),
            text.as_ptr(),
            text.len(),
            place.as_mut_ptr(),
            place.len(),
        )
    };
    u64::from(answer)
}
