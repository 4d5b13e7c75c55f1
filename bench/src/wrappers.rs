//! The proved library behind the header's wrappers, include/auttervil.h, as a C program calls it.

#![allow(unsafe_code)]

use crate::contenders::{Calls, Held, Lent};
use crate::engine::{Clock, Ran, Session, Started, Stepped};

/// auttervil_chart.
#[repr(C)]
struct Chart {
    numbers: *const u64,
    cells: usize,
    names: *const u8,
    bytes: usize,
}

// src/wrappers.c; session and clock record are changed in place, and the results have the layouts of the engine's.
unsafe extern "C" {
    fn wrapped_start(
        session: *mut Session,
        clock: *mut Clock,
        chart: *const Chart,
        trace: *mut u32,
        room: usize,
    ) -> Started;
    fn wrapped_post(session: *mut Session, chart: *const Chart, name: *const u8, length: usize) -> u32;
    fn wrapped_clock(session: *mut Session, clock: *mut Clock, chart: *const Chart, ticks: u64) -> u32;
    fn wrapped_run(
        session: *mut Session,
        clock: *mut Clock,
        chart: *const Chart,
        rounds: u32,
        trace: *mut u32,
        room: usize,
    ) -> Ran;
    fn wrapped_step(
        session: *mut Session,
        clock: *mut Clock,
        chart: *const Chart,
        name: *const u8,
        length: usize,
        rounds: u32,
        trace: *mut u32,
        room: usize,
    ) -> Stepped;
}

fn chart(lent: Lent) -> Chart {
    let Lent { numbers, names } = lent;
    Chart { numbers: numbers.as_ptr(), cells: numbers.len(), names: names.as_ptr(), bytes: names.len() }
}

pub struct Wrappers;

// Safety, of all five: places are there and as long as is said; the wrappers test the rest.
impl Calls for Wrappers {
    fn name(&self) -> &'static str {
        "wrappers"
    }

    fn start(&self, held: &mut Held, lent: Lent, trace: &mut [u32]) -> Started {
        let Held { session, clock } = held;
        unsafe { wrapped_start(session, clock, &chart(lent), trace.as_mut_ptr(), trace.len()) }
    }

    fn post(&self, session: &mut Session, lent: Lent, name: &[u8]) -> u32 {
        unsafe { wrapped_post(session, &chart(lent), name.as_ptr(), name.len()) }
    }

    fn run(&self, held: &mut Held, lent: Lent, rounds: u32, trace: &mut [u32]) -> Ran {
        let Held { session, clock } = held;
        unsafe { wrapped_run(session, clock, &chart(lent), rounds, trace.as_mut_ptr(), trace.len()) }
    }

    fn clock(&self, held: &mut Held, lent: Lent, ticks: u64) -> u32 {
        unsafe { wrapped_clock(&mut held.session, &mut held.clock, &chart(lent), ticks) }
    }

    fn step(&self, held: &mut Held, lent: Lent, name: &[u8], rounds: u32, trace: &mut [u32]) -> Stepped {
        let Held { session, clock } = held;
        let (text, length) = (name.as_ptr(), name.len());
        let (entries, room) = (trace.as_mut_ptr(), trace.len());
        unsafe { wrapped_step(session, clock, &chart(lent), text, length, rounds, entries, room) }
    }
}
