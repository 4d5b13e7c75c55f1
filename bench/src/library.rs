//! The proved library, as a C program calls it. Its functions are declared in package `linked`.

#![allow(unsafe_code)]

use crate::contenders::{Calls, Held, Lent};
use crate::engine::{Clock, Ran, Session, Started, Stepped};
use linked::library::{self, Compiled, Parts};
use second::clock::CLOCK_BYTES;
use std::mem::{align_of, offset_of, size_of};

// The engine's session lies as the library's does, and its clock record is as long.
const _: () = assert!(size_of::<Session>() == size_of::<library::Session>());
const _: () = assert!(size_of::<Clock>() == CLOCK_BYTES);
const _: () = assert!(align_of::<Session>() == align_of::<library::Session>());
const _: () = assert!(offset_of!(Session, configuration) == 0);
const _: () = assert!(offset_of!(Session, history) == 8 * library::HISTORY.start);
const _: () = assert!(offset_of!(Session, internal_count) == 8 * library::INTERNAL_COUNT);
const _: () = assert!(offset_of!(Session, external_count) == 8 * library::EXTERNAL_COUNT);
const _: () = assert!(offset_of!(Session, mode) == 8 * library::MODE);
const _: () = assert!(offset_of!(Session, internal) == offset_of!(library::Session, internal));
const _: () = assert!(offset_of!(Session, external) == offset_of!(library::Session, external));

/// The same bytes as the library's own struct.
fn lent_session(session: &mut Session) -> &mut library::Session {
    // Safety: both are made of plain numbers without padding, at the same places.
    unsafe { &mut *std::ptr::from_mut(session).cast() }
}

/// The places of the session, and the record as bytes.
fn lend(held: &mut Held) -> Parts<'_> {
    // Safety: a record is made of plain numbers without padding.
    let clock: &mut [u8; CLOCK_BYTES] = unsafe { &mut *std::ptr::from_mut(&mut held.clock).cast() };
    Parts { clock, ..lent_session(&mut held.session).lend() }
}

fn compiled(lent: Lent<'_>) -> Compiled<'_> {
    Compiled { numbers: lent.numbers, names: lent.names }
}

pub struct Library;

impl Calls for Library {
    fn name(&self) -> &'static str {
        "library"
    }

    fn start(&self, held: &mut Held, lent: Lent, trace: &mut [u32]) -> Started {
        let given = lend(held).start(compiled(lent), trace);
        Started { answer: given.answer, count: given.count }
    }

    fn post(&self, session: &mut Session, lent: Lent, name: &[u8]) -> u32 {
        lent_session(session).lend().post(compiled(lent), name)
    }

    fn run(&self, held: &mut Held, lent: Lent, rounds: u32, trace: &mut [u32]) -> Ran {
        let given = lend(held).run(compiled(lent), rounds, trace);
        Ran { status: given.status, rounds: given.rounds, count: given.count }
    }

    fn clock(&self, held: &mut Held, lent: Lent, ticks: u64) -> u32 {
        lend(held).clock(compiled(lent), ticks)
    }

    fn step(&self, held: &mut Held, lent: Lent, name: &[u8], rounds: u32, trace: &mut [u32]) -> Stepped {
        let given = lend(held).step(compiled(lent), name, rounds, trace);
        Stepped { answer: given.answer, status: given.status, rounds: given.rounds, count: given.count }
    }
}
