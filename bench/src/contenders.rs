//! Whoever answers the calls, behind one face: the engine, the second program, and where it is
//! linked the proved library.

use crate::bridge::{followed, plain, recorded, timed};
use crate::engine::{Clock, Ran, Session, Started, Stepped};
use second::compiled::CompiledChart;
use second::session::Answer;
use second::timed::watch_nothing;

/// A compiled chart as it is lent.
#[derive(Clone, Copy)]
pub struct Lent<'a> {
    pub numbers: &'a [u64],
    pub names: &'a [u8],
}

/// A session and its clock record as they are lent.
#[derive(Clone, Copy, PartialEq, Eq, Debug)]
pub struct Held {
    pub session: Session,
    pub clock: Clock,
}

impl Held {
    pub const ENDED: Held = Held { session: Session::ENDED, clock: Clock::NEW };
}

/// The calls on a session and its record, which are changed where they are; a post takes no record.
pub trait Calls {
    fn name(&self) -> &'static str;
    fn start(&self, held: &mut Held, lent: Lent, trace: &mut [u32]) -> Started;
    fn post(&self, session: &mut Session, lent: Lent, name: &[u8]) -> u32;
    fn run(&self, held: &mut Held, lent: Lent, rounds: u32, trace: &mut [u32]) -> Ran;
    fn clock(&self, held: &mut Held, lent: Lent, ticks: u64) -> u32;

    /// One call for an event: equal to the post and then the run.
    fn step(&self, held: &mut Held, lent: Lent, name: &[u8], rounds: u32, trace: &mut [u32]) -> Stepped {
        let answer = self.post(&mut held.session, lent, name);
        let Ran { status, rounds, count } = self.run(held, lent, rounds, trace);
        Stepped { answer, status, rounds, count }
    }
}

/// The ordinary engine of this project.
pub struct Engine;

impl Calls for Engine {
    fn name(&self) -> &'static str {
        "engine"
    }

    fn start(&self, held: &mut Held, lent: Lent, trace: &mut [u32]) -> Started {
        held.session.start(&mut held.clock, lent.numbers, lent.names, trace)
    }

    fn post(&self, session: &mut Session, lent: Lent, name: &[u8]) -> u32 {
        session.post(lent.numbers, lent.names, name)
    }

    fn run(&self, held: &mut Held, lent: Lent, rounds: u32, trace: &mut [u32]) -> Ran {
        held.session.run(&mut held.clock, lent.numbers, lent.names, rounds, trace)
    }

    fn clock(&self, held: &mut Held, lent: Lent, ticks: u64) -> u32 {
        held.session.clock(&mut held.clock, lent.numbers, lent.names, ticks)
    }

    fn step(&self, held: &mut Held, lent: Lent, name: &[u8], rounds: u32, trace: &mut [u32]) -> Stepped {
        held.session.step(&mut held.clock, lent.numbers, lent.names, name, rounds, trace)
    }
}

/// The second program: plain and slow, and what the engine is held to.
pub struct Follower;

impl Follower {
    fn open(lent: Lent) -> Option<CompiledChart> {
        CompiledChart::open(lent.numbers, lent.names)
    }

    fn leave(held: &mut Held, answer: &Answer) {
        *held = Held { session: plain(&answer.session), clock: recorded(&answer.clock) };
    }
}

impl Calls for Follower {
    fn name(&self) -> &'static str {
        "follower"
    }

    fn start(&self, held: &mut Held, lent: Lent, trace: &mut [u32]) -> Started {
        let answer = timed(held).start(Follower::open(lent).as_ref(), trace.len(), &mut watch_nothing);
        trace[..answer.trace.len()].copy_from_slice(&answer.trace);
        Follower::leave(held, &answer);
        Started { answer: answer.number as u32, count: answer.trace.len() }
    }

    fn post(&self, session: &mut Session, lent: Lent, name: &[u8]) -> u32 {
        let answer = followed(session).post(Follower::open(lent).as_ref(), name);
        *session = plain(&answer.session);
        answer.number as u32
    }

    fn run(&self, held: &mut Held, lent: Lent, rounds: u32, trace: &mut [u32]) -> Ran {
        let answer = timed(held).run(Follower::open(lent).as_ref(), rounds, trace.len(), &mut watch_nothing);
        trace[..answer.trace.len()].copy_from_slice(&answer.trace);
        Follower::leave(held, &answer);
        Ran { status: answer.number as u32, rounds: answer.rounds, count: answer.trace.len() }
    }

    fn clock(&self, held: &mut Held, lent: Lent, ticks: u64) -> u32 {
        let answer = timed(held).clock(Follower::open(lent).as_ref(), ticks);
        Follower::leave(held, &answer);
        answer.number as u32
    }
}

/// Who is measured against the engine: the proved library, or until it is linked the follower.
#[cfg(feature = "linked")]
pub fn measured() -> impl Calls {
    crate::library::Library
}

#[cfg(not(feature = "linked"))]
pub fn measured() -> impl Calls {
    Follower
}
