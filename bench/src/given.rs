//! What everyone gives for a call, compared as a whole.

use crate::agreement::ensure;
use crate::bridge::timed;
use crate::contenders::{Calls, Engine, Follower, Held, Lent};
use crate::engine::{Ran, Started};
use second::calls::Call;
use std::fmt::Debug;

/// Who is held to the follower.
fn contenders() -> Vec<Box<dyn Calls>> {
    #[cfg_attr(not(feature = "linked"), allow(unused_mut))]
    let mut all: Vec<Box<dyn Calls>> = vec![Box::new(Engine)];
    #[cfg(feature = "linked")]
    {
        all.push(Box::new(crate::library::Library));
        all.push(Box::new(crate::wrappers::Wrappers));
    }
    all
}

/// All that a call gives: answer of a start, post or clock call, status of a run, rounds, count of entries,
/// session and record, and the whole trace with the places beyond the count.
pub type Given = (u32, u32, u32, usize, Held, Vec<u32>);

fn fresh(room: usize) -> Vec<u32> {
    (0..room as u32).map(|place| place.wrapping_mul(0x9e37_79b9)).collect()
}

pub fn given(calls: &dyn Calls, call: &Call, mut held: Held, lent: Lent) -> Given {
    match call {
        Call::Start { room } => {
            let mut trace = fresh(*room);
            let Started { answer, count } = calls.start(&mut held, lent, &mut trace);
            (answer, 0, 0, count, held, trace)
        }
        Call::Post { name } => {
            let answer = calls.post(&mut held.session, lent, name);
            (answer, 0, 0, 0, held, Vec::new())
        }
        Call::Clock { ticks } => {
            let answer = calls.clock(&mut held, lent, *ticks);
            (answer, 0, 0, 0, held, Vec::new())
        }
        Call::Run { rounds, room } => {
            let mut trace = fresh(*room);
            let Ran { status, rounds, count } = calls.run(&mut held, lent, *rounds, &mut trace);
            (0, status, rounds, count, held, trace)
        }
    }
}

/// The one call for an event.
pub fn step_given(calls: &dyn Calls, step: &Step, mut held: Held, lent: Lent) -> Given {
    let mut trace = fresh(step.room);
    let stepped = calls.step(&mut held, lent, step.name, step.rounds, &mut trace);
    (stepped.answer, stepped.status, stepped.rounds, stepped.count, held, trace)
}

#[derive(Debug)]
pub struct Step<'a> {
    pub name: &'a [u8],
    pub rounds: u32,
    pub room: usize,
}

/// Everyone gives what the follower gives.
pub fn agreed(what: &dyn Debug, by: impl Fn(&dyn Calls) -> Given) -> Result<Given, String> {
    let expected = by(&Follower);
    for contender in contenders() {
        let found = by(&*contender);
        ensure(found == expected, || {
            let told = |(answer, status, rounds, count, held, trace): &Given| {
                let entries = &trace[..(*count).min(trace.len())];
                format!("{answer}, {status}, {rounds} rounds, {entries:x?}, {:?}", timed(held))
            };
            let (name, found, expected) = (contender.name(), told(&found), told(&expected));
            format!("{what:?}\n{name}: {found}\nfollower: {expected}")
        })?;
    }
    Ok(expected)
}
