//! Measuring two contenders on one chart, by turns.

use crate::charts::Case;
use crate::clock;
use crate::contenders::{Calls, Held};
use crate::engine::answers::{DONE, MORE};
use crate::engine::Ran;
use std::hint::black_box;

/// No round of the charts measured here writes more.
pub const MOST_ENTRIES_A_ROUND: usize = 96;

/// What was measured: nanoseconds for each round or call, and how many times longer the first
/// contender takes.
#[derive(Clone, Copy)]
pub struct Point {
    pub first: f64,
    pub engine: f64,
    pub ratio: f64,
    pub entries: f64,
}

pub struct Bench<'a> {
    pub first: &'a dyn Calls,
    pub engine: &'a dyn Calls,
    pub rounds: u32,
    pub repetitions: usize,
    trace: Vec<u32>,
}

impl<'a> Bench<'a> {
    pub fn new(first: &'a dyn Calls, engine: &'a dyn Calls, rounds: u32, repetitions: usize) -> Bench<'a> {
        // Written once, so that no page of it is touched for the first time under the clock.
        let trace = vec![1; rounds as usize * MOST_ENTRIES_A_ROUND];
        Bench { first, engine, rounds, repetitions, trace }
    }

    /// All rounds in one run.
    pub fn rounds(&mut self, case: &Case) -> Point {
        let count = self.agreed(case);
        let mut pairs = Vec::new();
        for repetition in 0..self.repetitions {
            pairs.push(self.by_turns(repetition, |bench, calls| bench.time_run(case, calls)));
        }
        let each = f64::from(self.rounds);
        point(&pairs, each, count as f64 / each)
    }

    /// Runs of no rounds: what a call costs before it comes to its rounds.
    pub fn calls(&mut self, case: &Case, calls: u32) -> Point {
        let mut pairs = Vec::new();
        for repetition in 0..self.repetitions {
            pairs.push(self.by_turns(repetition, |bench, who| bench.time_calls(case, who, calls)));
        }
        point(&pairs, f64::from(calls), 0.0)
    }

    /// One time of each; who goes first changes.
    fn by_turns(
        &mut self,
        repetition: usize,
        mut time: impl FnMut(&mut Bench<'a>, &'a dyn Calls) -> f64,
    ) -> (f64, f64) {
        let (first, engine) = (self.first, self.engine);
        if repetition % 2 == 0 {
            let one = time(self, first);
            (one, time(self, engine))
        } else {
            let other = time(self, engine);
            (time(self, first), other)
        }
    }

    fn time_run(&mut self, case: &Case, calls: &dyn Calls) -> f64 {
        let mut held = ready(case, calls, &mut self.trace);
        let begun = clock::now();
        let ran = calls.run(black_box(&mut held), case.lent(), self.rounds, black_box(&mut self.trace));
        let time = clock::now() - begun;
        assert_eq!((ran.status, ran.rounds), (MORE, self.rounds), "{} stops early", calls.name());
        time
    }

    fn time_calls(&mut self, case: &Case, calls: &dyn Calls, count: u32) -> f64 {
        let mut held = ready(case, calls, &mut self.trace);
        let begun = clock::now();
        for _ in 0..count {
            black_box(calls.run(black_box(&mut held), case.lent(), 0, black_box(&mut self.trace)));
        }
        clock::now() - begun
    }

    /// Both contenders do the same on this chart; the count of entries.
    fn agreed(&mut self, case: &Case) -> usize {
        let (held, ran) = self.run_by(case, self.first);
        let Ran { status, rounds, count } = ran;
        assert_eq!((status, rounds), (MORE, self.rounds), "{} rests on {}", self.first.name(), case.about);
        let trace = self.trace[..count].to_vec();
        let same = (held, ran) == self.run_by(case, self.engine) && trace == self.trace[..count];
        assert!(same, "{} and {} differ on {}", self.first.name(), self.engine.name(), case.about);
        count
    }

    fn run_by(&mut self, case: &Case, calls: &dyn Calls) -> (Held, Ran) {
        let mut held = ready(case, calls, &mut self.trace);
        let ran = calls.run(&mut held, case.lent(), self.rounds, &mut self.trace);
        (held, ran)
    }
}

/// A started session with the event that sets it going.
fn ready(case: &Case, calls: &dyn Calls, trace: &mut [u32]) -> Held {
    let mut held = Held::ENDED;
    let started = calls.start(&mut held, case.lent(), trace).answer;
    let posted = calls.post(&mut held.session, case.lent(), case.event.as_bytes());
    assert_eq!((started, posted), (DONE, DONE), "{} begins {}", calls.name(), case.about);
    held
}

fn point(pairs: &[(f64, f64)], each: f64, entries: f64) -> Point {
    Point {
        first: median(pairs.iter().map(|pair| pair.0)) / each,
        engine: median(pairs.iter().map(|pair| pair.1)) / each,
        ratio: median(pairs.iter().map(|pair| pair.0 / pair.1)),
        entries,
    }
}

fn median(values: impl Iterator<Item = f64>) -> f64 {
    let mut values: Vec<f64> = values.collect();
    values.sort_by(f64::total_cmp);
    let middle = values.len() / 2;
    match values.len() % 2 {
        0 => (values[middle - 1] + values[middle]) / 2.0,
        _ => values[middle],
    }
}
