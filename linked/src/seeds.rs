//! Many seeds, tried on two threads.

use crate::compare::Counts;
use std::ops::Range;
use std::sync::atomic::{AtomicU64, Ordering};
use std::thread;

const THREADS: usize = 2;
/// A read that is lent no scratch takes less than 512 KB.
const STACK: usize = 2 << 20;

/// What is counted while seeds are tried.
pub trait Tally: Clone + Send + Sync {
    fn join(&mut self, other: &Self);
}

impl Tally for Counts {
    fn join(&mut self, other: &Counts) {
        Counts::join(self, other);
    }
}

/// What was counted, and a text for each seed that failed.
pub fn try_all<T: Tally>(
    seeds: Range<u64>,
    none: T,
    try_seed: impl Fn(u64, &mut T) -> Result<(), String> + Sync,
) -> (T, Vec<String>) {
    let next = AtomicU64::new(seeds.start);
    let work = || {
        let (mut tally, mut failures) = (none.clone(), Vec::new());
        loop {
            let seed = next.fetch_add(1, Ordering::Relaxed);
            if seed >= seeds.end {
                return (tally, failures);
            }
            if let Err(what) = try_seed(seed, &mut tally) {
                failures.push(format!("seed {seed}: {what}"));
            }
        }
    };
    let mut all = none.clone();
    let mut failures = Vec::new();
    thread::scope(|scope| {
        let start =
            |_| thread::Builder::new().stack_size(STACK).spawn_scoped(scope, work).expect("a worker starts");
        let workers: Vec<_> = (0..THREADS).map(start).collect();
        for worker in workers {
            let (tally, failed) = worker.join().expect("a worker ends");
            all.join(&tally);
            failures.extend(failed);
        }
    });
    (all, failures)
}
