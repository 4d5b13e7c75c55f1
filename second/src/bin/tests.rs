//! Runs every check on two threads and ends with how many passed and failed; given a part of a name, those
//! checks alone that have it in theirs.

use second::checks::{agreement, enough_happened, small, Check};
use second::coverage::Coverage;
use std::process::ExitCode;
use std::sync::atomic::{AtomicUsize, Ordering};
use std::sync::Mutex;
use std::thread;

const THREADS: usize = 2;

#[derive(Default)]
struct Results {
    passed: usize,
    failures: Vec<String>,
    coverage: Coverage,
}

fn main() -> ExitCode {
    let mut checks = agreement();
    let written = small();
    println!("{} checks are written by hand", written.len());
    checks.extend(written);
    let wanted = std::env::args().nth(1);
    checks.retain(|check| wanted.as_ref().is_none_or(|part| check.name.contains(part)));
    let next = AtomicUsize::new(0);
    let results = Mutex::new(Results::default());
    thread::scope(|scope| {
        for _ in 0..THREADS {
            scope.spawn(|| work(&checks, &next, &results));
        }
    });
    let mut results = results.into_inner().expect("no worker failed");
    match enough_happened(&results.coverage) {
        _ if wanted.is_some() => {}
        Ok(()) => results.passed += 1,
        Err(what) => results.failures.push(format!("coverage: {what}")),
    }
    results.failures.sort();
    print!("{}", results.coverage);
    for failure in &results.failures {
        println!("FAILED {failure}");
    }
    println!("{} passed, {} failed", results.passed, results.failures.len());
    match results.failures.is_empty() {
        true => ExitCode::SUCCESS,
        false => ExitCode::FAILURE,
    }
}

fn work(checks: &[Check], next: &AtomicUsize, results: &Mutex<Results>) {
    let mut mine = Results::default();
    while let Some(check) = checks.get(next.fetch_add(1, Ordering::Relaxed)) {
        match run(check, &mut mine.coverage) {
            Ok(()) => mine.passed += 1,
            Err(what) => mine.failures.push(format!("{}: {what}", check.name)),
        }
    }
    let mut all = results.lock().expect("no worker failed");
    all.passed += mine.passed;
    all.failures.extend(mine.failures);
    all.coverage.join(&mine.coverage);
}

/// A check that panics has failed.
fn run(check: &Check, coverage: &mut Coverage) -> Result<(), String> {
    let run = std::panic::AssertUnwindSafe(|| (check.run)(coverage));
    std::panic::catch_unwind(run).unwrap_or_else(|_| Err("panicked".to_string()))
}
