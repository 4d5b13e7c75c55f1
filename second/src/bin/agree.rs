//! agree [first seed] [count]: compares generated charts, charts with journals and flat tables, and prints what was
//! covered.

use second::agreement;
use second::coverage::Coverage;
use second::flat_agreement;
use second::journal_agreement;
use std::process::ExitCode;
use std::thread;

const THREADS: u64 = 2;

fn main() -> ExitCode {
    let mut arguments = std::env::args().skip(1).map(|text| text.parse::<u64>());
    let first = arguments.next().and_then(Result::ok).unwrap_or(1);
    let count = arguments.next().and_then(Result::ok).unwrap_or(20_000);
    let workers: Vec<_> =
        (0..THREADS).map(|worker| thread::spawn(move || work(first, count, worker))).collect();
    let mut coverage = Coverage::default();
    let mut failed = 0;
    for worker in workers {
        let (covered, failures) = worker.join().expect("a worker ends");
        coverage.join(&covered);
        failed += failures;
    }
    print!("{coverage}");
    println!("{} charts agreed, {failed} failed", count - failed);
    if failed == 0 {
        ExitCode::SUCCESS
    } else {
        ExitCode::FAILURE
    }
}

fn work(first: u64, count: u64, worker: u64) -> (Coverage, u64) {
    let mut coverage = Coverage::default();
    let mut failed = 0;
    for seed in (first..first + count).filter(|seed| seed % THREADS == worker) {
        if let Err(failure) = try_seed(seed, &mut coverage) {
            println!("{failure}");
            failed += 1;
        }
    }
    (coverage, failed)
}

/// All that is compared on one seed.
fn try_seed(seed: u64, coverage: &mut Coverage) -> Result<(), String> {
    agreement::try_seed(seed, coverage).map_err(|failure| format!("seed {seed}: {failure:?}"))?;
    journal_agreement::try_seed(seed, coverage)?;
    flat_agreement::try_seed(seed, coverage)
}
