//! agree [first seed] [count]: holds the engine, and the library where it is linked, to the second
//! program, and prints what was covered; with many charts it must be enough.

use bench::agreement::{enough_happened, try_seed};
use second::coverage::Coverage;
use std::process::ExitCode;

/// With fewer charts than this not every answer need come up.
const MANY: u64 = 1_000;

fn main() -> ExitCode {
    let mut arguments = std::env::args().skip(1).map(|text| text.parse::<u64>());
    let first = arguments.next().and_then(Result::ok).unwrap_or(1);
    let count = arguments.next().and_then(Result::ok).unwrap_or(3_000);
    let mut coverage = Coverage::default();
    let mut failed = 0;
    for seed in first..first + count {
        if let Err(what) = try_seed(seed, &mut coverage) {
            println!("{what}");
            failed += 1;
        }
    }
    print!("{coverage}");
    println!("{} charts agreed, {failed} failed", count - failed);
    let enough = if count < MANY { Ok(()) } else { enough_happened(&coverage) };
    if let Err(what) = &enough {
        println!("not enough happened: {what}");
    }
    match failed == 0 && enough.is_ok() {
        true => ExitCode::SUCCESS,
        false => ExitCode::FAILURE,
    }
}
