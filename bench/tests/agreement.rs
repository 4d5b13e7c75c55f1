//! The engine answers as the second program does.

use bench::agreement::try_seed;
use bench::charts::{chart_a, regions, Case, Moving, LONG, SHORT};
use bench::contenders::{Engine, Follower};
use bench::measure::Bench;
use second::coverage::Coverage;

#[test]
fn generated_charts_agree() {
    let mut coverage = Coverage::default();
    for seed in 50_000..50_400 {
        try_seed(seed, &mut coverage).unwrap_or_else(|what| panic!("{what}"));
    }
    let runs_and_starts = ["run: 7", "run: 8", "run: 9", "run: 10", "start: 8", "start: 10"];
    let others = ["post: 6", "post: 7", "clock: 8", "clock: 9", "clock: 11", "clock: 14"];
    for refusal in runs_and_starts.into_iter().chain(others) {
        assert!(coverage.get(refusal) > 0, "no {refusal} among the calls");
    }
}

/// A measurement begins with both doing the same, or fails.
#[test]
fn measured_charts_agree() {
    let great = |moving, words| regions(62, 20, moving, words);
    let cases: [Case; 6] = [
        chart_a(),
        great(Moving::All, SHORT),
        great(Moving::One, SHORT),
        great(Moving::All, LONG),
        great(Moving::One, LONG),
        regions(256, 1, Moving::One, SHORT),
    ];
    for case in cases {
        Bench::new(&Follower, &Engine, 70, 1).rounds(&case);
    }
}
