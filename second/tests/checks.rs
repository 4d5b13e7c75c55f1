//! The same checks under `cargo test`.

use second::checks::{agreement, enough_happened, small, Check};
use second::coverage::Coverage;

fn all_pass(checks: Vec<Check>) -> Coverage {
    let mut coverage = Coverage::default();
    for check in checks {
        if let Err(what) = (check.run)(&mut coverage) {
            panic!("{}: {what}", check.name);
        }
    }
    coverage
}

#[test]
fn small_checks_pass() {
    all_pass(small());
}

#[test]
fn generated_charts_agree() {
    let coverage = all_pass(agreement());
    assert_eq!(enough_happened(&coverage), Ok(()));
}
