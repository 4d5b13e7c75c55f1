//! The worked examples of document 02's requests give what was worked out by hand.

use super::Check;
use crate::invariants::{ensure, Found};
use crate::worked::{self, Worked};

pub fn checks() -> Vec<Check> {
    worked::all()
        .into_iter()
        .map(|one| Check::new(one.example.about.clone(), move || is_right(&one)))
        .collect()
}

fn is_right(one: &Worked) -> Found {
    let given = one.example.verdict;
    ensure(given == one.verdict, &format!("verdict {given}, not {}", one.verdict))?;
    let lines = one.given();
    ensure(lines == one.lines, &format!("{lines:#?}"))
}
