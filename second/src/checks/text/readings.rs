//! The readings of R-1, each by its examples.

use super::examples::EXAMPLES;
use super::{answers, Check};
use crate::invariants::{ensure, Found};
use crate::text::ebnf::SCXML_TEXT;
use crate::text::elements::ACTIONS;
use crate::text::recogniser::Recogniser;

pub fn checks() -> Vec<Check> {
    let check = |&(reading, examples): &(&str, &'static [(u64, &'static str)])| {
        Check::new(format!("text: {reading}"), move || {
            let mut recogniser = Recogniser::default();
            examples.iter().try_for_each(|&(answer, text)| answers(&mut recogniser, answer, text))
        })
    };
    let mut checks: Vec<Check> = EXAMPLES.iter().map(check).collect();
    checks.push(Check::new("text: the actions of docs are those that are read", known_actions));
    checks
}

fn known_actions() -> Found {
    let words: Vec<&str> = ACTIONS.iter().map(|action| action.entry().word).collect();
    let rule = SCXML_TEXT.lines().find(|line| line.starts_with("action "));
    ensure(rule == Some(&format!("action      = {}", words.join(" | "))), &format!("{rule:?}"))
}
