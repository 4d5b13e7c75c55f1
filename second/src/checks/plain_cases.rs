//! The cases that the library is compared on have enough of everything: every answer comes up, and a
//! refusal leaves the places as they were.

use super::Check;
use crate::flat_cases::flat_cases;
use crate::invariants::{ensure, Found};
use crate::list_cases::list_cases;
use crate::recorded_calls::CALL_CELLS;
use crate::replay_cases::replay_cases;
use std::collections::BTreeMap;

const SEEDS: u64 = 300;
/// How often each answer must come up.
const OFTEN: u64 = 10;

pub fn checks() -> Vec<Check> {
    vec![
        Check::new("cases: lists of calls with a journal have every answer of every kind", lists),
        Check::new("cases: replays have every answer", replays),
        Check::new("cases: flat tables have every answer", flats),
    ]
}

fn all_often(counts: &BTreeMap<(u64, u64), u64>, wanted: &[(u64, &[u64])]) -> Found {
    for &(kind, answers) in wanted {
        for &answer in answers {
            let count = counts.get(&(kind, answer)).copied().unwrap_or(0);
            ensure(count >= OFTEN, &format!("kind {kind}, answer {answer}: only {count}"))?;
        }
    }
    let known = |(kind, answer): &(u64, u64)| {
        wanted.iter().any(|(other, answers)| other == kind && answers.contains(answer))
    };
    ensure(counts.keys().all(known), &format!("an answer that no call gives: {counts:?}"))
}

/// Start, post, run, clock call and step back.
fn lists() -> Found {
    let mut counts = BTreeMap::new();
    let (mut whole, mut part) = (0, 0);
    for case in (0..SEEDS).flat_map(list_cases) {
        let calls = case.after.cells.chunks_exact(CALL_CELLS);
        let length = calls.len();
        for call in calls.take(case.performed) {
            *counts.entry((call[0], call[4])).or_insert(0) += 1;
        }
        *(if case.performed == length { &mut whole } else { &mut part }) += 1;
        ensure(case.performed > 0 || case.before == case.after, "no call leaves all")?;
    }
    ensure(whole >= OFTEN && part >= OFTEN, "lists to their end, and lists that end before it")?;
    let wanted: [(u64, &[u64]); 5] = [
        (0, &[0, 7, 8, 10]),
        (1, &[0, 6, 7, 8, 9, 11, 15]),
        (2, &[100, 101, 102, 7, 8, 9, 10, 15]),
        (3, &[0, 8, 9, 11, 14, 15]),
        (4, &[0, 8, 9, 10]),
    ];
    all_often(&counts, &wanted)
}

fn replays() -> Found {
    let mut counts = BTreeMap::new();
    for case in (0..SEEDS).flat_map(replay_cases) {
        *counts.entry((0, case.answer)).or_insert(0) += 1;
        ensure(case.answer == 0 || case.before == case.after && case.count == 0, "a refusal leaves all")?;
        ensure(case.before.session.journal == case.after.session.journal, "a replay leaves the journal")?;
    }
    all_often(&counts, &[(0, &[0, 8, 9, 10])])
}

fn flats() -> Found {
    let mut counts = BTreeMap::new();
    for case in (0..SEEDS).flat_map(flat_cases) {
        *counts.entry((0, case.answer)).or_insert(0) += 1;
        ensure(case.answer == 0 || case.before == case.after, "a refusal leaves the place")?;
    }
    all_often(&counts, &[(0, &[0, 1, 6, 8, 16, 17])])
}
