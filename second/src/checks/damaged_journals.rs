//! Journals with a field changed, each kind of field in turn: "first k entries that no started session leaves" are 9,
//! as a search for calls that leave them finds.

use super::Check;
use crate::invariants::{ensure, Found};
use crate::journal_agreement::{try_damage, Verdict};
use crate::journal_damage::{self, JournalPart};

/// How many seeds are tried for each field, and how many of them must be refused.
const SEEDS: u64 = 120;
const REFUSED: usize = 3;

pub fn checks() -> Vec<Check> {
    journal_damage::all()
        .into_iter()
        .map(|part| {
            Check::new(format!("journals: {part} changed, beside a search for calls"), move || agrees(part))
        })
        .collect()
}

fn agrees(part: JournalPart) -> Found {
    let verdicts = (0..SEEDS).map(|seed| try_damage(seed, part)).collect::<Result<Vec<_>, _>>()?;
    let count = |wanted: Verdict| verdicts.iter().filter(|&&verdict| verdict == wanted).count();
    let counts = [Verdict::Left, Verdict::NotLeft, Verdict::Unknown, Verdict::NoSuchField].map(count);
    let [left, refused, unknown, _] = counts;
    let enough = match part {
        JournalPart::Behind => refused == 0 && left > REFUSED,
        _ => refused >= REFUSED,
    };
    ensure(
        enough && unknown <= SEEDS as usize / 20,
        &format!("left, not left, unknown, no field: {counts:?}"),
    )
}
