//! Reading and writing text: every reading of by an example, the recogniser of the grammar
//! against the reader, round trips, and documents as they are found.

use super::Check;
use crate::encode::Spelt;
use crate::invariants::{ensure, Found};
use crate::tables::{Chart, Tables};
use crate::text::read::{read, Refusal};
use crate::text::recogniser::Recogniser;
use crate::text::scan::scan;

mod agreement;
mod documents;
mod examples;
mod readings;
mod round_trips;
mod sizes;
mod spelling;

pub fn checks() -> Vec<Check> {
    let mut checks = Vec::new();
    checks.extend(readings::checks());
    checks.extend(sizes::checks());
    checks.extend(spelling::checks());
    checks.extend(agreement::checks());
    checks.extend(round_trips::checks());
    checks.extend(documents::checks());
    checks
}

/// Stands before the byte at fault in an expected text.
const MARK: char = '¦';

/// The text without its mark, and where that stood.
fn unmarked(text: &str) -> (Vec<u8>, Option<usize>) {
    (text.replace(MARK, "").into_bytes(), text.find(MARK))
}

/// Whether the reader answers this number, a 12 at the mark, and the recogniser agrees.
fn answers(recogniser: &mut Recogniser, expected: u64, marked: &str) -> Found {
    let (text, place) = unmarked(marked);
    agrees(recogniser, &text)?;
    let wanted = match (expected, place) {
        (12, Some(place)) => Err(Refusal::Text(place)),
        (0, None) => Ok(()),
        (rule @ 1..=5, None) => Err(Refusal::Rule(rule)),
        _ => return Err(format!("a 12 has a mark and no other answer has one: {marked}")),
    };
    let found = read(&text).map(|_| ());
    ensure(found == wanted, &format!("{marked}: {found:?}, expected {wanted:?}"))
}

/// Whether the scanner and the recogniser say the same of a text.
fn agrees(recogniser: &mut Recogniser, text: &[u8]) -> Found {
    let (found, wanted) = (scan(text).err(), recogniser.fault(text));
    let shown = String::from_utf8_lossy(&text[..text.len().min(2_000)]);
    ensure(found == wanted, &format!("{shown:?}: the scanner {found:?}, the recogniser {wanted:?}"))
}

/// The chart of tables that keep rule 1.
fn decoded(tables: &Spelt) -> Chart {
    let read = Tables::read(&tables.numbers, &tables.names).expect("the tables fit their header");
    read.decode()
}
