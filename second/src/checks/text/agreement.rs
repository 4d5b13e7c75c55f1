//! The recogniser of the grammar and the reader's own scanner say the same of every text: whether it is
//! of the grammar, and if not, at which byte it ceases to be the beginning of one.

use super::spelling::{CHART_A, NUMBERED};
use super::{agrees, Check};
use crate::generate::{self, Flavour};
use crate::invariants::{ensure, Found};
use crate::random::Random;
use crate::text::damage::{damaged, words, BYTES};
use crate::text::read::{read, Refusal};
use crate::text::recogniser::{Recogniser, Ways};
use crate::text::samples::{BRANCHES, EVERYTHING, TIMERS};
use crate::text::scan::scan;
use crate::text::spell::spell;

/// Pieces of random texts, and texts of each.
const PIECES: u64 = 8;
const TEXTS_OF_PIECE: u64 = 2_500;

pub fn checks() -> Vec<Check> {
    let mut checks = Vec::new();
    let texts = [
        ("everything", EVERYTHING),
        ("chart A", CHART_A),
        ("the numbered chart", NUMBERED),
        ("branches", BRANCHES),
        ("sends and cancels", TIMERS),
    ];
    for (what, text) in texts {
        let name = |how: &str| format!("text: recogniser and reader on {what}, {how}");
        let text = text.as_bytes();
        checks.push(Check::new(name("prefixes"), move || prefixes(text)));
        let changes = name("bytes changed, preceded, left out and swapped");
        checks.push(Check::new(changes, move || each_byte(text)));
    }
    for piece in 0..PIECES {
        let name = |what: &str| format!("text: recogniser and reader on {what}, piece {piece}");
        checks.push(Check::new(name("damaged spellings"), move || damaged_spellings(piece)));
        checks.push(Check::new(name("words in no order"), move || random_words(piece)));
    }
    checks
}

fn prefixes(text: &[u8]) -> Found {
    let mut recogniser = Recogniser::default();
    ensure(recogniser.fault(text).is_none(), "the whole text is of the grammar")?;
    (0..=text.len()).try_for_each(|length| agrees(&mut recogniser, &text[..length]))
}

/// The recogniser's ways before each byte of a text, so that a changed text is taken up at its change.
struct Stops {
    recogniser: Recogniser,
    ways: Vec<Ways>,
}

impl Stops {
    fn of(text: &[u8]) -> Stops {
        let mut recogniser = Recogniser::default();
        let mut ways = vec![recogniser.start()];
        for &byte in text {
            let next = recogniser.step(&ways[ways.len() - 1], byte);
            ways.push(next);
        }
        Stops { recogniser, ways }
    }

    /// Whether both say the same of a text that is the old one up to a place.
    fn agrees(&mut self, changed: &[u8], from: usize) -> Found {
        let wanted = self.recogniser.fault_from(&self.ways[from], from, changed);
        let found = scan(changed).err();
        let shown = String::from_utf8_lossy(changed);
        ensure(found == wanted, &format!("{shown:?}: the scanner {found:?}, the recogniser {wanted:?}"))
    }
}

fn each_byte(text: &[u8]) -> Found {
    let mut stops = Stops::of(text);
    for place in 0..text.len() {
        for byte in BYTES {
            let mut changed = text.to_vec();
            changed[place] = byte;
            stops.agrees(&changed, place)?;
            changed[place] = text[place];
            changed.insert(place, byte);
            stops.agrees(&changed, place)?;
        }
        let mut changed = text.to_vec();
        changed.remove(place);
        stops.agrees(&changed, place)?;
        let mut changed = text.to_vec();
        changed.swap(place, (place + 1).min(text.len() - 1));
        stops.agrees(&changed, place)?;
    }
    Ok(())
}

/// Where the recogniser finds a fault the reader answers a 12 there, and no other 12 is of the grammar.
fn reads_alike(recogniser: &mut Recogniser, text: &[u8]) -> Found {
    agrees(recogniser, text)?;
    match (recogniser.fault(text), read(text)) {
        (Some(place), found) => {
            ensure(found == Err(Refusal::Text(place)), &format!("{found:?} for a fault at {place}"))
        }
        (None, Err(Refusal::Text(place))) => {
            ensure(place < text.len(), "a fault of the second stage is in the text")
        }
        (None, _) => Ok(()),
    }
}

fn damaged_spellings(piece: u64) -> Found {
    let random = &mut Random::seeded(piece);
    let mut recogniser = Recogniser::default();
    let mut count = 0;
    while count < TEXTS_OF_PIECE {
        let rows = random.between(2, 12);
        let flavour = Flavour { blocks: 60, ..Flavour::with_rows(random, rows) };
        let text = spell(&generate::chart(random, flavour), random);
        for _ in 0..25 {
            let mut changed = damaged(&text, random);
            if random.chance(20) && !changed.is_empty() {
                changed = damaged(&changed, random);
            }
            reads_alike(&mut recogniser, &changed)?;
            count += 1;
        }
    }
    Ok(())
}

fn random_words(piece: u64) -> Found {
    let random = &mut Random::seeded(1_000 + piece);
    let mut recogniser = Recogniser::default();
    (0..TEXTS_OF_PIECE).try_for_each(|_| reads_alike(&mut recogniser, &words(random)))
}
