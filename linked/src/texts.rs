//! Texts read by the library and by the second program: charts in random spellings, damaged ones,
//! ones with faults at known places, words in no order, and every change of one byte of a few texts, which
//! the recogniser of the grammar judges too.

use crate::compare::{add, ensure, Guarded};
use crate::library::{self, Scratch};
use crate::seeds::Tally;
use second::generate::{self, Flavour};
use second::random::Random;
use second::text::damage::{damaged, words, BYTES};
use second::text::elements::Name;
use second::text::faults::tags;
use second::text::plant::planted;
use second::text::read::{meaning, read_into, Refusal};
use second::text::recogniser::{Recogniser, Ways};
use second::text::samples::{BRANCHES, EVERYTHING, TIMERS};
use second::text::scan::scan;
use second::text::spell::spell;

/// 12, with the offset of the first fault.
const BAD_TEXT: usize = 12;

/// How many damaged spellings each seed makes.
const DAMAGED: usize = 6;

/// Elements of rows, which make a chart that breaks a rule where they stand for each other.
const ROWS: [&str; 4] = ["state", "parallel", "final", "history"];

/// The texts of which every byte is changed.
const TEXTS: [&str; 3] = [EVERYTHING, BRANCHES, TIMERS];

/// Texts by their answers.
#[derive(Clone, Default)]
pub struct Counts {
    pub answers: [u64; BAD_TEXT + 1],
}

impl Tally for Counts {
    fn join(&mut self, other: &Counts) {
        add(&mut self.answers, &other.answers);
    }
}

/// Reads with the library in both its forms and with the second program, into places of these sizes.
fn reads_alike(text: &[u8], cells: usize, bytes: usize, random: &mut Random) -> Result<usize, String> {
    let numbers = Guarded::new(cells, || random.number());
    let names = Guarded::new(bytes, || random.number() as u8);
    let (mut own_numbers, mut own_names) = (numbers.clone(), names.clone());
    let own = read_into(text, own_numbers.lent(), own_names.lent());
    let wanted = match own {
        Ok((cells, bytes)) => (0, 0, cells, bytes),
        Err(Refusal::Text(place)) => (BAD_TEXT as u32, place, 0, 0),
        Err(Refusal::Rule(rule)) => (rule as u32, 0, 0, 0),
    };
    for lends in [false, true] {
        let (mut given_numbers, mut given_names) = (numbers.clone(), names.clone());
        let before = text.to_vec();
        let (place, name_place) = (given_numbers.lent(), given_names.lent());
        let read = match lends {
            true => Scratch::filled(random.number() as u8).read(text, place, name_place),
            false => library::read(text, place, name_place),
        };
        let given = (read.answer, read.offset, read.cells, read.bytes);
        let shown = || String::from_utf8_lossy(&text[..text.len().min(2_000)]).into_owned();
        ensure(given == wanted, || format!("{given:?}, not {wanted:?}, of {:?}", shown()))?;
        ensure(text == before, || "the text is not as it was".to_string())?;
        ensure(given_numbers.cells == own_numbers.cells, || format!("other numbers of {:?}", shown()))?;
        ensure(given_names.cells == own_names.cells, || format!("other names of {:?}", shown()))?;
    }
    Ok(wanted.0 as usize)
}

/// Places of exactly the size of the tables, of more, of less, and of nothing.
fn reads_in_places(text: &[u8], random: &mut Random, counts: &mut Counts) -> Result<(), String> {
    let (cells, bytes) = meaning(text).map_or((99, 640), |spelt| (spelt.numbers.len(), spelt.names.len()));
    let sizes = [
        (cells, bytes),
        (cells + random.below(99), bytes + random.below(99)),
        (cells - 1, bytes),
        (cells, bytes.saturating_sub(1)),
        (0, 0),
    ];
    for (cells, bytes) in sizes {
        counts.answers[reads_alike(text, cells, bytes, random)?] += 1;
    }
    Ok(())
}

/// The text in places that are large enough, if it is not too large for them.
fn reads(text: &[u8], random: &mut Random, counts: &mut Counts) -> Result<(), String> {
    counts.answers[reads_alike(text, 27_756, 49_152, random)?] += 1;
    Ok(())
}

/// The text with one kind of row's element for another, in start and end tags alike.
fn retagged(text: &[u8], random: &mut Random) -> Vec<u8> {
    let (old, new) = (ROWS[random.below(ROWS.len())], ROWS[random.below(ROWS.len())]);
    let text = String::from_utf8_lossy(text);
    let starts = text.replace(&format!("<{old}"), &format!("<{new}"));
    starts.replace(&format!("</{old}"), &format!("</{new}")).into_bytes()
}

fn is_name_byte(byte: Option<&u8>) -> bool {
    byte.is_some_and(|byte| byte.is_ascii_alphanumeric() || b"-_.".contains(byte))
}

/// The text with a digit in front of one id, wherever it stands.
fn renamed(text: &[u8], random: &mut Random) -> Vec<u8> {
    let marks = scan(text).unwrap_or_default();
    let ids: Vec<_> = tags(&marks).filter_map(|tag| tag.attribute(Name::Id)).collect();
    if ids.is_empty() {
        return text.to_vec();
    }
    let id = ids[random.below(ids.len())];
    let id = &text[id.start..id.end];
    let mut next = Vec::new();
    for (place, &byte) in text.iter().enumerate() {
        let before = place.checked_sub(1).and_then(|place| text.get(place));
        let stands = text[place..].starts_with(id) && !is_name_byte(before);
        if stands && !is_name_byte(text.get(place + id.len())) {
            next.push(b'9');
        }
        next.push(byte);
    }
    next
}

/// The text with something more at the end of a row of this element.
fn with_more(text: &[u8], more: &str, element: &str) -> Vec<u8> {
    let end = format!("</{element}");
    String::from_utf8_lossy(text).replacen(&end, &format!("{more}{end}"), 1).into_bytes()
}

/// A text that reads well in most cases, but whose chart breaks a rule.
fn unruly(text: &[u8], random: &mut Random) -> Vec<u8> {
    match random.below(4) {
        0 => retagged(text, random),
        1 => renamed(text, random),
        2 => with_more(text, "<onexit><log label='1'/></onexit>", "scxml"),
        _ => with_more(text, "<transition/>", ROWS[random.below(ROWS.len())]),
    }
}

/// Compares all that a seed makes.
pub fn try_seed(seed: u64, counts: &mut Counts) -> Result<(), String> {
    let random = &mut Random::seeded(seed);
    let flavour = Flavour::any(random);
    let text = spell(&generate::chart(random, flavour), random);
    reads_in_places(&text, random, counts)?;
    reads(&unruly(&text, random), random, counts)?;
    if let Some((text, _)) = planted(&text, random) {
        reads(&text, random, counts)?;
    }
    for _ in 0..DAMAGED {
        let mut changed = damaged(&text, random);
        if random.chance(20) && !changed.is_empty() {
            changed = damaged(&changed, random);
        }
        reads(&changed, random, counts)?;
    }
    reads(&words(random), random, counts)
}

/// So many places are there in the texts of which every byte is changed.
pub fn places() -> u64 {
    TEXTS.iter().map(|text| text.len() as u64).sum()
}

/// The text up to a place, and the whole with the byte there changed to, and preceded by, forty others, left
/// out, and swapped with the next. The recogniser is taken up at the place.
pub fn try_place(place: u64, counts: &mut Counts) -> Result<(), String> {
    let mut place = place as usize;
    let mut texts = TEXTS.iter().map(|text| text.as_bytes());
    let mut text = texts.next().unwrap_or_default();
    while place >= text.len() {
        place -= text.len();
        text = texts.next().expect("there are no more places than the texts have");
    }
    let mut recogniser = Recogniser::default();
    let mut ways = recogniser.start();
    for &byte in &text[..place] {
        ways = recogniser.step(&ways, byte);
    }
    let mut changes = vec![text[..place].to_vec()];
    for byte in BYTES {
        changes.push([&text[..place], &[byte], &text[place + 1..]].concat());
        changes.push([&text[..place], &[byte], &text[place..]].concat());
    }
    changes.push([&text[..place], &text[place + 1..]].concat());
    let mut swapped = text.to_vec();
    swapped.swap(place, (place + 1).min(text.len() - 1));
    changes.push(swapped);
    let random = &mut Random::seeded(place as u64);
    changes.iter().try_for_each(|changed| {
        judged_alike(&mut recogniser, &ways, place, changed)?;
        reads(changed, random, counts)
    })
}

/// Whether a text that is the old one up to a place is at fault where the recogniser says so.
fn judged_alike(recogniser: &mut Recogniser, ways: &Ways, from: usize, text: &[u8]) -> Result<(), String> {
    let Some(place) = recogniser.fault_from(ways, from, text) else { return Ok(()) };
    let read = library::read(text, &mut [], &mut []);
    let shown = || String::from_utf8_lossy(text).into_owned();
    ensure((read.answer as usize, read.offset) == (BAD_TEXT, place), || {
        format!("{read:?}, and the recogniser finds a fault at {place} of {:?}", shown())
    })
}
