//! Charts written by the library and by the second program: random ones in every layout, into buffers of
//! several sizes; near misses and changed tables, which are refused; what was written is read and written again.

use crate::compare::{add, ensure, Guarded};
use crate::library;
use crate::seeds::Tally;
use second::compiled::Places;
use second::damage::{damaged, of_tables, Part};
use second::encode::{encode, Layout, Spelt};
use second::generate::{self, Flavour};
use second::limits::MAX_SLOTS;
use second::near_misses::{all, NearMiss};
use second::random::Random;
use second::tables::{Action, Chart};
use second::text::content::{normal_tables, with_other_slots};
use second::text::recogniser::MAX_TEXT;
use second::text::write::{text_of, write, Unwritten};

/// The text does not fit the buffer, or is longer than what is read.
const LONG_TEXT: usize = 13;

/// How many tables with a changed cell each seed makes.
const CHANGED: usize = 4;

/// Charts by the answers that writing them gives.
#[derive(Clone, Default)]
pub struct Counts {
    pub answers: [u64; LONG_TEXT + 1],
    /// Charts with an if, with a send, with an initial list that names a history, and of more bytes than are read.
    pub kinds: [u64; 4],
}

impl Tally for Counts {
    fn join(&mut self, other: &Counts) {
        add(&mut self.answers, &other.answers);
        add(&mut self.kinds, &other.kinds);
    }
}

/// What there is to spoil.
pub struct Kinds {
    near_misses: Vec<NearMiss>,
    tables: Vec<Part>,
}

impl Kinds {
    pub fn all() -> Kinds {
        Kinds { near_misses: all(), tables: of_tables() }
    }
}

/// Writes with both into a buffer of this size. What the buffer held stays around and behind the text.
fn writes_alike(
    tables: &Spelt,
    size: usize,
    random: &mut Random,
    counts: &mut Counts,
) -> Result<Option<Vec<u8>>, String> {
    let mut buffer = Guarded::new(size, || random.number() as u8);
    let mut own_buffer = buffer.clone();
    let wanted = match write(&tables.numbers, &tables.names, own_buffer.lent()) {
        Ok(length) => (0, length),
        Err(Unwritten::Rule(rule)) => (rule as u32, 0),
        Err(Unwritten::TooLong(length)) => (LONG_TEXT as u32, length),
    };
    let before = tables.clone();
    let written = library::write(&tables.numbers, &tables.names, buffer.lent());
    let given = (written.answer, written.length);
    ensure(given == wanted, || format!("{given:?}, not {wanted:?}, in a buffer of {size} bytes"))?;
    ensure(*tables == before, || "the tables are not as they were".to_string())?;
    ensure(buffer.cells == own_buffer.cells, || format!("another text in a buffer of {size} bytes"))?;
    counts.answers[wanted.0 as usize] += 1;
    Ok((wanted.0 == 0).then(|| buffer.lent()[..wanted.1].to_vec()))
}

/// A layout: each list by itself, or with shared and unused cells.
fn some_layout(random: &mut Random) -> Layout {
    match random.chance(30) {
        true => Layout::Plain,
        false => Layout::Mixed(Random::seeded(random.number())),
    }
}

/// Buffers of the text's length, of a byte less, of none, of any, and of more than is ever written.
fn in_buffers(chart: &Chart, random: &mut Random, counts: &mut Counts) -> Result<(), String> {
    let tables = encode(chart, some_layout(random));
    let text = text_of(chart);
    let sizes = [text.len(), text.len() - 1, 0, random.below(text.len()), text.len() + random.below(99)];
    for size in sizes {
        writes_alike(&tables, size, random, counts)?;
    }
    let written = writes_alike(&tables, 2 * MAX_TEXT, random, counts)?;
    ensure(written.is_some() == (text.len() <= MAX_TEXT), || format!("a text of {} bytes", text.len()))?;
    match written {
        Some(written) => reads_back(chart, &written, random, counts),
        None => Ok(()),
    }
}

/// The library reads what it wrote to the normal tables, and writes it alike again; so it writes an equal chart
/// whose slots and cells are others.
fn reads_back(chart: &Chart, text: &[u8], random: &mut Random, counts: &mut Counts) -> Result<(), String> {
    let normal = normal_tables(chart);
    let (mut numbers, mut names) = (vec![0; normal.numbers.len()], vec![0; normal.names.len()]);
    let read = library::read(text, &mut numbers, &mut names);
    ensure((read.answer, read.cells, read.bytes) == (0, numbers.len(), names.len()), || format!("{read:?}"))?;
    let again = Spelt { numbers, names };
    ensure(again == normal, || "what was written reads to another chart".to_string())?;
    let other = encode(&with_other_slots(chart, random, MAX_SLOTS as usize), some_layout(random));
    for tables in [again, other] {
        let written = writes_alike(&tables, text.len(), random, counts)?;
        ensure(written.as_deref() == Some(text), || "an equal chart is written otherwise".to_string())?;
    }
    Ok(())
}

/// A chart with blocks of so many host actions that its text is longer than what is read, or nearly so.
fn filled(mut chart: Chart, random: &mut Random) -> Chart {
    let wanted = MAX_TEXT - 1_000 + random.below(4_000);
    let mut length = text_of(&chart).len();
    for transition in &mut chart.transitions {
        while transition.block.len() < 32 && length < wanted {
            transition.block.push(Action::Host(random.below(65_536) as u16));
            length += 18;
        }
    }
    chart
}

fn has_if(chart: &Chart) -> bool {
    let in_rows = chart.rows.iter().flat_map(|row| row.entry.iter().chain(&row.exit).chain(&row.block));
    let mut actions = in_rows.chain(chart.transitions.iter().flat_map(|transition| &transition.block));
    actions.any(|action| matches!(action, Action::If(_)))
}

fn lists_history(chart: &Chart) -> bool {
    let lists = chart.rows.iter().filter(|row| !row.kind.is_history()).flat_map(|row| &row.list);
    lists.into_iter().any(|&row| chart.row(row).kind.is_history())
}

/// Compares all that a seed makes.
pub fn try_seed(seed: u64, kinds: &Kinds, counts: &mut Counts) -> Result<(), String> {
    let random = &mut Random::seeded(seed);
    let flavour = if random.chance(8) { Flavour::large(random) } else { Flavour::any(random) };
    let mut chart = generate::chart(random, flavour);
    if chart.transitions.len() > 64 && random.chance(50) {
        chart = filled(chart, random);
    }
    let long = text_of(&chart).len() > MAX_TEXT;
    add(
        &mut counts.kinds,
        &[has_if(&chart), generate::has_sends(&chart), lists_history(&chart), long].map(u64::from),
    );
    in_buffers(&chart, random, counts)?;
    let kind = &kinds.near_misses[seed as usize % kinds.near_misses.len()];
    if let Some(lent) = kind.of(&chart, random, seed % 2 == 1) {
        writes_alike(&lent.spelt, random.below(2 * MAX_TEXT), random, counts)
            .map_err(|what| format!("{}: {what}", kind.name))?;
    }
    let Spelt { numbers, names } = encode(&chart, some_layout(random));
    let tables = Places { numbers, names };
    for turn in 0..CHANGED {
        let part = kinds.tables[(seed as usize * CHANGED + turn) % kinds.tables.len()];
        if let Some(Places { numbers, names }) = damaged(&tables, part, random) {
            let size = random.below(2 * MAX_TEXT);
            writes_alike(&Spelt { numbers, names }, size, random, counts)
                .map_err(|what| format!("{part} changed: {what}"))?;
        }
    }
    Ok(())
}
