//! The cases of the program `compile_run`: charts and near misses to compile, and compiled charts
//! to damage. Its standard input, and what it has to print.

use super::lines::*;
use crate::at_limits;
use crate::builder::{Builder, Do};
use crate::by_hand;
use crate::compiled::{compile, CompiledChart};
use crate::encode::Layout;
use crate::examples::{self, Example};
use crate::faults;
use crate::generate::{self, Flavour};
use crate::limits::*;
use crate::names::slot_of;
use crate::near_misses::{self, Lent};
use crate::random::Random;
use crate::readings;
use crate::rules::Place;
use crate::tables::{Chart, Table};
use crate::worked;
use std::fmt::Write as _;

/// The first seed of the generated charts, and how many there are.
const FIRST_SEED: u64 = 9_000_000;
const GENERATED: u64 = 38;
/// How many charts with cells changed at will.
const CHANGED: usize = 40;

struct Case {
    about: String,
    lent: Lent,
    /// Whether every cell is then changed, one after the other.
    damaged: bool,
}

impl Case {
    fn of(about: impl Into<String>, lent: Lent) -> Case {
        Case { about: about.into(), lent, damaged: false }
    }

    fn of_chart(about: impl Into<String>, chart: &Chart) -> Case {
        Case::of(about, Lent::of(chart, Layout::Plain))
    }

    fn of_example(example: Example) -> Case {
        Case::of(example.about, Lent { spelt: example.spelt, place: example.place })
    }

    fn damaged(self) -> Case {
        Case { damaged: true, ..self }
    }
}

fn cases() -> Vec<Case> {
    let mut cases = damaged_charts();
    cases.extend(ids_at_their_limit());
    cases.extend(at_limits::small().into_iter().chain(at_limits::large()).map(Case::of_example));
    cases.push(last_row_everywhere(MAX_ROWS as usize));
    cases.extend(full_tables());
    cases.extend(readings::all().into_iter().flatten().map(Case::of_example));
    cases.extend(by_hand::all().into_iter().chain(examples::by_hand()).map(Case::of_example));
    cases.extend(worked::all().into_iter().map(|one| Case::of_example(one.example)));
    cases.extend(faults::all().into_iter().map(|fault| Case::of_chart(&fault.about, &fault.chart)));
    cases.extend(examples::refused().into_iter().chain(examples::accepted()).map(Case::of_example));
    cases.extend(near_misses_of_sample());
    cases.extend(examples::changed(CHANGED).into_iter().map(Case::of_example));
    cases.extend((FIRST_SEED..FIRST_SEED + GENERATED).map(generated));
    cases
}

/// A send with an id and one without, and a cancel.
fn with_timers() -> Chart {
    let mut b = Builder::new();
    b.state("", "s").on("s", "e *", "s");
    b.doing(&[Do::Send("e", 5, "t"), Do::Send("t", u32::MAX, ""), Do::Cancel("t")]);
    b.chart()
}

fn damaged_charts() -> Vec<Case> {
    let mut cases = vec![
        Case::of_chart("chart A", &readings::chart_a()).damaged(),
        Case::of_chart("the sample", &near_misses::sample()).damaged(),
        Case::of_chart("sends and cancels", &with_timers()).damaged(),
        last_row_everywhere(WORD_BITS).damaged(),
    ];
    for (place, chart) in near_misses::small_samples().iter().enumerate() {
        cases.push(Case::of_chart(format!("small sample {place}"), chart).damaged());
    }
    cases
}

fn last_row_everywhere(rows: usize) -> Case {
    let about = format!("{rows} rows, the last one everywhere");
    Case::of_chart(about, &at_limits::last_row_everywhere(rows))
}

/// Marked run 7: "A state id of 52 bytes is accepted, 53 gives 2."
fn ids_at_their_limit() -> Vec<Case> {
    let case = |length: usize| {
        let mut b = Builder::new();
        b.state("", &"i".repeat(length));
        Case::of_chart(format!("an id of {length} bytes"), &b.chart())
    };
    vec![case(52), case(53)]
}

/// Tables at their limits, with cells that no list uses.
fn full_tables() -> Vec<Case> {
    let mut b = Builder::new();
    b.state("", "s");
    let mut chart = b.chart();
    chart.names.resize(MAX_SLOTS as usize, slot_of(b"u"));
    let tables: [(&str, Table, u64, &[u64]); 3] = [
        ("references", Table::References, MAX_REFERENCES, &[1]),
        ("descriptors", Table::Descriptors, MAX_DESCRIPTORS, &[MAX_SLOTS - 1]),
        ("actions", Table::Actions, MAX_ACTIONS, &[0, 0, 0, 0]),
    ];
    let full = |(what, table, lines, line): (&str, Table, u64, &[u64])| {
        let mut lent = Lent::of(&chart, Layout::Plain);
        lent.lengthen(table, lines, line).expect("there is room for more lines");
        Case::of(format!("{lines} {what}"), lent)
    };
    tables.map(full).into()
}

/// Each kind of near miss on the sample, spelt with shared and unused cells.
fn near_misses_of_sample() -> Vec<Case> {
    let sample = near_misses::sample();
    near_misses::all()
        .iter()
        .chain(&near_misses::accepted())
        .filter_map(|near_miss| {
            let lent = near_miss.of(&sample, &mut Random::seeded(2), false)?;
            Some(Case::of(format!("the sample: {}", near_miss.name), lent))
        })
        .collect()
}

fn generated(seed: u64) -> Case {
    let mut random = Random::seeded(seed);
    let flavour = Flavour::any(&mut random);
    let chart = generate::chart(&mut random, flavour);
    Case::of(format!("a generated chart, seed {seed}"), Lent::of(&chart, Layout::Mixed(random)))
}

// The input

fn write_input(case: &Case, input: &mut String) -> std::fmt::Result {
    let Lent { spelt, place } = &case.lent;
    writeln!(input, "c {}", case.about)?;
    writeln!(input, "n {}", spell_numbers(&spelt.numbers))?;
    writeln!(input, "s {}", spell_slots(spelt.names.chunks(SLOT_BYTES)))?;
    if spelt.names.len() % SLOT_BYTES != 0 {
        writeln!(input, "e {}", spelt.names.len())?;
    }
    writeln!(input, "p {} {}", place.numbers, place.names)?;
    if case.damaged {
        for (numbers, names) in lengths(case) {
            writeln!(input, "k {numbers} {names}")?;
        }
        input.push_str("d \nb \nm \n");
    }
    Ok(())
}

/// Lengths of which only the first is right.
fn lengths(case: &Case) -> [(usize, usize); 8] {
    let Lent { spelt, place } = &case.lent;
    let (numbers, names) = (place.numbers, place.names);
    [
        (numbers, names),
        (numbers - 1, names),
        (numbers + 1, names),
        (numbers, names - 1),
        (numbers, names + 1),
        (spelt.numbers.len(), names),
        (5, names),
        (0, 0),
    ]
}

// What is printed

/// The buffers that hold the two places.
struct Kept {
    words: Vec<u64>,
    bytes: Vec<u8>,
    place: Place,
}

impl Kept {
    fn fresh(case: &Case) -> Kept {
        Kept { words: filled_words(), bytes: filled_bytes(), place: case.lent.place }
    }

    fn numbers(&self) -> &[u64] {
        &self.words[GUARD..][..self.place.numbers]
    }

    fn names(&self) -> &[u8] {
        &self.bytes[GUARD..][..self.place.names]
    }

    /// Compiles tables into the places; the answer.
    fn compile(&mut self, case: &Case, numbers: &[u64]) -> u64 {
        let Lent { spelt, place } = &case.lent;
        match compile(numbers, &spelt.names, *place) {
            Ok(places) => {
                self.words[GUARD..][..places.numbers.len()].copy_from_slice(&places.numbers);
                self.bytes[GUARD..][..places.names.len()].copy_from_slice(&places.names);
                0
            }
            Err(rule) => rule,
        }
    }
}

/// 0, or refusal 8.
fn check(numbers: &[u64], names: &[u8]) -> u64 {
    match CompiledChart::open(numbers, names) {
        Some(_) => 0,
        None => 8,
    }
}

fn write_expected(case: &Case, out: &mut String) -> std::fmt::Result {
    let mut kept = Kept::fresh(case);
    let answer = kept.compile(case, &case.lent.spelt.numbers);
    let checked = check(kept.numbers(), kept.names());
    let words = sum_words(FIRST_SUM, &kept.words);
    let bytes = sum_bytes(FIRST_SUM, &kept.bytes);
    writeln!(out, "{}: {answer} {checked} {words:016x} {bytes:016x}", case.about)?;
    if case.damaged {
        for (numbers, names) in lengths(case) {
            writeln!(out, "{}", check(&kept.words[GUARD..][..numbers], &kept.bytes[GUARD..][..names]))?;
        }
        write_cells_damaged(&kept, out)?;
        write_bytes_damaged(&kept, out)?;
        write_numbers_changed(case, &mut kept, out)?;
    }
    Ok(())
}

/// A line for each way, with a mark for each cell of the compiled chart.
fn write_cells_damaged(kept: &Kept, out: &mut String) -> std::fmt::Result {
    for way in 0..WAYS {
        let mut cells = kept.numbers().to_vec();
        for cell in 0..cells.len() {
            let old = cells[cell];
            cells[cell] = changed(way, old);
            write!(out, "{}", check(&cells, kept.names()))?;
            cells[cell] = old;
        }
        out.push('\n');
    }
    Ok(())
}

/// A line for each way, with a mark for each byte of its names.
fn write_bytes_damaged(kept: &Kept, out: &mut String) -> std::fmt::Result {
    for way in 0..WAYS {
        let mut bytes = kept.names().to_vec();
        for place in 0..bytes.len() {
            let old = bytes[place];
            bytes[place] = changed_byte(way, old);
            write!(out, "{}", check(kept.numbers(), &bytes))?;
            bytes[place] = old;
        }
        out.push('\n');
    }
    Ok(())
}

/// A line for each way: the answer for each number of the chart, changed before it is compiled, and
/// the sum of what all of them left in the places.
fn write_numbers_changed(case: &Case, kept: &mut Kept, out: &mut String) -> std::fmt::Result {
    let mut numbers = case.lent.spelt.numbers.clone();
    for way in 0..WAYS {
        let mut sum = FIRST_SUM;
        for cell in 0..numbers.len() {
            let old = numbers[cell];
            numbers[cell] = changed(way, old);
            write!(out, "{}", kept.compile(case, &numbers))?;
            numbers[cell] = old;
            sum = sum_bytes(sum_words(sum, &kept.words), &kept.bytes);
        }
        writeln!(out, " {sum:016x}")?;
    }
    Ok(())
}

/// The program's standard input, and what it has to print.
pub fn texts() -> Result<(String, String), std::fmt::Error> {
    let (mut input, mut expected) = (String::new(), String::new());
    for case in cases() {
        write_input(&case, &mut input)?;
        write_expected(&case, &mut expected)?;
    }
    Ok((input, expected))
}
