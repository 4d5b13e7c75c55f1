//! One seed: a generated chart, a near miss of it, compiled charts and tables with one cell
//! changed. The library and the second program must answer alike and leave the same behind.

use crate::library::{self, Compiled};
use second::compiled::{compile, needed_place, CompiledChart, Places};
use second::damage::{self, damaged, Part};
use second::encode::{Layout, Spelt};
use second::generate::{self, Flavour, LARGE};
use second::limits::{HEADER_CELLS, MAX_ROWS};
use second::near_misses::{self, Lent, NearMiss};
use second::random::Random;
use second::rules::Place;
use second::tables::Chart;
use std::ops::Range;

/// How many damaged compiled charts and changed tables each seed makes.
const DAMAGED: usize = 8;
const CHANGED: usize = 4;

/// How often a near miss is tried on the sample: some have a place there by chance.
const ATTEMPTS: usize = 50;

/// So many words or bytes stand on both sides of a lent place.
const GUARD: usize = 16;

/// Counts of what was compared, each list by the kinds of `Kinds`.
#[derive(Clone)]
pub struct Counts {
    /// Large charts, and those of as many rows as there may be.
    pub large: [u64; 2],
    /// Charts and tables compiled, by answer.
    pub answers: [u64; 6],
    pub near_misses: Vec<u64>,
    /// Compiled charts changed, and those of them that were refused.
    pub damaged: Vec<[u64; 2]>,
    /// Tables changed before they are compiled, and those of them that were refused.
    pub changed: Vec<[u64; 2]>,
}

/// All kinds of near misses and of changes.
pub struct Kinds {
    pub near_misses: Vec<NearMiss>,
    pub compiled: Vec<Part>,
    pub tables: Vec<Part>,
}

impl Kinds {
    pub fn all() -> Kinds {
        Kinds {
            near_misses: [near_misses::all(), near_misses::accepted()].concat(),
            compiled: damage::of_compiled(),
            tables: damage::of_tables(),
        }
    }
}

impl Counts {
    pub fn none(kinds: &Kinds) -> Counts {
        Counts {
            large: [0; 2],
            answers: [0; 6],
            near_misses: vec![0; kinds.near_misses.len()],
            damaged: vec![[0; 2]; kinds.compiled.len()],
            changed: vec![[0; 2]; kinds.tables.len()],
        }
    }

    pub fn join(&mut self, other: &Counts) {
        let pairs = |mine: &mut Vec<[u64; 2]>, theirs: &[[u64; 2]]| {
            for (mine, theirs) in mine.iter_mut().zip(theirs) {
                add(mine, theirs);
            }
        };
        add(&mut self.large, &other.large);
        add(&mut self.answers, &other.answers);
        add(&mut self.near_misses, &other.near_misses);
        pairs(&mut self.damaged, &other.damaged);
        pairs(&mut self.changed, &other.changed);
    }
}

pub fn add(mine: &mut [u64], theirs: &[u64]) {
    for (mine, theirs) in mine.iter_mut().zip(theirs) {
        *mine += theirs;
    }
}

/// A place between guards. Everything in it is known, so that every change is seen.
#[derive(Clone)]
pub struct Guarded<T> {
    pub cells: Vec<T>,
    lent: Range<usize>,
}

impl<T: Copy> Guarded<T> {
    pub fn new(length: usize, filler: impl FnMut() -> T) -> Guarded<T> {
        let cells = std::iter::repeat_with(filler).take(length + 2 * GUARD).collect();
        Guarded { cells, lent: GUARD..GUARD + length }
    }

    pub fn lent(&mut self) -> &mut [T] {
        &mut self.cells[self.lent.clone()]
    }

    /// What it has to hold once this was written to the place.
    pub fn with(&self, written: &[T]) -> Vec<T> {
        let mut cells = self.cells.clone();
        cells[self.lent.clone()].copy_from_slice(written);
        cells
    }
}

pub fn ensure(holds: bool, what: impl Fn() -> String) -> Result<(), String> {
    match holds {
        true => Ok(()),
        false => Err(what()),
    }
}

/// Compiles with both. The answer, and what was written.
fn compiles_alike(lent: &Lent, random: &mut Random) -> Result<Result<Places, u64>, String> {
    let Lent { spelt, place } = lent;
    let mut numbers = Guarded::new(place.numbers, || random.number());
    let mut names = Guarded::new(place.names, || random.number() as u8);
    let own = compile(&spelt.numbers, &spelt.names, *place);
    let (own_answer, own_numbers, own_names) = match &own {
        Ok(places) => (0, numbers.with(&places.numbers), names.with(&places.names)),
        Err(rule) => (*rule, numbers.cells.clone(), names.cells.clone()),
    };
    let before = spelt.clone();
    let answer = library::compile(&spelt.numbers, &spelt.names, numbers.lent(), names.lent());
    ensure(answer == own_answer, || format!("compile answers {answer}, not {own_answer}"))?;
    ensure(*spelt == before, || "the tables are not as they were".to_string())?;
    ensure(numbers.cells == own_numbers, || difference("number", &numbers.cells, &own_numbers))?;
    ensure(names.cells == own_names, || difference("name byte", &names.cells, &own_names))?;
    Ok(own)
}

pub fn difference<T: PartialEq + std::fmt::Debug>(what: &str, given: &[T], own: &[T]) -> String {
    let place = given.iter().zip(own).position(|(given, own)| given != own).unwrap_or(0);
    let at = place as isize - GUARD as isize;
    format!("{what} {at} of the place is {:?}, not {:?}", given[place], own[place])
}

/// Whether both take the places for a compiled chart.
fn checks_alike(places: &Places) -> Result<bool, String> {
    let before = places.clone();
    let own = CompiledChart::open(&places.numbers, &places.names).is_some();
    let answer = Compiled::from(places).check();
    let own_answer = if own { 0 } else { 8 };
    ensure(answer == own_answer, || format!("check answers {answer}, not {own_answer}"))?;
    ensure(*places == before, || "the places are not as they were".to_string())?;
    Ok(own)
}

/// A count that a short header lacks is taken as 0 by the library; such a chart is refused all the
/// same.
fn sizes_alike(numbers: &[u64]) -> Result<(), String> {
    let mut header = numbers.to_vec();
    header.resize(numbers.len().max(HEADER_CELLS), 0);
    let own = needed_place(&header).unwrap_or(Place { numbers: 0, names: 0 });
    let given = Place { numbers: library::numbers_size(numbers), names: library::names_size(numbers) };
    ensure(given == own, || format!("sizes {given:?}, not {own:?}"))
}

/// Compares all that a seed makes.
pub fn try_seed(seed: u64, kinds: &Kinds, counts: &mut Counts) -> Result<(), String> {
    let mut random = Random::seeded(seed);
    let flavour = Flavour::any(&mut random);
    let chart = generate::chart(&mut random, flavour);
    let layout = match seed % 4 {
        0 => Layout::Plain,
        _ => Layout::Mixed(Random::seeded(random.number())),
    };
    let lent = Lent::of(&chart, layout);
    sizes_alike(&lent.spelt.numbers)?;
    let places = match compiles_alike(&lent, &mut random)? {
        Ok(places) => places,
        Err(rule) => return Err(format!("a generated chart breaks rule {rule}")),
    };
    counts.answers[0] += 1;
    let rows = chart.rows.len();
    add(&mut counts.large, &[u64::from(rows >= LARGE), u64::from(rows == MAX_ROWS as usize)]);
    ensure(checks_alike(&places)?, || "what was compiled is refused".to_string())?;
    near_miss_alike(seed, &chart, kinds, &mut random, counts)?;
    for turn in 0..DAMAGED {
        let kind = (seed as usize * DAMAGED + turn) % kinds.compiled.len();
        damage_alike(&places, kinds.compiled[kind], &mut random, &mut counts.damaged[kind])
            .map_err(|what| format!("{}: {what}", kinds.compiled[kind]))?;
    }
    for turn in 0..CHANGED {
        let kind = (seed as usize * CHANGED + turn) % kinds.tables.len();
        change_alike(&lent, kinds.tables[kind], &mut random, &mut counts.changed[kind], &mut counts.answers)
            .map_err(|what| format!("{} changed: {what}", kinds.tables[kind]))?;
    }
    Ok(())
}

/// A near miss of the chart, its kind going round with the seed; of the sample, if the chart has no
/// place for it.
fn near_miss_alike(
    seed: u64,
    chart: &Chart,
    kinds: &Kinds,
    random: &mut Random,
    counts: &mut Counts,
) -> Result<(), String> {
    let kind = seed as usize % kinds.near_misses.len();
    let NearMiss { name, rule, .. } = kinds.near_misses[kind];
    let mut of = |chart: &Chart| kinds.near_misses[kind].of(chart, random, seed % 2 == 1);
    let sample = near_misses::sample();
    let mut lent = of(chart);
    for _ in 0..ATTEMPTS {
        lent = lent.or_else(|| of(&sample));
    }
    let lent = lent.ok_or_else(|| format!("no {name}"))?;
    sizes_alike(&lent.spelt.numbers)?;
    let compiled = compiles_alike(&lent, random).map_err(|what| format!("{name}: {what}"))?;
    let given = compiled.err().unwrap_or(0);
    ensure(given == rule, || format!("{name} gets {given}"))?;
    counts.near_misses[kind] += 1;
    counts.answers[rule as usize] += 1;
    Ok(())
}

fn damage_alike(
    places: &Places,
    part: Part,
    random: &mut Random,
    count: &mut [u64; 2],
) -> Result<(), String> {
    if let Some(changed) = damaged(places, part, random) {
        let refused = !checks_alike(&changed)?;
        add(count, &[1, u64::from(refused)]);
    }
    Ok(())
}

/// Tables with a cell changed, compiled into places of the sizes that they then ask for, or if they
/// ask for none of the old ones.
fn change_alike(
    lent: &Lent,
    part: Part,
    random: &mut Random,
    count: &mut [u64; 2],
    answers: &mut [u64; 6],
) -> Result<(), String> {
    let tables = Places { numbers: lent.spelt.numbers.clone(), names: lent.spelt.names.clone() };
    if let Some(Places { numbers, names }) = damaged(&tables, part, random) {
        let place = needed_place(&numbers).unwrap_or(lent.place);
        sizes_alike(&numbers)?;
        let changed = Lent { spelt: Spelt { numbers, names }, place };
        let rule = compiles_alike(&changed, random)?.err();
        add(count, &[1, u64::from(rule.is_some())]);
        answers[rule.unwrap_or(0) as usize] += 1;
    }
    Ok(())
}
