//! Compiled charts, or tables, with one cell changed: each kind of cell apart.

use crate::compiled::Places;
use crate::limits::*;
use crate::random::Random;
use crate::tables::{Counts, Table};
use std::fmt;

/// A kind of cell, or of change.
#[derive(Clone, Copy, PartialEq, Eq, Debug)]
pub enum Part {
    /// One of the counts.
    Header(usize),
    /// A column of a table.
    Column(Table, usize),
    /// A word of the sets of one column behind the tables.
    Set(SetColumn, usize),
    /// The first byte of a slot, another byte of its text, a byte behind its text.
    FirstByte,
    TextByte,
    LaterByte,
    /// The end of the numbers or of the names.
    NumbersShort,
    NumbersLong,
    NamesShort,
    NamesLong,
}

/// The columns of sets in their order; those of the last are of transitions.
#[derive(Clone, Copy, PartialEq, Eq, Debug)]
pub enum SetColumn {
    Ancestors,
    Descendants,
    Children,
    DefaultTargets,
    Anchors,
}

const SET_COLUMNS: [SetColumn; 5] = [
    SetColumn::Ancestors,
    SetColumn::Descendants,
    SetColumn::Children,
    SetColumn::DefaultTargets,
    SetColumn::Anchors,
];

/// Every part of a chart's tables.
pub fn of_tables() -> Vec<Part> {
    let tables = [
        (Table::Rows, ROW_CELLS),
        (Table::Transitions, TRANSITION_CELLS),
        (Table::References, REFERENCE_CELLS),
        (Table::Descriptors, DESCRIPTOR_CELLS),
        (Table::Actions, ACTION_CELLS),
    ];
    let mut parts: Vec<Part> = (0..HEADER_CELLS).map(Part::Header).collect();
    for (table, columns) in tables {
        parts.extend((0..columns).map(|column| Part::Column(table, column)));
    }
    parts.extend([Part::FirstByte, Part::TextByte, Part::LaterByte]);
    parts.extend([Part::NumbersShort, Part::NumbersLong, Part::NamesShort, Part::NamesLong]);
    parts
}

/// Every part of a compiled chart.
pub fn of_compiled() -> Vec<Part> {
    let mut parts = of_tables();
    for column in SET_COLUMNS {
        parts.extend((0..ROW_SET_WORDS).map(|word| Part::Set(column, word)));
    }
    parts
}

impl fmt::Display for Part {
    fn fmt(&self, out: &mut fmt::Formatter<'_>) -> fmt::Result {
        match self {
            Part::Header(count) => write!(out, "count {count}"),
            Part::Column(table, column) => write!(out, "{table:?}, column {column}"),
            Part::Set(column, word) => write!(out, "{column:?}, word {word}"),
            other => write!(out, "{other:?}"),
        }
    }
}

/// The places with something of this part changed; nothing, if they have no such cell. The tables
/// are as long as their header says.
pub fn damaged(places: &Places, part: Part, random: &mut Random) -> Option<Places> {
    let counts = Counts::read(&places.numbers)?;
    let mut changed = places.clone();
    match part {
        Part::Header(count) => change(&mut changed.numbers[count], random),
        Part::Column(table, column) => {
            let line = some(random, lines(&counts, table))?;
            change(&mut changed.numbers[counts.cell(table, line, column)], random);
        }
        Part::Set(column, word) => {
            let cell = set_cell(&counts, column, word, random)?;
            change(&mut changed.numbers[cell], random);
        }
        Part::FirstByte | Part::TextByte | Part::LaterByte => {
            let slot = some(random, counts.slots)?;
            let bytes = &mut changed.names[SLOT_BYTES * slot..][..SLOT_BYTES];
            let text = bytes.iter().position(|&byte| byte == 0).unwrap_or(SLOT_BYTES);
            let place = match part {
                Part::FirstByte => 0,
                Part::TextByte => some(random, text)?,
                _ => text + some(random, SLOT_BYTES - text)?,
            };
            change_byte(&mut bytes[place], random);
        }
        Part::NumbersShort => drop(changed.numbers.pop()?),
        Part::NumbersLong => changed.numbers.push(random.below(2) as u64),
        Part::NamesShort => drop(changed.names.pop()?),
        Part::NamesLong => changed.names.push(0),
    }
    Some(changed)
}

fn some(random: &mut Random, count: usize) -> Option<usize> {
    (count > 0).then(|| random.below(count))
}

fn lines(counts: &Counts, table: Table) -> usize {
    match table {
        Table::Rows => counts.rows,
        Table::Transitions => counts.transitions,
        Table::References => counts.references,
        Table::Descriptors => counts.descriptors,
        Table::Actions => counts.actions,
    }
}

/// "Behind the numbers, in this order": a set of each row for four columns, then one of each
/// transition.
fn set_cell(counts: &Counts, column: SetColumn, word: usize, random: &mut Random) -> Option<usize> {
    let sets = match column {
        SetColumn::Anchors => counts.transitions,
        _ => counts.rows,
    };
    let set = counts.rows * column as usize + some(random, sets)?;
    Some(counts.numbers_length() + ROW_SET_WORDS * set + word)
}

fn change(cell: &mut u64, random: &mut Random) {
    let old = *cell;
    let new = match random.below(10) {
        0 => u64::MAX,
        1 => NONE,
        2 => 0,
        3 => old.wrapping_sub(1),
        4 => old.wrapping_add(1),
        5 => random.number(),
        6 => old ^ (1 << random.below(WORD_BITS)),
        7 => random.below(MAX_SLOTS as usize + 1) as u64,
        _ => random.below(12) as u64,
    };
    *cell = if new == old { old ^ 1 } else { new };
}

fn change_byte(byte: &mut u8, random: &mut Random) {
    const BYTES: [u8; 8] = [0, b' ', b'*', b'.', b'-', b'9', b'z', 0x80];
    let old = *byte;
    let new = random.pick(&BYTES).unwrap_or(old);
    *byte = if new == old { b'y' } else { new };
}
