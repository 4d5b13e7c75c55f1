//! The tables of a chart, read from where they are lent.

use super::limits::*;
use super::names::{Slot, SLOT};
use std::ops::Range;

/// In the columns parent, id, condition and send id.
pub const NONE: u64 = 65_535;
pub const ROOT: usize = 0;

pub const STATE: u64 = 1;
pub const PARALLEL: u64 = 2;
pub const FINAL: u64 = 3;
pub const SHALLOW: u64 = 4;
pub const DEEP: u64 = 5;

/// The first column of an action.
pub const RAISE: u64 = 0;
pub const HOST: u64 = 1;
pub const IF: u64 = 2;
pub const ELSE_IF: u64 = 3;
pub const ELSE: u64 = 4;
pub const END: u64 = 5;
pub const SEND: u64 = 6;
pub const CANCEL: u64 = 7;

const HEADER: usize = 6;

/// A list or a block: a start and a count in its table.
#[derive(Clone, Copy)]
pub struct Part {
    pub start: u64,
    pub count: u64,
}

impl Part {
    #[inline]
    pub fn range(self) -> Range<usize> {
        self.start as usize..(self.start + self.count) as usize
    }
}

#[derive(Clone, Copy)]
pub struct Row<'a>(&'a [u64; 11]);

impl Row<'_> {
    #[inline]
    pub fn kind(self) -> u64 {
        self.0[0]
    }

    #[inline]
    pub fn parent(self) -> u64 {
        self.0[1]
    }

    #[inline]
    pub fn id(self) -> u64 {
        self.0[2]
    }

    #[inline]
    pub fn entry(self) -> Part {
        Part { start: self.0[3], count: self.0[4] }
    }

    #[inline]
    pub fn exit(self) -> Part {
        Part { start: self.0[5], count: self.0[6] }
    }

    #[inline]
    pub fn list(self) -> Part {
        Part { start: self.0[7], count: self.0[8] }
    }

    #[inline]
    pub fn block(self) -> Part {
        Part { start: self.0[9], count: self.0[10] }
    }

    /// Neither a list nor a block, as they are spelt where there is none.
    #[inline]
    pub fn has_no_parts(self) -> bool {
        self.0[3..].iter().fold(0, |bits, cell| bits | cell) == 0
    }

    #[inline]
    pub fn is_history(self) -> bool {
        self.kind() >= SHALLOW
    }
}

#[derive(Clone, Copy)]
pub struct Transition<'a>(&'a [u64; 9]);

impl Transition<'_> {
    #[inline]
    pub fn source(self) -> usize {
        self.0[0] as usize
    }

    #[inline]
    pub fn descriptors(self) -> Part {
        Part { start: self.0[1], count: self.0[2] }
    }

    #[inline]
    pub fn condition(self) -> u64 {
        self.0[3]
    }

    #[inline]
    pub fn kind(self) -> u64 {
        self.0[4]
    }

    #[inline]
    pub fn is_internal(self) -> bool {
        self.kind() == 1
    }

    #[inline]
    pub fn targets(self) -> Part {
        Part { start: self.0[5], count: self.0[6] }
    }

    #[inline]
    pub fn block(self) -> Part {
        Part { start: self.0[7], count: self.0[8] }
    }
}

/// The six counts of the header, all within their limits.
pub struct Counts([usize; HEADER]);

impl Counts {
    pub fn read(numbers: &[u64]) -> Option<Counts> {
        const MOST: [usize; HEADER] =
            [MOST_ROWS, MOST_TRANSITIONS, MOST_REFERENCES, MOST_DESCRIPTORS, MOST_ACTIONS, MOST_NAMES];
        let header: &[u64; HEADER] = numbers.first_chunk()?;
        let fit = header[0] > 0 && header.iter().zip(MOST).all(|(&count, most)| count <= most as u64);
        fit.then(|| Counts(header.map(|count| count as usize)))
    }

    /// The length of the tables.
    pub fn cells(&self) -> usize {
        let [rows, transitions, references, descriptors, actions, _] = self.0;
        HEADER + 11 * rows + 9 * transitions + references + descriptors + 4 * actions
    }

    /// The length of the compiled chart.
    pub fn compiled_cells(&self) -> usize {
        let [rows, transitions, ..] = self.0;
        self.cells() + WORDS * (4 * rows + transitions)
    }

    pub fn name_bytes(&self) -> usize {
        self.0[5] * SLOT
    }
}

/// The tables of a chart, cut apart.
#[derive(Clone, Copy)]
pub struct Tables<'a> {
    rows: &'a [[u64; 11]],
    transitions: &'a [[u64; 9]],
    pub references: &'a [u64],
    pub descriptors: &'a [u64],
    pub actions: &'a [[u64; 4]],
    pub names: &'a [Slot],
}

impl<'a> Tables<'a> {
    /// Nothing, if the lengths are not what the counts say.
    pub fn cut(counts: &Counts, cells: &'a [u64], names: &'a [u8]) -> Option<Tables<'a>> {
        if cells.len() != counts.cells() || names.len() != counts.name_bytes() {
            return None;
        }
        let [rows, transitions, references, descriptors, ..] = counts.0;
        let (rows, rest) = cells[HEADER..].split_at(11 * rows);
        let (transitions, rest) = rest.split_at(9 * transitions);
        let (references, rest) = rest.split_at(references);
        let (descriptors, actions) = rest.split_at(descriptors);
        Some(Tables {
            rows: rows.as_chunks().0,
            transitions: transitions.as_chunks().0,
            references,
            descriptors,
            actions: actions.as_chunks().0,
            names: names.as_chunks().0,
        })
    }

    #[inline]
    pub fn row_count(&self) -> usize {
        self.rows.len()
    }

    #[inline]
    pub fn row(&self, row: usize) -> Row<'a> {
        Row(&self.rows[row])
    }

    #[inline]
    pub fn row_if_any(&self, row: usize) -> Option<Row<'a>> {
        self.rows.get(row).map(Row)
    }

    /// The id of a row that has one.
    #[inline]
    pub fn id(&self, row: usize) -> &'a Slot {
        &self.names[self.row(row).id() as usize]
    }

    #[inline]
    pub fn transition(&self, transition: usize) -> Transition<'a> {
        Transition(&self.transitions[transition])
    }

    pub fn all_rows(&self) -> impl Iterator<Item = Row<'a>> {
        self.rows.iter().map(Row)
    }

    pub fn all_transitions(&self) -> impl Iterator<Item = Transition<'a>> {
        self.transitions.iter().map(Transition)
    }

    /// The rows of a list.
    #[inline]
    pub fn listed(&self, list: Part) -> impl Iterator<Item = usize> + Clone + use<'a> {
        self.references[list.range()].iter().map(|&row| row as usize)
    }

    #[inline]
    pub fn block(&self, block: Part) -> &'a [[u64; 4]] {
        &self.actions[block.range()]
    }
}
