//! Spelling a chart as tables. The same chart has many spellings: lists may share cells, cells
//! and slots may stand unused, and an empty list may start anywhere.

use crate::limits::*;
use crate::numbers::RowNumber;
use crate::random::Random;
use crate::tables::{Action, Chart, Row, Transition, TransitionType};

#[derive(Clone, PartialEq, Eq, Debug)]
pub struct Spelt {
    pub numbers: Vec<u64>,
    pub names: Vec<u8>,
}

/// How lists are laid into their tables.
pub enum Layout {
    /// Each list behind the one before; empty lists start at 0.
    Plain,
    /// The same, but an empty list starts where it would stand: the layout of what is read from text.
    InOrder,
    /// Shared cells, unused cells, empty lists anywhere.
    Mixed(Random),
}

struct Pool<const CELLS: usize> {
    items: Vec<[u64; CELLS]>,
    limit: usize,
}

impl<const CELLS: usize> Pool<CELLS> {
    fn new(limit: u64) -> Self {
        Pool { items: Vec::new(), limit: limit as usize }
    }

    fn find(&self, list: &[[u64; CELLS]]) -> Option<usize> {
        self.items.windows(list.len()).position(|window| window == list)
    }

    /// The longest end of the table that is a beginning of the list.
    fn overlap(&self, list: &[[u64; CELLS]]) -> usize {
        (0..=list.len()).rev().find(|&length| self.items.ends_with(&list[..length])).unwrap_or(0)
    }

    fn lay(&mut self, layout: &mut Layout, list: &[[u64; CELLS]]) -> [u64; 2] {
        let count = list.len() as u64;
        let start = match layout {
            Layout::Plain if list.is_empty() => 0,
            Layout::Plain | Layout::InOrder => self.append(list, 0),
            Layout::Mixed(random) if list.is_empty() => random.between(0, self.items.len()),
            Layout::Mixed(random) => self.lay_mixed(random, list),
        };
        [start as u64, count]
    }

    fn lay_mixed(&mut self, random: &mut Random, list: &[[u64; CELLS]]) -> usize {
        if random.chance(70) {
            return self.find(list).unwrap_or_else(|| self.append(list, self.overlap(list)));
        }
        if random.chance(10) && self.items.len() < self.limit / 2 {
            let unused = list[random.below(list.len())];
            self.items.push(unused);
        }
        self.append(list, 0)
    }

    fn append(&mut self, list: &[[u64; CELLS]], shared: usize) -> usize {
        let start = self.items.len() - shared;
        self.items.extend(&list[shared..]);
        start
    }

    fn cells(&self) -> impl Iterator<Item = u64> + '_ {
        self.items.iter().flatten().copied()
    }
}

struct Pools {
    layout: Layout,
    references: Pool<REFERENCE_CELLS>,
    descriptors: Pool<DESCRIPTOR_CELLS>,
    actions: Pool<ACTION_CELLS>,
}

impl Pools {
    fn rows(&mut self, list: &[RowNumber]) -> [u64; 2] {
        let cells: Vec<[u64; 1]> = list.iter().map(|row| [row.0 as u64]).collect();
        self.references.lay(&mut self.layout, &cells)
    }

    fn block(&mut self, block: &[Action]) -> [u64; 2] {
        let cells: Vec<[u64; 4]> = block.iter().map(|&action| action_cells(action)).collect();
        self.actions.lay(&mut self.layout, &cells)
    }

    fn row(&mut self, row: &Row) -> Vec<u64> {
        let mut cells = vec![
            row.kind.number(),
            row.parent.map_or(NONE, |parent| parent.0 as u64),
            row.id.map_or(NONE, |name| name.0 as u64),
        ];
        cells.extend(self.block(&row.entry));
        cells.extend(self.block(&row.exit));
        cells.extend(self.rows(&row.list));
        cells.extend(self.block(&row.block));
        cells
    }

    fn transition(&mut self, transition: &Transition) -> Vec<u64> {
        let descriptors: Vec<[u64; 1]> = transition.descriptors.iter().map(|name| [name.0 as u64]).collect();
        let mut cells = vec![transition.source.0 as u64];
        cells.extend(self.descriptors.lay(&mut self.layout, &descriptors));
        cells.push(transition.condition.map_or(NONE, |row| row.0 as u64));
        cells.push(match transition.kind {
            TransitionType::External => 0,
            TransitionType::Internal => 1,
        });
        cells.extend(self.rows(&transition.targets));
        cells.extend(self.block(&transition.block));
        cells
    }
}

fn action_cells(action: Action) -> [u64; ACTION_CELLS] {
    match action {
        Action::Raise(name) => [0, name.0 as u64, 0, 0],
        Action::Host(number) => [1, u64::from(number), 0, 0],
        Action::If(row) => [2, row.0 as u64, 0, 0],
        Action::ElseIf(row) => [3, row.0 as u64, 0, 0],
        Action::Else => [4, 0, 0, 0],
        Action::End => [5, 0, 0, 0],
        Action::Send { event, delay, id } => {
            [6, event.0 as u64, u64::from(delay), id.map_or(NONE, |name| name.0 as u64)]
        }
        Action::Cancel(id) => [7, id.0 as u64, 0, 0],
    }
}

pub fn encode(chart: &Chart, layout: Layout) -> Spelt {
    let mut pools = Pools {
        layout,
        references: Pool::new(MAX_REFERENCES),
        descriptors: Pool::new(MAX_DESCRIPTORS),
        actions: Pool::new(MAX_ACTIONS),
    };
    let rows: Vec<u64> = chart.rows.iter().flat_map(|row| pools.row(row)).collect();
    let transitions: Vec<u64> =
        chart.transitions.iter().flat_map(|transition| pools.transition(transition)).collect();
    let mut numbers = vec![
        chart.rows.len() as u64,
        chart.transitions.len() as u64,
        pools.references.items.len() as u64,
        pools.descriptors.items.len() as u64,
        pools.actions.items.len() as u64,
        chart.names.len() as u64,
    ];
    numbers.extend(rows);
    numbers.extend(transitions);
    numbers.extend(pools.references.cells());
    numbers.extend(pools.descriptors.cells());
    numbers.extend(pools.actions.cells());
    Spelt { numbers, names: chart.names.concat() }
}

pub fn encode_plainly(chart: &Chart) -> Spelt {
    encode(chart, Layout::Plain)
}
