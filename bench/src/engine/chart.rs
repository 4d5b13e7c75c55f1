//! A compiled chart, read from where it is lent.

use super::limits::*;
use super::names::{Event, Spelling};
use super::row_set::RowSet;
use super::rules;
use super::tables::*;
use super::tree;
use std::ops::Range;

/// The sets of rows that stand behind the tables of a compiled chart.
#[derive(Clone, Copy)]
pub struct Sets<'a> {
    pub ancestors: &'a [[u64; WORDS]],
    pub descendants: &'a [[u64; WORDS]],
    pub children: &'a [[u64; WORDS]],
}

impl<'a> Sets<'a> {
    #[inline]
    pub fn ancestors(self, row: usize) -> RowSet {
        RowSet(self.ancestors[row])
    }

    #[inline]
    pub fn descendants(self, row: usize) -> RowSet {
        RowSet(self.descendants[row])
    }

    #[inline]
    pub fn children(self, row: usize) -> RowSet {
        RowSet(self.children[row])
    }
}

/// The rows by what they are.
pub struct Kinds {
    pub atomic: RowSet,
    pub parallel: RowSet,
    /// The root and the compound states.
    pub compound: RowSet,
    pub finals: RowSet,
    pub histories: RowSet,
}

impl Kinds {
    const NONE: Kinds = Kinds {
        atomic: RowSet::EMPTY,
        parallel: RowSet::EMPTY,
        compound: RowSet::EMPTY,
        finals: RowSet::EMPTY,
        histories: RowSet::EMPTY,
    };

    pub fn of(tables: &Tables, sets: Sets) -> Kinds {
        let mut kinds = Kinds::NONE;
        kinds.sort(tables, sets);
        kinds
    }

    fn sort(&mut self, tables: &Tables, sets: Sets) {
        for row in 0..tables.row_count() {
            let set = match tables.row(row).kind() {
                STATE if sets.children(row).is_empty() => &mut self.atomic,
                STATE => &mut self.compound,
                PARALLEL => &mut self.parallel,
                FINAL => &mut self.finals,
                _ if row == ROOT => &mut self.compound,
                _ => &mut self.histories,
            };
            set.note(row);
        }
        self.atomic |= self.finals;
    }
}

/// What the rounds ask most often, worked out once for each call.
pub struct Index {
    pub kinds: Kinds,
    /// The rows that have a transition without a descriptor.
    pub eventless: RowSet,
    /// The rows that have one with a descriptor.
    pub by_event: RowSet,
    /// Whether some action is an if, elseif, else or end.
    pub branches: bool,
    /// The transitions of row i are those from number i on to number i + 1.
    first_transition: [u16; MOST_ROWS + 1],
    spellings: Spellings,
}

/// How the names are spelt.
pub type Spellings = [Spelling; MOST_NAMES];
pub const NO_SPELLINGS: Spellings = [Spelling::STAR_ALONE; MOST_NAMES];

impl Index {
    pub const BLANK: Index = Index {
        kinds: Kinds::NONE,
        eventless: RowSet::EMPTY,
        by_event: RowSet::EMPTY,
        branches: false,
        first_transition: [0; MOST_ROWS + 1],
        spellings: NO_SPELLINGS,
    };

    /// The transitions are in the order of their sources.
    fn note_transitions(&mut self, tables: &Tables) {
        let mut passed = 0;
        let mut rows = 0;
        for transition in tables.all_transitions() {
            let source = transition.source();
            self.first_transition[rows + 1..=source].fill(passed);
            rows = source;
            passed += 1;
            self.first_transition[source + 1] = passed;
            match transition.descriptors().count {
                0 => self.eventless.note(source),
                _ => self.by_event.note(source),
            }
        }
        self.first_transition[rows + 1..=tables.row_count()].fill(passed);
    }
}

/// Whether what is lent is a compiled chart.
pub fn is_compiled(numbers: &[u64], names: &[u8]) -> bool {
    Chart::open(numbers, names, &mut { Index::BLANK }).is_some()
}

/// A chart that is known to be compiled.
pub struct Chart<'a> {
    pub tables: Tables<'a>,
    pub index: &'a Index,
    sets: Sets<'a>,
    defaults: &'a [[u64; WORDS]],
}

impl<'a> Chart<'a> {
    /// Nothing, if what is lent "differs from what its own rows compile to, or they break a rule". A blank
    /// index is lent to be filled.
    #[inline]
    pub fn open(numbers: &'a [u64], names: &'a [u8], index: &'a mut Index) -> Option<Chart<'a>> {
        let counts = Counts::read(numbers)?;
        if numbers.len() != counts.compiled_cells() {
            return None;
        }
        let (cells, sets) = numbers.split_at(counts.cells());
        let tables = Tables::cut(&counts, cells, names)?;
        let rows = tables.row_count();
        let (ancestors, sets) = sets.as_chunks().0.split_at(rows);
        let (descendants, sets) = sets.split_at(rows);
        let (children, sets) = sets.split_at(rows);
        let (defaults, anchors) = sets.split_at(rows);
        let sets = Sets { ancestors, descendants, children };
        index.branches = rules::has_branches(&tables);
        let known = rules::is_sized(&tables)
            && rules::is_named(&tables, &mut index.spellings)
            && tree::is_tree_of(&tables, sets)
            && rules::transitions_fit(&tables)
            && (!index.branches || rules::blocks_fit(&tables));
        if !known {
            return None;
        }
        index.kinds.sort(&tables, sets);
        let kinds = &index.kinds;
        let holds = rules::lists_fit(&tables, sets, kinds)
            && (0..rows).all(|row| rules::defaults(&tables, sets, kinds, row).0 == defaults[row])
            && (0..anchors.len()).all(|number| rules::anchors(&tables, number).0 == anchors[number]);
        if !holds {
            return None;
        }
        index.note_transitions(&tables);
        Some(Chart { tables, index, sets, defaults })
    }

    #[inline]
    pub fn kinds(&self) -> &'a Kinds {
        &self.index.kinds
    }

    #[inline]
    pub fn ancestors(&self, row: usize) -> RowSet {
        self.sets.ancestors(row)
    }

    #[inline]
    pub fn descendants(&self, row: usize) -> RowSet {
        self.sets.descendants(row)
    }

    #[inline]
    pub fn children(&self, row: usize) -> RowSet {
        self.sets.children(row)
    }

    #[inline]
    pub fn defaults(&self, row: usize) -> RowSet {
        RowSet(self.defaults[row])
    }

    /// The parent of a row that is not the root.
    #[inline]
    pub fn parent(&self, row: usize) -> usize {
        self.tables.row(row).parent() as usize
    }

    #[inline]
    pub fn transitions_of(&self, row: usize) -> Range<usize> {
        let first = &self.index.first_transition;
        first[row] as usize..first[row + 1] as usize
    }

    /// Whether one of the descriptors matches the event.
    #[inline]
    pub fn is_triggered(&self, transition: Transition, event: &Event) -> bool {
        self.tables.descriptors[transition.descriptors().range()].iter().any(|&name| {
            let name = name as usize;
            self.index.spellings[name].matches(&self.tables.names[name], event)
        })
    }

    /// What a history's parent would store for it.
    pub fn to_store(&self, configuration: RowSet, history: usize) -> RowSet {
        let row = self.tables.row(history);
        let parent = row.parent() as usize;
        match row.kind() {
            SHALLOW => self.children(parent) & configuration,
            _ => self.descendants(parent) & configuration & self.kinds().atomic,
        }
    }

    /// Rows with what histories among them stand for: what they have stored, else their default lists.
    /// And those that fell to these.
    pub fn resolved(&self, rows: RowSet, stored: impl Fn(usize) -> RowSet) -> (RowSet, RowSet) {
        let histories = rows & self.kinds().histories;
        let mut effective = rows - histories;
        let mut fallen = RowSet::EMPTY;
        for history in histories.rows() {
            effective |= match stored(history) {
                RowSet::EMPTY => {
                    fallen.insert(history);
                    self.tables.listed(self.tables.row(history).list()).collect()
                }
                remembered => remembered,
            };
        }
        (effective, fallen)
    }

    /// The rows and their ancestors below another one.
    #[inline]
    pub fn with_ancestors_below(&self, above: usize, rows: RowSet) -> RowSet {
        let below = self.descendants(above);
        rows.rows().fold(rows, |all, row| all | self.ancestors(row) & below)
    }
}
