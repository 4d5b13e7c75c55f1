//! The tree of rows: ancestors, descendants, children. Histories are in it with their ancestors,
//! but "elsewhere histories are no one's children or descendants".

use crate::numbers::{RowNumber, ROOT};
use crate::row_set::RowSet;
use crate::tables::{Chart, Kind};

#[derive(Clone, PartialEq, Eq, Debug)]
pub struct Tree {
    kinds: Vec<Kind>,
    parents: Vec<Option<RowNumber>>,
    ancestors: Vec<RowSet>,
    descendants: Vec<RowSet>,
    children: Vec<RowSet>,
    histories: Vec<Vec<RowNumber>>,
}

impl Tree {
    /// The tree of a chart that keeps rule 3: every parent stands before its children.
    pub fn of(chart: &Chart) -> Tree {
        let count = chart.rows.len();
        let mut tree = Tree {
            kinds: chart.rows.iter().map(|row| row.kind).collect(),
            parents: chart.rows.iter().map(|row| row.parent).collect(),
            ancestors: vec![RowSet::EMPTY; count],
            descendants: vec![RowSet::EMPTY; count],
            children: vec![RowSet::EMPTY; count],
            histories: vec![Vec::new(); count],
        };
        for row in chart.row_numbers() {
            tree.join(row);
        }
        tree
    }

    fn join(&mut self, row: RowNumber) {
        let Some(parent) = self.parents[row.0] else { return };
        let mut above = self.ancestors[parent.0];
        above.insert(parent);
        self.ancestors[row.0] = above;
        if self.kinds[row.0].is_history() {
            self.histories[parent.0].push(row);
            return;
        }
        self.children[parent.0].insert(row);
        for ancestor in above.rows() {
            self.descendants[ancestor.0].insert(row);
        }
    }

    pub fn row_count(&self) -> usize {
        self.kinds.len()
    }

    pub fn kind(&self, row: RowNumber) -> Kind {
        self.kinds[row.0]
    }

    pub fn parent(&self, row: RowNumber) -> Option<RowNumber> {
        self.parents[row.0]
    }

    /// Proper ancestors as a set; the root is one of them.
    pub fn ancestors(&self, row: RowNumber) -> RowSet {
        self.ancestors[row.0]
    }

    /// Proper ancestors from the parent up to the root.
    pub fn ancestors_upwards(&self, row: RowNumber) -> Vec<RowNumber> {
        self.ancestors[row.0].rows_in_exit_order()
    }

    pub fn descendants(&self, row: RowNumber) -> RowSet {
        self.descendants[row.0]
    }

    pub fn children(&self, row: RowNumber) -> RowSet {
        self.children[row.0]
    }

    pub fn histories(&self, row: RowNumber) -> &[RowNumber] {
        &self.histories[row.0]
    }

    pub fn first_child(&self, row: RowNumber) -> Option<RowNumber> {
        self.children[row.0].rows().next()
    }

    pub fn is_ancestor(&self, above: RowNumber, below: RowNumber) -> bool {
        self.ancestors[below.0].contains(above)
    }

    /// "A state with such a child is compound, else atomic."
    pub fn is_compound(&self, row: RowNumber) -> bool {
        self.kinds[row.0] == Kind::State && !self.children[row.0].is_empty()
    }

    pub fn is_compound_or_root(&self, row: RowNumber) -> bool {
        row == ROOT || self.is_compound(row)
    }

    /// "else atomic. A final is atomic too."
    pub fn is_atomic(&self, row: RowNumber) -> bool {
        match self.kinds[row.0] {
            Kind::State => self.children[row.0].is_empty(),
            Kind::Final => true,
            _ => false,
        }
    }

    pub fn is_parallel(&self, row: RowNumber) -> bool {
        self.kinds[row.0] == Kind::Parallel
    }

    pub fn is_history(&self, row: RowNumber) -> bool {
        self.kinds[row.0].is_history()
    }

    /// A state, a parallel or a final: what a configuration may list and In may name.
    pub fn is_real_state(&self, row: RowNumber) -> bool {
        matches!(self.kinds[row.0], Kind::State | Kind::Parallel | Kind::Final)
    }

    pub fn is_final_under_root(&self, row: RowNumber) -> bool {
        self.kinds[row.0] == Kind::Final && self.parents[row.0] == Some(ROOT)
    }

    /// "The anchor of a history is its parent, of another row itself."
    pub fn anchor(&self, row: RowNumber) -> RowNumber {
        match self.parents[row.0] {
            Some(parent) if self.is_history(row) => parent,
            _ => row,
        }
    }

    /// The nearest row that is a proper ancestor of both.
    pub fn nearest_common_ancestor(&self, one: RowNumber, other: RowNumber) -> Option<RowNumber> {
        let common = self.ancestors[one.0].intersection(&self.ancestors[other.0]);
        common.rows().last()
    }
}
