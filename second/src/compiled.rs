//! "A compiled chart holds the tables and, for each row, its proper ancestors, proper descendants,
//! children and default entry targets (none but for root and compounds), and for each transition
//! its sorted target anchors."

use crate::limits::ROW_SET_WORDS;
use crate::numbers::{RowNumber, TransitionNumber};
use crate::row_set::RowSet;
use crate::rules::{judge, BrokenRule, Place};
use crate::tables::{Chart, Counts};
use crate::tree::Tree;

/// A chart that keeps the five rules, with all that is worked out from its rows.
#[derive(Clone, PartialEq, Eq, Debug)]
pub struct CompiledChart {
    pub chart: Chart,
    pub tree: Tree,
    /// The transitions of each row in row order.
    transitions_of_row: Vec<Vec<TransitionNumber>>,
}

/// The two places that a compiled chart is written to and later lent from.
#[derive(Clone, PartialEq, Eq, Debug)]
pub struct Places {
    pub numbers: Vec<u64>,
    pub names: Vec<u8>,
}

/// Compiling: the places' new contents, or the first rule broken.
pub fn compile(numbers: &[u64], names: &[u8], place: Place) -> Result<Places, BrokenRule> {
    let (chart, tree) = judge(numbers, names, place)?;
    let mut cells = numbers.to_vec();
    let compiled = CompiledChart::new(chart, tree);
    for set in compiled.sets() {
        cells.extend(set.0);
    }
    Ok(Places { numbers: cells, names: names.to_vec() })
}

/// The sizes that the places must have, if the header's counts are within their limits.
pub fn needed_place(numbers: &[u64]) -> Option<Place> {
    let counts = Counts::read(numbers)?;
    Some(Place { numbers: counts.compiled_length(), names: counts.names_length() })
}

impl CompiledChart {
    fn new(chart: Chart, tree: Tree) -> CompiledChart {
        let mut transitions_of_row = vec![Vec::new(); chart.rows.len()];
        for transition in chart.transition_numbers() {
            transitions_of_row[chart.transition(transition).source.0].push(transition);
        }
        CompiledChart { chart, tree, transitions_of_row }
    }

    /// Straight from the tables, with places of the right sizes.
    pub fn from_tables(numbers: &[u64], names: &[u8]) -> Result<CompiledChart, BrokenRule> {
        let place = needed_place(numbers).ok_or(1u64)?;
        let (chart, tree) = judge(numbers, names, place)?;
        Ok(CompiledChart::new(chart, tree))
    }

    /// The compiled chart in two lent places, or nothing if it "differs from what its own rows
    /// compile to, or they break a rule", which is refusal 8.
    pub fn open(numbers: &[u64], names: &[u8]) -> Option<CompiledChart> {
        let counts = Counts::read(numbers)?;
        let tables = numbers.get(..counts.numbers_length())?;
        let place = Place { numbers: numbers.len(), names: names.len() };
        let (chart, tree) = judge(tables, names, place).ok()?;
        let compiled = CompiledChart::new(chart, tree);
        let listed = numbers[tables.len()..].chunks(ROW_SET_WORDS);
        let same = compiled.sets().iter().map(|set| &set.0[..]).eq(listed);
        same.then_some(compiled)
    }

    /// All compiled sets in the order in which they stand behind the tables: one column after the
    /// other.
    fn sets(&self) -> Vec<RowSet> {
        let rows = || self.chart.row_numbers();
        rows()
            .map(|row| self.tree.ancestors(row))
            .chain(rows().map(|row| self.tree.descendants(row)))
            .chain(rows().map(|row| self.tree.children(row)))
            .chain(rows().map(|row| RowSet::of(&self.default_entry_targets(row))))
            .chain(self.chart.transition_numbers().map(|number| self.target_anchors(number)))
            .collect()
    }

    /// The initial list, or where it is empty the first non-history child. A history stands for itself:
    /// what it stands for is known at entry.
    pub fn default_entry_targets(&self, row: RowNumber) -> Vec<RowNumber> {
        if !self.tree.is_compound_or_root(row) {
            return Vec::new();
        }
        let list = &self.chart.row(row).list;
        match list.is_empty() {
            true => self.tree.first_child(row).into_iter().collect(),
            false => list.clone(),
        }
    }

    pub fn target_anchors(&self, transition: TransitionNumber) -> RowSet {
        let targets = &self.chart.transition(transition).targets;
        targets.iter().map(|&target| self.tree.anchor(target)).collect()
    }

    pub fn transitions_of(&self, row: RowNumber) -> &[TransitionNumber] {
        &self.transitions_of_row[row.0]
    }
}
