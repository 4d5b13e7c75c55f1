//! A flat table for small charts (R-11): "each configuration reachable from start by eventless selection or a listed
//! name, and for each the next configuration without event and with each name". A place has the number of
//! configurations, the number of names, then 256 lines: the four words of the set, the next configuration
//! without event, and the next with each name.

use crate::compiled::CompiledChart;
use crate::limits::{MAX_CONFIGURATIONS, MAX_LISTED_NAMES, NONE, ROW_SET_WORDS};
use crate::names::is_name;
use crate::numbers::{RowNumber, ROOT};
use crate::row_set::RowSet;
use crate::selection::{Moment, StoredHistory};
use crate::session::{ACCEPTED, BAD_COMPILED_CHART, BAD_NAME, HAS_HISTORY, TOO_MANY_CONFIGURATIONS};

/// The place is not of the size stated.
pub const BAD_PLACE: u64 = 1;

/// The cells before the lines.
pub const FLAT_HEADER: usize = 2;

/// The cells of a line with so many names.
pub fn line_cells(names: usize) -> usize {
    ROW_SET_WORDS + 1 + names
}

/// The size of the place for so many names; more than 32 count as 32.
pub fn flat_cells(names: usize) -> usize {
    FLAT_HEADER + MAX_CONFIGURATIONS * line_cells(names.min(MAX_LISTED_NAMES))
}

/// Configurations breadth first, and for each where no event and the names lead.
#[derive(Clone, PartialEq, Eq, Debug)]
pub struct FlatTable {
    pub configurations: Vec<RowSet>,
    pub next: Vec<Vec<Option<usize>>>,
}

/// Flattens into a place: the answer. A name that lies outside its text is none. "order 8, 1 (a place not of docs/'s
/// size), 6 (a bad or thirty-third name), 17, 16, the place untouched".
pub fn flatten(lent: Option<&CompiledChart>, names: &[Option<&[u8]>], place: &mut [u64]) -> u64 {
    let Some(compiled) = lent else { return BAD_COMPILED_CHART };
    if place.len() != flat_cells(names.len()) {
        return BAD_PLACE;
    }
    let good: Vec<&[u8]> = names.iter().flatten().copied().filter(|name| is_name(name)).collect();
    if good.len() < names.len() || names.len() > MAX_LISTED_NAMES {
        return BAD_NAME;
    }
    if compiled.chart.row_numbers().any(|row| compiled.tree.is_history(row)) {
        return HAS_HISTORY;
    }
    let Some(table) = FlatTable::of(compiled, &good) else { return TOO_MANY_CONFIGURATIONS };
    place.copy_from_slice(&table.cells(good.len()));
    ACCEPTED
}

impl FlatTable {
    /// The table of a chart without histories; nothing, if there are more than 256 configurations.
    pub fn of(compiled: &CompiledChart, names: &[&[u8]]) -> Option<FlatTable> {
        let first = filled(compiled, ROOT, &RowSet::EMPTY);
        let mut table = FlatTable { configurations: vec![first], next: Vec::new() };
        let events: Vec<Option<&[u8]>> = [None].into_iter().chain(names.iter().copied().map(Some)).collect();
        while let Some(&configuration) = table.configurations.get(table.next.len()) {
            let line: Vec<Option<RowSet>> =
                events.iter().map(|&event| next(compiled, &configuration, event)).collect();
            let line = line.into_iter().map(|set| set.map(|set| table.number_of(set))).collect();
            table.next.push(line);
            if table.configurations.len() > MAX_CONFIGURATIONS {
                return None;
            }
        }
        Some(table)
    }

    /// The place of a configuration, the last one if it is new.
    fn number_of(&mut self, configuration: RowSet) -> usize {
        let found = self.configurations.iter().position(|&other| other == configuration);
        found.unwrap_or_else(|| {
            self.configurations.push(configuration);
            self.configurations.len() - 1
        })
    }

    /// The whole place for so many names, zeros in the lines that are not used.
    pub fn cells(&self, names: usize) -> Vec<u64> {
        let mut cells = vec![self.configurations.len() as u64, names as u64];
        for (configuration, next) in self.configurations.iter().zip(&self.next) {
            cells.extend(configuration.0);
            cells.extend(next.iter().map(|next| next.map_or(NONE, |number| number as u64)));
        }
        cells.resize(flat_cells(names), 0);
        cells
    }
}

/// "the next configuration without event and with each name"; nothing for none. "A name that selects nothing keeps
/// the configuration; where no eventless transition is selected, the place without event says none", and "A
/// configuration with a final under root has no onward entry."
fn next(compiled: &CompiledChart, configuration: &RowSet, event: Option<&[u8]>) -> Option<RowSet> {
    if configuration.rows().any(|row| compiled.tree.is_final_under_root(row)) {
        return None;
    }
    let nothing = vec![RowSet::EMPTY; compiled.chart.rows.len()];
    let moment = Moment { compiled, configuration, stored: StoredHistory(&nothing) };
    let kept = moment.select(event).kept;
    if kept.is_empty() {
        return event.map(|_| *configuration);
    }
    let mut after = *configuration;
    for selected in &kept {
        let Some(domain) = selected.domain else { continue };
        let targets = RowSet::of(&compiled.chart.transition(selected.transition).targets);
        let below = compiled.tree.descendants(domain);
        after = after.minus(&below).union(&filled(compiled, domain, &targets));
    }
    Some(after)
}

/// What is active below an active row, once these rows below it are entered, or its default entry targets if
/// there are none: worked out downwards, a row at a time.
fn filled(compiled: &CompiledChart, row: RowNumber, targets: &RowSet) -> RowSet {
    let tree = &compiled.tree;
    let below = tree.descendants(row);
    let mut wanted = targets.intersection(&below);
    if wanted.is_empty() && tree.is_compound_or_root(row) {
        wanted = RowSet::of(&compiled.default_entry_targets(row));
    }
    let mut active = RowSet::EMPTY;
    for child in tree.children(row).rows() {
        let mut subtree = tree.descendants(child);
        subtree.insert(child);
        if tree.is_parallel(row) || subtree.meets(&wanted) {
            active.insert(child);
            active = active.union(&filled(compiled, child, &wanted));
        }
    }
    active
}
