//! Refusal 9: whether a session is one of a chart.

use super::chart::Chart;
use super::limits::{QUEUE_BYTES, QUEUE_NAMES, WORDS};
use super::names::{holds_name, Slot, SLOT};
use super::row_set::RowSet;
use super::session::{Session, MODE_CLOSING, MODE_ENDED, MODE_RUNNING};
use super::tables::{ROOT, SHALLOW};
use std::ops::BitOr;

impl Session {
    pub(super) fn is_well_formed(&self, chart: &Chart) -> bool {
        queue_is_well_formed(&self.internal, self.internal_count)
            && queue_is_well_formed(&self.external, self.external_count)
            && self.mode_fits(chart)
            && self.history_fits(chart)
    }

    fn mode_fits(&self, chart: &Chart) -> bool {
        let configuration = self.configuration();
        if configuration.is_empty() {
            return self.mode == MODE_ENDED && self.internal_count == 0 && self.external_count == 0;
        }
        let done = configuration.meets(chart.children(ROOT) & chart.kinds().finals);
        let mode = if done { MODE_CLOSING } else { MODE_RUNNING };
        self.mode == mode && is_legal(chart, configuration)
    }

    /// Nothing is stored for rows that are not there, in one pass; a chart without a history has
    /// nothing stored at all.
    fn history_fits(&self, chart: &Chart) -> bool {
        let histories = chart.kinds().histories;
        let rows = if histories.is_empty() { 0 } else { chart.tables.row_count() };
        let (places, beyond) = self.history.split_at(rows * WORDS);
        let places: &[[u64; WORDS]] = places.as_chunks().0;
        is_blank(beyond)
            && places
                .iter()
                .enumerate()
                .filter(|(_, place)| **place != [0; WORDS])
                .all(|(row, place)| histories.contains(row) && can_be_stored(chart, row, RowSet(*place)))
    }
}

/// Whether all of it is zero: without a way out at the first that is not, so that many are looked at
/// in one step.
#[inline]
pub fn is_blank<T: Copy + Default + BitOr<Output = T> + PartialEq>(part: &[T]) -> bool {
    part.iter().fold(T::default(), |bits, &each| bits | each) == T::default()
}

fn queue_is_well_formed(queue: &[u8; QUEUE_BYTES], count: u64) -> bool {
    if count > QUEUE_NAMES as u64 {
        return false;
    }
    let (used, unused) = queue.split_at(count as usize * SLOT);
    let used: &[Slot] = used.as_chunks().0;
    used.iter().all(holds_name) && is_blank(unused)
}

/// States, parallels and finals alone, with their parents; one child of the root and of each
/// compound state, all children of each parallel.
fn is_legal(chart: &Chart, configuration: RowSet) -> bool {
    let kinds = chart.kinds();
    let real = (kinds.atomic | kinds.parallel | kinds.compound) - RowSet::single(ROOT);
    let with_root = configuration | RowSet::single(ROOT);
    configuration.is_within(real)
        && configuration.rows().all(|row| with_root.contains(chart.parent(row)))
        && has_right_children(chart, configuration, with_root)
}

/// Whether each of the owners has the children in the set that it has to have.
fn has_right_children(chart: &Chart, set: RowSet, owners: RowSet) -> bool {
    let kinds = chart.kinds();
    (owners & kinds.parallel).rows().all(|row| chart.children(row).is_within(set))
        && (owners & kinds.compound).rows().all(|row| (chart.children(row) & set).has_one())
}

/// Whether the history's parent would store this set in some legal configuration.
fn can_be_stored(chart: &Chart, history: usize, set: RowSet) -> bool {
    let row = chart.tables.row(history);
    let parent = row.parent() as usize;
    let owner = RowSet::single(parent);
    if row.kind() == SHALLOW {
        return set.is_within(chart.children(parent)) && has_right_children(chart, set, owner);
    }
    let filled = chart.with_ancestors_below(parent, set & chart.descendants(parent));
    set.is_within(chart.descendants(parent) & chart.kinds().atomic)
        && has_right_children(chart, filled, filled | owner)
}
