//! The entry procedure of the Recommendation's Appendix D, recursion and all, beside document
//! 01's entry set. Document 01 departs from it in two places, so here its ancestors can be cut at
//! the transition's domain, and the domain can be the one of the selection.

use crate::compiled::CompiledChart;
use crate::microstep::EntryPlan;
use crate::numbers::{RowNumber, ROOT};
use crate::row_set::RowSet;
use crate::selection::{domain_for, effective_targets, Remembered, Selected, StoredHistory};

/// Which of its own ways Appendix D is allowed.
#[derive(Clone, Copy, PartialEq, Eq, Debug)]
pub struct Literally {
    /// Add ancestors of a history's states up to the history's parent, even above the domain.
    pub above_domain: bool,
    /// Work the domain out again with the history as the exits left it.
    pub domain_again: bool,
}

impl Literally {
    pub const NEITHER: Literally = Literally { above_domain: false, domain_again: false };
}

struct EntrySet<'a> {
    compiled: &'a CompiledChart,
    stored: StoredHistory<'a>,
    /// Ancestors outside this set are never added.
    below_domain: RowSet,
    states_to_enter: RowSet,
    states_for_default_entry: RowSet,
    default_history_content: RowSet,
}

/// computeEntrySet, with the history as the exits left it.
pub fn compute_entry_set(
    compiled: &CompiledChart,
    stored: StoredHistory,
    transitions: &[Selected],
    literally: Literally,
) -> EntryPlan {
    let mut set = EntrySet::new(compiled, stored);
    for selected in transitions {
        let Some(kept_domain) = selected.domain else { continue };
        let transition = compiled.chart.transition(selected.transition);
        let effective = effective_targets(compiled, stored, &transition.targets);
        let domain = match literally.domain_again {
            true => domain_for(compiled, transition, &effective).unwrap_or(ROOT),
            false => kept_domain,
        };
        let cut = if literally.above_domain { ROOT } else { domain };
        set.below_domain = compiled.tree.descendants(cut);
        for &target in &transition.targets {
            set.add_descendant_states_to_enter(target);
        }
        for target in effective.rows() {
            set.add_ancestor_states_to_enter(target, domain);
        }
    }
    set.plan()
}

/// enterStates([doc.initial.transition]).
pub fn compute_start_set(compiled: &CompiledChart, stored: StoredHistory) -> EntryPlan {
    let mut set = EntrySet::new(compiled, stored);
    let initial = compiled.default_entry_targets(ROOT);
    for &target in &initial {
        set.add_descendant_states_to_enter(target);
    }
    for &target in &initial {
        set.add_ancestor_states_to_enter(target, ROOT);
    }
    set.plan()
}

impl<'a> EntrySet<'a> {
    fn new(compiled: &'a CompiledChart, stored: StoredHistory<'a>) -> EntrySet<'a> {
        EntrySet {
            compiled,
            stored,
            below_domain: compiled.tree.descendants(ROOT),
            states_to_enter: RowSet::EMPTY,
            states_for_default_entry: RowSet::EMPTY,
            default_history_content: RowSet::EMPTY,
        }
    }

    fn plan(self) -> EntryPlan {
        EntryPlan {
            rows: self.states_to_enter,
            by_default: self.states_for_default_entry,
            fallen: self.default_history_content,
        }
    }

    fn add_descendant_states_to_enter(&mut self, state: RowNumber) {
        let compiled = self.compiled;
        if compiled.tree.is_history(state) {
            self.add_history(state);
            return;
        }
        self.states_to_enter.insert(state);
        if compiled.tree.is_compound(state) {
            self.states_for_default_entry.insert(state);
            let initial = compiled.default_entry_targets(state);
            self.add_with_ancestors(&initial, state);
        } else if compiled.tree.is_parallel(state) {
            self.add_missing_children(state);
        }
    }

    fn add_history(&mut self, history: RowNumber) {
        let compiled = self.compiled;
        let parent = compiled.tree.parent(history).unwrap_or(ROOT);
        let states: Vec<RowNumber> = match self.stored.of(history) {
            Remembered::Stored(set) => set.rows().collect(),
            Remembered::Nothing => {
                self.default_history_content.insert(history);
                compiled.chart.row(history).list.clone()
            }
        };
        self.add_with_ancestors(&states, parent);
    }

    fn add_with_ancestors(&mut self, states: &[RowNumber], ancestor: RowNumber) {
        for &state in states {
            self.add_descendant_states_to_enter(state);
        }
        for &state in states {
            self.add_ancestor_states_to_enter(state, ancestor);
        }
    }

    fn add_ancestor_states_to_enter(&mut self, state: RowNumber, ancestor: RowNumber) {
        let compiled = self.compiled;
        for above in compiled.tree.ancestors_upwards(state) {
            if above == ancestor || !self.below_domain.contains(above) {
                return;
            }
            self.states_to_enter.insert(above);
            if compiled.tree.is_parallel(above) {
                self.add_missing_children(above);
            }
        }
    }

    fn add_missing_children(&mut self, parallel: RowNumber) {
        let compiled = self.compiled;
        for child in compiled.tree.children(parallel).rows() {
            if !self.states_to_enter.meets(&compiled.tree.descendants(child)) {
                self.add_descendant_states_to_enter(child);
            }
        }
    }
}
