//! Selecting transitions and removing conflicts, by the configuration and the history stored
//! before the round.

use crate::compiled::CompiledChart;
use crate::names::matches;
use crate::numbers::{RowNumber, TransitionNumber};
use crate::row_set::RowSet;
use crate::tables::{Transition, TransitionType};

/// A selected transition with its domain and its exit set. Without targets there is no domain and
/// the exit set is empty.
#[derive(Clone, PartialEq, Eq, Debug)]
pub struct Selected {
    pub transition: TransitionNumber,
    /// "the first active atomic state that chose it".
    pub chooser: RowNumber,
    pub domain: Option<RowNumber>,
    pub exit_set: RowSet,
}

#[derive(Clone, PartialEq, Eq, Debug, Default)]
pub struct Selection {
    /// Every transition that was chosen, once, at its first place.
    pub candidates: Vec<Selected>,
    /// What the conflicts left, in selection order.
    pub kept: Vec<Selected>,
}

/// What a history stands for at the moment.
pub enum Remembered {
    Stored(RowSet),
    Nothing,
}

/// The stored history of one moment; the empty set spells that nothing is stored.
#[derive(Clone, Copy)]
pub struct StoredHistory<'a>(pub &'a [RowSet]);

impl StoredHistory<'_> {
    pub fn of(&self, history: RowNumber) -> Remembered {
        match self.0[history.0] {
            RowSet::EMPTY => Remembered::Nothing,
            set => Remembered::Stored(set),
        }
    }
}

/// "Effective targets: a history with nothing stored falls to its default list; otherwise its
/// stored states stand in for it."
pub fn effective_targets(compiled: &CompiledChart, stored: StoredHistory, targets: &[RowNumber]) -> RowSet {
    let mut effective = RowSet::EMPTY;
    for &target in targets {
        effective = effective.union(&stand_in(compiled, stored, target));
    }
    effective
}

fn stand_in(compiled: &CompiledChart, stored: StoredHistory, target: RowNumber) -> RowSet {
    if !compiled.tree.is_history(target) {
        return RowSet::single(target);
    }
    let Remembered::Stored(set) = stored.of(target) else {
        return RowSet::of(&compiled.chart.row(target).list);
    };
    set
}

/// "The domain is the source, if the type is internal, the source is compound and all effective
/// targets are proper descendants of it; else the nearest proper ancestor of the source that is
/// compound or root and has all effective targets as proper descendants."
pub fn domain_for(
    compiled: &CompiledChart,
    transition: &Transition,
    effective: &RowSet,
) -> Option<RowNumber> {
    let tree = &compiled.tree;
    let source = transition.source;
    let covers = |row: RowNumber| effective.is_subset_of(&tree.descendants(row));
    if effective.is_empty() {
        return None;
    }
    if transition.kind == TransitionType::Internal && tree.is_compound(source) && covers(source) {
        return Some(source);
    }
    tree.ancestors_upwards(source).into_iter().find(|&above| tree.is_compound_or_root(above) && covers(above))
}

/// "The exit set is the domain's active proper descendants; with no targets it is empty."
pub fn exit_set_of(compiled: &CompiledChart, configuration: &RowSet, domain: Option<RowNumber>) -> RowSet {
    domain.map_or(RowSet::EMPTY, |row| compiled.tree.descendants(row).intersection(configuration))
}

/// What all parts of one selection look at.
#[derive(Clone, Copy)]
pub struct Moment<'a> {
    pub compiled: &'a CompiledChart,
    pub configuration: &'a RowSet,
    pub stored: StoredHistory<'a>,
}

impl Moment<'_> {
    /// The selection for an event, or the eventless one.
    pub fn select(&self, event: Option<&[u8]>) -> Selection {
        let candidates: Vec<Selected> =
            self.chosen(event).into_iter().map(|(transition, by)| self.with_domain(transition, by)).collect();
        let kept = self.remove_conflicts(&candidates);
        Selection { candidates, kept }
    }

    /// "for each active atomic state in document order ... A transition chosen twice counts once,
    /// at its first place": that place's state is the one that chose it.
    fn chosen(&self, event: Option<&[u8]>) -> Vec<(TransitionNumber, RowNumber)> {
        let mut chosen: Vec<(TransitionNumber, RowNumber)> = Vec::new();
        for row in self.configuration.rows() {
            if !self.compiled.tree.is_atomic(row) {
                continue;
            }
            if let Some(transition) = self.first_match(row, event) {
                if chosen.iter().all(|&(other, _)| other != transition) {
                    chosen.push((transition, row));
                }
            }
        }
        chosen
    }

    /// "its transitions in row order, then its parent's, and so on up ... The first match,
    /// climbing from the atomic state, ends the climb."
    pub fn first_match(&self, atomic: RowNumber, event: Option<&[u8]>) -> Option<TransitionNumber> {
        let mut first = None;
        let mut climb = vec![atomic];
        climb.extend(self.compiled.tree.ancestors_upwards(atomic));
        'climb: for row in climb {
            for &transition in self.compiled.transitions_of(row) {
                if self.is_match(self.compiled.chart.transition(transition), event) {
                    first = Some(transition);
                    break 'climb;
                }
            }
        }
        first
    }

    /// "A match has no descriptor in an eventless round, one that matches in an event's round, and
    /// a condition, if any, true of the configuration before the round."
    fn is_match(&self, transition: &Transition, event: Option<&[u8]>) -> bool {
        let descriptors = &transition.descriptors;
        let triggered = match event {
            None => descriptors.is_empty(),
            Some(name) => {
                descriptors.iter().any(|&descriptor| matches(self.compiled.chart.name(descriptor), name))
            }
        };
        triggered && transition.condition.is_none_or(|row| self.configuration.contains(row))
    }

    /// "Domain and exit set use the history stored before the round."
    fn with_domain(&self, number: TransitionNumber, chooser: RowNumber) -> Selected {
        let transition = self.compiled.chart.transition(number);
        let effective = effective_targets(self.compiled, self.stored, &transition.targets);
        let domain = domain_for(self.compiled, transition, &effective);
        let exit_set = exit_set_of(self.compiled, self.configuration, domain);
        Selected { transition: number, chooser, domain, exit_set }
    }

    /// "a candidate whose exit set meets a kept one's removes it and joins last if its source is a
    /// descendant of the kept one's source, else the candidate is dropped and removes nothing."
    fn remove_conflicts(&self, candidates: &[Selected]) -> Vec<Selected> {
        let mut kept: Vec<Selected> = Vec::new();
        for candidate in candidates {
            let meets = |other: &Selected| candidate.exit_set.meets(&other.exit_set);
            let dropped = kept.iter().any(|other| meets(other) && !self.outranks(candidate, other));
            if !dropped {
                kept.retain(|other| !meets(other));
                kept.push(candidate.clone());
            }
        }
        kept
    }

    fn outranks(&self, candidate: &Selected, kept: &Selected) -> bool {
        let source = |selected: &Selected| self.compiled.chart.transition(selected.transition).source;
        self.compiled.tree.is_ancestor(source(kept), source(candidate))
    }
}
