//! The trace of a round worked out once more, from sets: "In reads the configuration at that moment: a
//! state already exited is not active, the state whose entry or exit block runs is" (R-5).

use crate::compiled::CompiledChart;
use crate::microstep::{is_in_final_state, Step, TraceEntry};
use crate::numbers::{RowNumber, ROOT};
use crate::row_set::RowSet;
use crate::selection::Selected;
use crate::tables::{Action, Kind};

/// One if that is open while a block is read from its first action to its last.
#[derive(Clone, Copy)]
struct Open {
    /// Whether what is outside of it is done.
    outside: bool,
    /// Whether one of its branches was done already, and whether the one that is read is.
    taken: bool,
    here: bool,
}

/// The entries of a well-formed block in a configuration.
fn entries(block: &[Action], configuration: &RowSet) -> Vec<TraceEntry> {
    let mut open: Vec<Open> = Vec::new();
    let mut shown = Vec::new();
    for &action in block {
        let outside = open.last().is_none_or(|innermost| innermost.here);
        let branch = |innermost: Open, holds: bool| {
            let here = innermost.outside && !innermost.taken && holds;
            Open { here, taken: innermost.taken || here, ..innermost }
        };
        match action {
            Action::If(row) => {
                open.push(branch(Open { outside, taken: false, here: false }, configuration.contains(row)));
            }
            Action::ElseIf(_) | Action::Else => {
                let holds = !matches!(action, Action::ElseIf(row) if !configuration.contains(row));
                let innermost = open.pop().expect("an if is open");
                open.push(branch(innermost, holds));
            }
            Action::End => drop(open.pop()),
            Action::Raise(name) if outside => shown.push(TraceEntry::Raised(name)),
            Action::Host(number) if outside => shown.push(TraceEntry::Host(number)),
            Action::Send { event, .. } if outside => shown.push(TraceEntry::Sent(event)),
            Action::Cancel(id) if outside => shown.push(TraceEntry::Cancelled(id)),
            Action::Raise(_) | Action::Host(_) | Action::Send { .. } | Action::Cancel(_) => {}
        }
    }
    shown
}

/// The moments of one round.
pub struct Moments<'a> {
    pub compiled: &'a CompiledChart,
    pub before: &'a RowSet,
    pub step: &'a Step,
}

impl Moments<'_> {
    /// What is active while the exit block of a row runs: rows behind it are exited already.
    fn at_exit(&self, row: RowNumber) -> RowSet {
        let earlier: RowSet = self.step.exited.rows().filter(|&other| other > row).collect();
        self.before.minus(&earlier)
    }

    fn between(&self) -> RowSet {
        self.before.minus(&self.step.exited)
    }

    /// What is active while the blocks of an entered row run: rows behind it are not entered yet.
    fn at_entry(&self, row: RowNumber) -> RowSet {
        let so_far: RowSet = self.step.entry.rows.rows().filter(|&other| other <= row).collect();
        self.between().union(&so_far)
    }

    pub fn trace(&self, kept: &[Selected]) -> Vec<TraceEntry> {
        let chart = &self.compiled.chart;
        let mut trace = Vec::new();
        for row in self.step.exited.rows_in_exit_order() {
            trace.push(TraceEntry::Exited(row));
            trace.extend(entries(&chart.row(row).exit, &self.at_exit(row)));
        }
        for selected in kept {
            trace.push(TraceEntry::Transition(selected.transition));
            trace.push(TraceEntry::Chooser(selected.chooser));
            trace.extend(entries(&chart.transition(selected.transition).block, &self.between()));
        }
        for row in self.step.entry.rows.rows() {
            trace.push(TraceEntry::Entered(row));
            trace.extend(self.entered(row));
            trace.extend(self.done_of(row));
        }
        trace
    }

    /// The blocks of an entered row.
    fn blocks_of(&self, row: RowNumber) -> Vec<&[Action]> {
        let chart = &self.compiled.chart;
        let initial = self.step.entry.by_default.contains(row).then_some(&chart.row(row).block);
        let histories = self.compiled.tree.histories(row).iter();
        let fallen = histories.filter(|&&history| self.step.entry.fallen.contains(history));
        let defaults = fallen.map(|&history| &chart.row(history).block);
        [&chart.row(row).entry].into_iter().chain(initial).chain(defaults).map(|block| &block[..]).collect()
    }

    fn entered(&self, row: RowNumber) -> Vec<TraceEntry> {
        let active = self.at_entry(row);
        self.blocks_of(row).into_iter().flat_map(|block| entries(block, &active)).collect()
    }

    /// The done entries of a final.
    fn done_of(&self, row: RowNumber) -> Vec<TraceEntry> {
        let tree = &self.compiled.tree;
        let parent = tree.parent(row).filter(|_| tree.kind(row) == Kind::Final).unwrap_or(ROOT);
        let Some(above) = tree.parent(parent) else { return Vec::new() };
        let both = tree.is_parallel(above) && is_in_final_state(self.compiled, &self.at_entry(row), above);
        let told = [parent, above].into_iter().take(if both { 2 } else { 1 });
        told.map(TraceEntry::Done).collect()
    }

    /// Blocks that were run, each with what was active then.
    pub fn blocks(&self, kept: &[Selected]) -> Vec<(&[Action], RowSet)> {
        let chart = &self.compiled.chart;
        let exits = self.step.exited.rows().map(|row| (&chart.row(row).exit[..], self.at_exit(row)));
        let taken = kept.iter().map(|one| (&chart.transition(one.transition).block[..], self.between()));
        let rows = self.step.entry.rows.rows();
        let entered = rows.flat_map(|row| {
            let active = self.at_entry(row);
            self.blocks_of(row).into_iter().map(move |block| (block, active))
        });
        exits.chain(taken).chain(entered).collect()
    }

    /// Whether a block shows other entries in this configuration than in that of its moment.
    pub fn tells_apart(block: &[Action], active: &RowSet, other: &RowSet) -> bool {
        entries(block, active) != entries(block, other)
    }
}
