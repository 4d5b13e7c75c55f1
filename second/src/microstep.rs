//! Taking the kept transitions of one round: exits, transition blocks, entries. Nothing here
//! refuses; the round is worked out to its end and judged by the session afterwards.

use crate::branches::{done, parse};
use crate::clock::Timing;
use crate::compiled::CompiledChart;
use crate::legal::set_to_store;
use crate::names::done_name;
use crate::numbers::{NameNumber, RowNumber, TransitionNumber, ROOT};
use crate::row_set::RowSet;
use crate::selection::{effective_targets, Remembered, Selected, StoredHistory};
use crate::tables::{Action, Chart, Kind};

/// "Trace entries are 32-bit numbers, kind × 65,536 + index".
#[derive(Clone, Copy, PartialEq, Eq, Debug)]
pub enum TraceEntry {
    Exited(RowNumber),
    Transition(TransitionNumber),
    Entered(RowNumber),
    Host(u16),
    Raised(NameNumber),
    Done(RowNumber),
    Chooser(RowNumber),
    Sent(NameNumber),
    Cancelled(NameNumber),
}

impl TraceEntry {
    pub fn kind_and_index(self) -> (u32, u32) {
        match self {
            TraceEntry::Exited(row) => (1, row.0 as u32),
            TraceEntry::Transition(transition) => (2, transition.0 as u32),
            TraceEntry::Entered(row) => (3, row.0 as u32),
            TraceEntry::Host(action) => (4, u32::from(action)),
            TraceEntry::Raised(name) => (5, name.0 as u32),
            TraceEntry::Done(row) => (6, row.0 as u32),
            TraceEntry::Chooser(row) => (7, row.0 as u32),
            TraceEntry::Sent(event) => (8, event.0 as u32),
            TraceEntry::Cancelled(id) => (9, id.0 as u32),
        }
    }

    pub fn number(self) -> u32 {
        let (kind, index) = self.kind_and_index();
        kind * 65_536 + index
    }
}

/// The rows that will be entered, and which blocks their entry runs besides their own.
#[derive(Clone, PartialEq, Eq, Debug, Default)]
pub struct EntryPlan {
    pub rows: RowSet,
    /// The compound states whose child came by default.
    pub by_default: RowSet,
    /// The histories, targeted or in an initial list, that fell to their default lists.
    pub fallen: RowSet,
}

/// What a round changes and shows. The configuration moves while the step goes on.
#[derive(Clone, PartialEq, Eq, Debug)]
pub struct Step {
    pub configuration: RowSet,
    pub stored: Vec<RowSet>,
    /// Names that join the internal queue, oldest first.
    pub queued: Vec<Vec<u8>>,
    /// Sends and cancels, in the order in which their blocks ran.
    pub timings: Vec<Timing>,
    pub trace: Vec<TraceEntry>,
    pub closing: bool,
    pub exited: RowSet,
    pub entry: EntryPlan,
}

impl Step {
    pub fn from(configuration: RowSet, stored: &[RowSet]) -> Step {
        Step {
            configuration,
            stored: stored.to_vec(),
            queued: Vec::new(),
            timings: Vec::new(),
            trace: Vec::new(),
            closing: false,
            exited: RowSet::EMPTY,
            entry: EntryPlan::default(),
        }
    }

    /// A microstep of a running session.
    pub fn take(mut self, compiled: &CompiledChart, kept: &[Selected]) -> Step {
        let exited = kept.iter().fold(RowSet::EMPTY, |all, one| all.union(&one.exit_set));
        self.store_history(compiled, &exited);
        self.exit(compiled, &exited);
        self.run_transitions(compiled, kept);
        let plan = plan_entries(compiled, StoredHistory(&self.stored), kept);
        self.enter(compiled, plan);
        self
    }

    /// "Start enters the root's initial targets as above".
    pub fn start(mut self, compiled: &CompiledChart) -> Step {
        let plan = plan_start(compiled, StoredHistory(&self.stored));
        self.enter(compiled, plan);
        self
    }

    /// "A closing session's next round exits all that is active in exit order and stores no
    /// history".
    pub fn close(mut self, compiled: &CompiledChart) -> Step {
        let active = self.configuration;
        self.exit(compiled, &active);
        self
    }

    /// "Before any is removed, each exited owner of a history stores".
    fn store_history(&mut self, compiled: &CompiledChart, exited: &RowSet) {
        for owner in exited.rows() {
            for &history in compiled.tree.histories(owner) {
                self.stored[history.0] = set_to_store(&compiled.tree, &self.configuration, history);
            }
        }
    }

    /// "descendants first, reverse document order".
    fn exit(&mut self, compiled: &CompiledChart, exited: &RowSet) {
        self.exited = *exited;
        for row in exited.rows_in_exit_order() {
            self.trace.push(TraceEntry::Exited(row));
            self.run_block(compiled, &compiled.chart.row(row).exit);
            self.configuration.remove(row);
        }
    }

    /// "Then blocks of the transitions in selection order." The state that chose a transition stands
    /// "directly after each kind 2 entry, ahead of the block's entries".
    fn run_transitions(&mut self, compiled: &CompiledChart, kept: &[Selected]) {
        for selected in kept {
            self.trace.push(TraceEntry::Transition(selected.transition));
            self.trace.push(TraceEntry::Chooser(selected.chooser));
            self.run_block(compiled, &compiled.chart.transition(selected.transition).block);
        }
    }

    /// "In reads the configuration at that moment", which no action of the block moves.
    fn run_block(&mut self, compiled: &CompiledChart, block: &[Action]) {
        let statements = parse(block).expect("rule 5 is kept");
        for action in done(&statements, &self.configuration) {
            match action {
                Action::Raise(name) => {
                    self.trace.push(TraceEntry::Raised(name));
                    self.queued.push(compiled.chart.name(name).to_vec());
                }
                Action::Host(number) => self.trace.push(TraceEntry::Host(number)),
                Action::Send { event, delay, id } => self.send(&compiled.chart, event, delay, id),
                Action::Cancel(id) => {
                    self.trace.push(TraceEntry::Cancelled(id));
                    self.timings.push(Timing::Cancel { id: compiled.chart.name(id).to_vec() });
                }
                _ => unreachable!("no part of an if is done"),
            }
        }
    }

    /// "The trace shows a send as kind 8 and a cancel as kind 9, each with its name's number".
    fn send(&mut self, chart: &Chart, event: NameNumber, delay: u32, id: Option<NameNumber>) {
        self.trace.push(TraceEntry::Sent(event));
        self.timings.push(Timing::Send {
            event: chart.name(event).to_vec(),
            delay: u64::from(delay),
            id: id.map(|id| chart.name(id).to_vec()),
        });
    }

    /// "Entry in document order: entry block; initial block, if its child came by default; default
    /// block, if a history of this row fell to its default list."
    fn enter(&mut self, compiled: &CompiledChart, plan: EntryPlan) {
        for row in plan.rows.rows() {
            self.configuration.insert(row);
            self.trace.push(TraceEntry::Entered(row));
            self.run_block(compiled, &compiled.chart.row(row).entry);
            if plan.by_default.contains(row) {
                self.run_block(compiled, &compiled.chart.row(row).block);
            }
            for &history in compiled.tree.histories(row) {
                if plan.fallen.contains(history) {
                    self.run_block(compiled, &compiled.chart.row(history).block);
                }
            }
            if compiled.tree.kind(row) == Kind::Final {
                self.reach_final(compiled, row);
            }
        }
        self.entry = plan;
    }

    /// "A final under root sets closing. Any other final queues done.state.(parent), then, if the
    /// grandparent is parallel and all its children are by now in a final state,
    /// done.state.(grandparent). One level only."
    fn reach_final(&mut self, compiled: &CompiledChart, row: RowNumber) {
        let tree = &compiled.tree;
        let Some(parent) = tree.parent(row) else { return };
        if parent == ROOT {
            self.closing = true;
            return;
        }
        self.queue_done(compiled, parent);
        let Some(grandparent) = tree.parent(parent) else { return };
        if tree.is_parallel(grandparent) && is_in_final_state(compiled, &self.configuration, grandparent) {
            self.queue_done(compiled, grandparent);
        }
    }

    fn queue_done(&mut self, compiled: &CompiledChart, row: RowNumber) {
        self.trace.push(TraceEntry::Done(row));
        self.queued.push(done_name(compiled.chart.id(row)));
    }
}

/// "A compound state is in a final state if a final child is active, a parallel if all its
/// children are, no other row ever."
pub fn is_in_final_state(compiled: &CompiledChart, configuration: &RowSet, row: RowNumber) -> bool {
    let tree = &compiled.tree;
    let mut children = tree.children(row).rows();
    if tree.is_parallel(row) {
        return children.all(|child| is_in_final_state(compiled, configuration, child));
    }
    tree.is_compound(row)
        && children.any(|child| tree.kind(child) == Kind::Final && configuration.contains(child))
}

/// "Entry set: effective targets, now by the history as this round's exits left it, and their
/// ancestors below the same domain; then, until nothing is missing ..."
pub fn plan_entries(compiled: &CompiledChart, stored: StoredHistory, kept: &[Selected]) -> EntryPlan {
    let mut plan = EntryPlan::default();
    for selected in kept {
        let Some(domain) = selected.domain else { continue };
        let targets = &compiled.chart.transition(selected.transition).targets;
        let effective = effective_targets(compiled, stored, targets);
        plan.rows = plan.rows.union(&with_ancestors_below(compiled, domain, &effective));
        plan.fallen = plan.fallen.union(&fallen_histories(compiled, stored, targets));
    }
    fill(compiled, stored, &mut plan);
    plan
}

/// The root counts as entered by default, with its initial targets; it has no block.
pub fn plan_start(compiled: &CompiledChart, stored: StoredHistory) -> EntryPlan {
    let mut plan = EntryPlan::default();
    add_initial_targets(compiled, stored, &mut plan, ROOT);
    fill(compiled, stored, &mut plan);
    plan
}

pub fn fallen_histories(compiled: &CompiledChart, stored: StoredHistory, targets: &[RowNumber]) -> RowSet {
    targets
        .iter()
        .copied()
        .filter(|&target| compiled.tree.is_history(target))
        .filter(|&history| matches!(stored.of(history), Remembered::Nothing))
        .collect()
}

/// The targets and their ancestors below a row.
pub fn with_ancestors_below(compiled: &CompiledChart, above: RowNumber, targets: &RowSet) -> RowSet {
    let mut all = *targets;
    for target in targets.rows() {
        let below = compiled.tree.descendants(above);
        all = all.union(&compiled.tree.ancestors(target).intersection(&below));
    }
    all
}

/// "then, until nothing is missing, all children of an entered parallel, and for an entered
/// compound state with no child in the set its initial targets and their ancestors below it."
fn fill(compiled: &CompiledChart, stored: StoredHistory, plan: &mut EntryPlan) {
    loop {
        let before = plan.rows;
        for row in before.rows() {
            fill_row(compiled, stored, plan, row);
        }
        if plan.rows == before {
            return;
        }
    }
}

fn fill_row(compiled: &CompiledChart, stored: StoredHistory, plan: &mut EntryPlan, row: RowNumber) {
    let children = compiled.tree.children(row);
    if compiled.tree.is_parallel(row) {
        plan.rows = plan.rows.union(&children);
    } else if compiled.tree.is_compound(row) && !children.meets(&plan.rows) {
        add_default_entry(compiled, stored, plan, row);
    }
}

/// The child of this compound state comes by default.
pub fn add_default_entry(
    compiled: &CompiledChart,
    stored: StoredHistory,
    plan: &mut EntryPlan,
    row: RowNumber,
) {
    add_initial_targets(compiled, stored, plan, row);
    plan.by_default.insert(row);
}

/// "its initial targets and their ancestors below it". Of a history in the list "its stored states stand
/// in, else its default list" (R-3), by the history that targets are resolved by.
fn add_initial_targets(
    compiled: &CompiledChart,
    stored: StoredHistory,
    plan: &mut EntryPlan,
    owner: RowNumber,
) {
    let initial = compiled.default_entry_targets(owner);
    let effective = effective_targets(compiled, stored, &initial);
    plan.rows = plan.rows.union(&with_ancestors_below(compiled, owner, &effective));
    plan.fallen = plan.fallen.union(&fallen_histories(compiled, stored, &initial));
}
