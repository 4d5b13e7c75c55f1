//! What must hold of every round, asserted in every round that is tried.

use crate::appendix_d::{compute_entry_set, compute_start_set, Literally};
use crate::branches::conditions;
use crate::compiled::CompiledChart;
use crate::coverage::Coverage;
use crate::legal::{is_legal, set_to_store};
use crate::limits::QUEUE_NAMES;
use crate::microstep::{
    add_default_entry, fallen_histories, plan_entries, with_ancestors_below, EntryPlan, Step, TraceEntry,
};
use crate::moments::Moments;
use crate::names::done_name;
use crate::numbers::{RowNumber, TransitionNumber, ROOT};
use crate::random::Random;
use crate::row_set::RowSet;
use crate::selection::{domain_for, effective_targets, Moment, Selected, StoredHistory};
use crate::session::*;
use crate::tables::Kind;
use crate::timed::{watch_nothing, RoundRecord, Timed};
use crate::timers::Timers;

/// Nothing, or what was found broken.
pub type Found = Result<(), String>;

pub fn ensure(holds: bool, what: &str) -> Found {
    if holds {
        Ok(())
    } else {
        Err(what.to_string())
    }
}

/// One worked out round, with session and clock record before it and what became of them.
pub struct Seen<'a> {
    pub compiled: &'a CompiledChart,
    pub before: &'a Timed,
    pub record: &'a RoundRecord,
    pub after: Result<&'a Timed, u64>,
}

impl Seen<'_> {
    fn kept(&self) -> &[Selected] {
        &self.record.selection.kept
    }

    fn step(&self) -> &Step {
        &self.record.step
    }

    fn targets(&self, selected: &Selected) -> &[RowNumber] {
        &self.compiled.chart.transition(selected.transition).targets
    }

    fn with_targets(&self) -> impl Iterator<Item = (&Selected, RowNumber)> {
        self.kept().iter().filter_map(|selected| Some((selected, selected.domain?)))
    }

    pub fn check(&self, random: &mut Random) -> Found {
        self.selection_is_right()?;
        self.domains_are_right()?;
        self.exits_store_right()?;
        self.entries_are_right()?;
        self.closure_is_orderless(random)?;
        self.appendix_d_agrees()?;
        self.trace_is_right()?;
        self.judged_right()?;
        self.session_is_right()?;
        self.one_by_one(random)
    }

    fn selection_is_right(&self) -> Found {
        let mut candidates = self.record.selection.candidates.iter();
        let subsequence = self.kept().iter().all(|kept| candidates.any(|one| one == kept));
        ensure(subsequence, "kept are a subsequence of the candidates")?;
        let candidates = &self.record.selection.candidates;
        let numbers: Vec<TransitionNumber> = candidates.iter().map(|one| one.transition).collect();
        let chosen_once =
            numbers.iter().enumerate().all(|(place, number)| !numbers[..place].contains(number));
        ensure(chosen_once, "a transition chosen twice counts once")?;
        candidates.iter().try_for_each(|candidate| self.chooser_is_first(candidate))
    }

    /// The states whose climbs end at a transition, all of them.
    fn choosers(&self, transition: TransitionNumber) -> Vec<RowNumber> {
        let (configuration, stored) =
            (&self.before.session.configuration, StoredHistory(&self.before.session.stored));
        let moment = Moment { compiled: self.compiled, configuration, stored };
        let event = match &self.record.trigger {
            Trigger::Internal(name) | Trigger::External(name) => Some(&name[..]),
            _ => None,
        };
        let active = configuration.rows().filter(|&row| self.compiled.tree.is_atomic(row));
        active.filter(|&row| moment.first_match(row, event) == Some(transition)).collect()
    }

    /// "the first active atomic state that chose it".
    fn chooser_is_first(&self, candidate: &Selected) -> Found {
        let choosers = self.choosers(candidate.transition);
        ensure(choosers.iter().min() == Some(&candidate.chooser), "the first that chose a transition")?;
        let source = self.compiled.chart.transition(candidate.transition).source;
        let below = source == candidate.chooser || self.compiled.tree.is_ancestor(source, candidate.chooser);
        ensure(below, "who chose a transition is its source or below it")
    }

    fn domains_are_right(&self) -> Found {
        let with_targets: Vec<(&Selected, RowNumber)> = self.with_targets().collect();
        for (place, &(selected, domain)) in with_targets.iter().enumerate() {
            self.domain_is_right(selected, domain)?;
            self.history_parents_are_right(selected)?;
            for &other in &with_targets[..place] {
                self.are_apart((selected, domain), other)?;
            }
        }
        Ok(())
    }

    fn domain_is_right(&self, selected: &Selected, domain: RowNumber) -> Found {
        let active = domain == ROOT || self.before.session.configuration.contains(domain);
        ensure(active, "a domain is active")?;
        ensure(!self.step().exited.contains(domain), "a domain is not exited")?;
        ensure(!selected.exit_set.is_empty(), "an exit set is not empty")?;
        let stored = StoredHistory(&self.step().stored);
        let after = effective_targets(self.compiled, stored, self.targets(selected));
        let inside = after.is_subset_of(&self.compiled.tree.descendants(domain));
        ensure(inside, "the domain by old history holds the new effective targets")
    }

    fn history_parents_are_right(&self, selected: &Selected) -> Found {
        let tree = &self.compiled.tree;
        let histories = self.targets(selected).iter().filter(|&&target| tree.is_history(target));
        for parent in histories.map(|&history| tree.anchor(history)) {
            let fine = !self.step().exited.contains(parent) || selected.exit_set.contains(parent);
            ensure(fine, "the same transition exits a targeted history's parent")?;
        }
        Ok(())
    }

    fn are_apart(&self, one: (&Selected, RowNumber), other: (&Selected, RowNumber)) -> Found {
        let tree = &self.compiled.tree;
        ensure(!one.0.exit_set.meets(&other.0.exit_set), "exit sets are disjoint")?;
        let comparable =
            one.1 == other.1 || tree.is_ancestor(one.1, other.1) || tree.is_ancestor(other.1, one.1);
        ensure(!comparable, "domains are incomparable")
    }

    fn exits_store_right(&self) -> Found {
        let tree = &self.compiled.tree;
        let closing = self.record.trigger == Trigger::Closing;
        for (row, stored) in self.step().stored.iter().enumerate() {
            let row = RowNumber(row);
            let owner_exited = row.0 < tree.row_count()
                && tree.is_history(row)
                && self.step().exited.contains(tree.anchor(row));
            let expected = match owner_exited && !closing {
                true => set_to_store(tree, &self.before.session.configuration, row),
                false => self.before.session.stored[row.0],
            };
            ensure(*stored == expected, "just the exited owners of histories store")?;
            ensure(!owner_exited || closing || !stored.is_empty(), "a stored set is not empty")?;
        }
        Ok(())
    }

    fn entries_are_right(&self) -> Found {
        let tree = &self.compiled.tree;
        let step = self.step();
        let left = self.before.session.configuration.minus(&step.exited);
        ensure(!step.entry.rows.meets(&left), "no active row is entered")?;
        ensure(step.configuration == left.union(&step.entry.rows), "exits and entries alone move")?;
        for row in step.entry.rows.rows() {
            let fallen = tree.histories(row).iter().filter(|&&history| step.entry.fallen.contains(history));
            let fallen = fallen.count();
            ensure(fallen <= 1, "an entered row has at most one default block")?;
            let both = fallen > 0 && step.entry.by_default.contains(row);
            let list = &self.compiled.chart.row(row).list;
            let own_alone = list.len() == 1 && tree.histories(row).contains(&list[0]);
            ensure(!both || own_alone, "an initial and a default block come by the row's own history alone")?;
        }
        ensure(step.entry.by_default.is_subset_of(&step.entry.rows), "only entered rows default")
    }

    /// The lists to begin the closure with, each with the row that it is below.
    fn entry_lists(&self) -> Vec<(Vec<RowNumber>, RowNumber)> {
        if self.record.trigger == Trigger::Start {
            return vec![(self.compiled.default_entry_targets(ROOT), ROOT)];
        }
        self.with_targets().map(|(selected, domain)| (self.targets(selected).to_vec(), domain)).collect()
    }

    /// The rows and histories to begin the closure with.
    fn entry_seed(&self) -> EntryPlan {
        let stored = StoredHistory(&self.step().stored);
        let mut seed = EntryPlan::default();
        for (targets, above) in self.entry_lists() {
            let effective = effective_targets(self.compiled, stored, &targets);
            seed.rows = seed.rows.union(&with_ancestors_below(self.compiled, above, &effective));
            seed.fallen = seed.fallen.union(&fallen_histories(self.compiled, stored, &targets));
        }
        seed
    }

    /// "The entry closure does not depend on the order in which missing rows are added."
    fn closure_is_orderless(&self, random: &mut Random) -> Found {
        let stored = StoredHistory(&self.step().stored);
        let filled = fill_in_any_order(self.compiled, stored, self.entry_seed(), random);
        ensure(filled == self.step().entry, "the entry closure does not depend on the order")
    }

    fn appendix_d_agrees(&self) -> Found {
        let stored = StoredHistory(&self.step().stored);
        let plan = match self.record.trigger {
            Trigger::Start => compute_start_set(self.compiled, stored),
            _ => compute_entry_set(self.compiled, stored, self.kept(), Literally::NEITHER),
        };
        ensure(plan == self.step().entry, "the cut Appendix D enters the same")
    }

    /// Exits in reverse document order, then transitions in selection order, then entries in
    /// document order, and a dropped event shows nothing.
    fn trace_is_right(&self) -> Found {
        let step = self.step();
        let own = step.trace.iter().filter(|entry| [1, 2, 3, 7].contains(&entry.kind_and_index().0)).copied();
        let exits = step.exited.rows_in_exit_order().into_iter().map(TraceEntry::Exited);
        let transitions = self.kept().iter().flat_map(|selected| {
            [TraceEntry::Transition(selected.transition), TraceEntry::Chooser(selected.chooser)]
        });
        let entries = step.entry.rows.rows().map(TraceEntry::Entered);
        ensure(own.eq(exits.chain(transitions).chain(entries)), "exits, transitions, entries")?;
        let followed = step.trace.iter().enumerate().all(|(place, entry)| {
            let chooser_behind = matches!(step.trace.get(place + 1), Some(TraceEntry::Chooser(_)));
            matches!(entry, TraceEntry::Transition(_)) == chooser_behind
        });
        ensure(followed, "who chose a transition comes directly after it")?;
        let expected = self.moments().trace(self.kept());
        ensure(step.trace == expected, "every block reads the configuration of its moment")?;
        let silent = step.trace.is_empty() && step.queued.is_empty() && step.timings.is_empty();
        ensure(!self.kept().is_empty() || self.is_special() || silent, "a drop is silent")?;
        self.queued_is_right()
    }

    fn moments(&self) -> Moments<'_> {
        Moments { compiled: self.compiled, before: &self.before.session.configuration, step: self.step() }
    }

    /// A done event comes at most once a row; every raise and done event is queued, in order.
    fn queued_is_right(&self) -> Found {
        let chart = &self.compiled.chart;
        let mut done = RowSet::EMPTY;
        let mut queued = Vec::new();
        for entry in &self.step().trace {
            match *entry {
                TraceEntry::Raised(name) => queued.push(chart.name(name).to_vec()),
                TraceEntry::Done(row) => {
                    ensure(!done.contains(row), "a done event comes at most once a row")?;
                    done.insert(row);
                    queued.push(done_name(chart.id(row)));
                }
                _ => {}
            }
        }
        ensure(queued == self.step().queued, "each raise and done event is queued")
    }

    fn is_special(&self) -> bool {
        matches!(self.record.trigger, Trigger::Start | Trigger::Closing)
    }

    fn internal_length_after(&self) -> usize {
        let taken = usize::from(matches!(self.record.trigger, Trigger::Internal(_)));
        self.before.session.internal.count as usize - taken + self.step().queued.len()
    }

    fn overflows(&self) -> bool {
        let closing = self.record.trigger == Trigger::Closing;
        !closing && (self.internal_length_after() > QUEUE_NAMES || self.timers().is_full())
    }

    fn timers(&self) -> Timers<'_> {
        Timers { chart: &self.compiled.chart, before: &self.before.clock, step: self.step() }
    }

    /// 7 before 10, whatever the trace room.
    fn judged_right(&self) -> Found {
        match self.after {
            Err(QUEUE_FULL) => ensure(self.overflows(), "7 is given for a full queue or table alone"),
            Err(NO_TRACE_ROOM) => ensure(!self.overflows(), "7 comes before 10"),
            Err(_) => Err("a round is refused with 7 or 10 alone".to_string()),
            Ok(_) => ensure(!self.overflows(), "a full queue or table is refused"),
        }
    }

    fn session_is_right(&self) -> Found {
        let tree = &self.compiled.tree;
        let configuration = &self.step().configuration;
        if self.record.trigger == Trigger::Closing {
            ensure(self.before.session.configuration.len() == 1, "a closing session has one active row")?;
        } else {
            ensure(is_legal(tree, configuration), "legality is preserved")?;
        }
        let Ok(after) = self.after else { return Ok(()) };
        ensure(after.is_well_formed(self.compiled), "session and record stay well formed")?;
        self.timers().left_right(self.record.trigger == Trigger::Closing, &after.clock)?;
        let after = &after.session;
        let done = after.configuration.rows().any(|row| tree.is_final_under_root(row));
        ensure((after.mode == CLOSING) == done, "closing exactly if a final under root is active")?;
        ensure((after.mode == ENDED) == after.configuration.is_empty(), "ended exactly if nothing is active")
    }

    /// Exits and entries of the kept transitions, one transition after another in some order,
    /// give the round's result.
    fn one_by_one(&self, random: &mut Random) -> Found {
        if self.is_special() {
            return Ok(());
        }
        let mut order: Vec<&Selected> = self.kept().iter().collect();
        for _ in 0..if order.len() > 1 { 3 } else { 1 } {
            random.shuffle(&mut order);
            let (configuration, stored) = apply_one_by_one(self.compiled, &self.before.session, &order);
            let same = configuration == self.step().configuration && stored == self.step().stored;
            ensure(same, "one by one in any order gives the round's result")?;
        }
        Ok(())
    }

    /// Counts what was special about this round.
    pub fn count(&self, coverage: &mut Coverage) {
        self.count_round(coverage);
        self.count_selection(coverage);
        self.count_history(coverage);
        self.count_listed_histories(coverage);
        self.count_entries(coverage);
        self.count_blocks(coverage);
        self.timers().count(self.record.trigger == Trigger::Closing, coverage);
    }

    /// Blocks with conditions, and those that another moment would decide otherwise.
    fn count_blocks(&self, coverage: &mut Coverage) {
        let (before, after) = (&self.before.session.configuration, &self.step().configuration);
        for (block, active) in self.moments().blocks(self.kept()) {
            coverage.note_if("blocks run", !block.is_empty());
            if conditions(block).next().is_none() {
                continue;
            }
            coverage.note("blocks run that have conditions");
            let others = [
                ("blocks that the configuration before the round would decide otherwise", before),
                ("blocks that the configuration after the round would decide otherwise", after),
                ("blocks that no active row would decide otherwise", &RowSet::EMPTY),
            ];
            for (what, other) in others {
                coverage.note_if(what, Moments::tells_apart(block, &active, other));
            }
        }
    }

    fn count_round(&self, coverage: &mut Coverage) {
        coverage.note("rounds and starts worked out");
        coverage.note(match self.record.trigger {
            Trigger::Start => "starts worked out",
            Trigger::Closing => "closing rounds",
            Trigger::Eventless => "eventless rounds",
            Trigger::Internal(_) => "rounds on internal events",
            Trigger::External(_) => "rounds on external events",
        });
        coverage.note_if("rounds that drop their event", self.kept().is_empty() && !self.is_special());
        coverage.note_if("rounds or starts refused with 7", self.after == Err(QUEUE_FULL));
        coverage.note_if("rounds or starts refused with 10", self.after == Err(NO_TRACE_ROOM));
        let entered_closing = self.step().closing && self.after.is_ok();
        coverage.note_if("rounds or starts that set closing", entered_closing);
        coverage.note_if("rounds that set closing refused with 7", self.step().closing && self.overflows());
        let for_table = self.after == Err(QUEUE_FULL) && self.timers().is_full();
        let no_queue = self.internal_length_after() <= QUEUE_NAMES;
        coverage.note_if("rounds or starts refused with 7 for the table alone", for_table && no_queue);
    }

    fn count_selection(&self, coverage: &mut Coverage) {
        let selection = &self.record.selection;
        coverage.add("transitions taken", selection.kept.len() as u64);
        coverage.note_if("rounds with several transitions", selection.kept.len() > 1);
        let dropped = selection.candidates.len() - selection.kept.len();
        coverage.add("candidates removed by conflicts", dropped as u64);
        let last = selection.candidates.last().is_some_and(|last| selection.kept.contains(last));
        coverage.note_if("rounds where a later candidate removed a kept one", dropped > 0 && last);
        let number_order = selection.kept.windows(2).all(|pair| pair[0].transition < pair[1].transition);
        coverage.note_if("rounds where selection order is not number order", !number_order);
        for selected in &selection.kept {
            let transition = self.compiled.chart.transition(selected.transition);
            coverage.note_if("transitions without targets", selected.domain.is_none());
            coverage.note_if("transitions chosen from below", selected.chooser != transition.source);
            let choosers = self.choosers(selected.transition).len();
            coverage.note_if("transitions chosen by several", choosers > 1);
            coverage
                .note_if("internal transitions that stay inside", selected.domain == Some(transition.source));
            coverage.note_if("transitions with several targets", transition.targets.len() > 1);
            coverage.note_if("transitions with a condition", transition.condition.is_some());
            let anchors = self.compiled.target_anchors(selected.transition);
            let by_anchors = domain_for(self.compiled, transition, &anchors);
            coverage.note_if("transitions whose anchors give another domain", by_anchors != selected.domain);
        }
    }

    fn count_history(&self, coverage: &mut Coverage) {
        let tree = &self.compiled.tree;
        let step = self.step();
        let stores = step.exited.rows().map(|row| tree.histories(row).len() as u64).sum();
        coverage.add("histories stored", stores);
        for (selected, _) in self.with_targets() {
            for &target in self.targets(selected) {
                if tree.is_history(target) {
                    let fallen = step.entry.fallen.contains(target);
                    let entered = step.entry.rows.contains(tree.anchor(target));
                    coverage.note(match (fallen, tree.kind(target)) {
                        (true, _) => "histories that fell to their default lists",
                        (false, Kind::ShallowHistory) => "shallow histories restored",
                        (false, _) => "deep histories restored",
                    });
                    let block = !self.compiled.chart.row(target).block.is_empty();
                    coverage.note_if("default blocks run", fallen && entered && block);
                    coverage
                        .note_if("default blocks not run, parent not entered", fallen && !entered && block);
                    coverage.note_if("targeted histories whose parent is not entered", !entered);
                }
            }
        }
        if !self.is_special() {
            let stored = StoredHistory(&step.stored);
            let above = Literally { above_domain: true, domain_again: false };
            let again = Literally { above_domain: false, domain_again: true };
            let differs = |literally| {
                compute_entry_set(self.compiled, stored, self.kept(), literally).rows != step.entry.rows
            };
            coverage.note_if("rounds where Appendix D enters above the domain", differs(above));
            coverage.note_if("rounds where Appendix D's new domain enters other rows", differs(again));
        }
    }

    /// The histories of initial lists by which a child came by default.
    fn count_listed_histories(&self, coverage: &mut Coverage) {
        let tree = &self.compiled.tree;
        let step = self.step();
        let at_start = RowSet::of(if self.record.trigger == Trigger::Start { &[ROOT] } else { &[] });
        for owner in step.entry.by_default.union(&at_start).rows() {
            let list = self.compiled.default_entry_targets(owner);
            for history in list.into_iter().filter(|&row| tree.is_history(row)) {
                let own = tree.anchor(history) == owner;
                coverage.note(match (step.entry.fallen.contains(history), own) {
                    (true, true) => "listed histories that fell, of the owner",
                    (true, false) => "listed histories that fell, of a row below",
                    (false, true) => "listed histories restored, of the owner",
                    (false, false) => "listed histories restored, of a row below",
                });
                let moved = self.before.session.stored[history.0] != step.stored[history.0];
                coverage.note_if("listed histories that the same round stored", moved);
            }
        }
    }

    fn count_entries(&self, coverage: &mut Coverage) {
        let tree = &self.compiled.tree;
        coverage.add("rows entered by default", self.step().entry.by_default.len() as u64);
        for entry in &self.step().trace {
            if let TraceEntry::Done(row) = *entry {
                coverage.note(match tree.is_parallel(row) {
                    true => "done events of parallels",
                    false => "done events of states",
                });
            }
        }
        let late = plan_entries(self.compiled, StoredHistory(&self.before.session.stored), self.kept());
        let moved = !self.is_special() && late.rows != self.step().entry.rows;
        coverage.note_if("rounds whose entry reads history of the same round", moved);
    }
}

/// Adds missing rows one at a time, any that is missing.
fn fill_in_any_order(
    compiled: &CompiledChart,
    stored: StoredHistory,
    mut plan: EntryPlan,
    random: &mut Random,
) -> EntryPlan {
    let tree = &compiled.tree;
    loop {
        let mut missing: Vec<(RowNumber, Option<RowNumber>)> = Vec::new();
        for row in plan.rows.rows() {
            let children = tree.children(row);
            if tree.is_parallel(row) {
                missing.extend(children.minus(&plan.rows).rows().map(|child| (row, Some(child))));
            } else if tree.is_compound(row) && !children.meets(&plan.rows) {
                missing.push((row, None));
            }
        }
        match random.pick(&missing) {
            None => return plan,
            Some((_, Some(child))) => plan.rows.insert(child),
            Some((row, None)) => add_default_entry(compiled, stored, &mut plan, row),
        }
    }
}

fn apply_one_by_one(
    compiled: &CompiledChart,
    before: &Session,
    order: &[&Selected],
) -> (RowSet, Vec<RowSet>) {
    let mut configuration = before.configuration;
    let mut stored = before.stored.clone();
    for &selected in order {
        let Some(domain) = selected.domain else { continue };
        let exit_set = compiled.tree.descendants(domain).intersection(&configuration);
        let alone = Selected { exit_set, ..selected.clone() };
        let step = Step::from(configuration, &stored).take(compiled, &[alone]);
        configuration = step.configuration;
        stored = step.stored;
    }
    (configuration, stored)
}

/// "a run of a and then of b (b at least 1) is a run of a + b", with the trace room passed on.
pub fn run_splits(
    compiled: &CompiledChart,
    timed: &Timed,
    rounds: u32,
    room: usize,
    whole: &Answer,
    random: &mut Random,
) -> Found {
    if rounds == 0 {
        return Ok(());
    }
    let most = rounds.min(whole.rounds.saturating_add(2));
    let first = random.below(most as usize) as u32;
    let begun = timed.clone().run(Some(compiled), first, room, &mut watch_nothing);
    let left = room - begun.trace.len();
    let rest = begun.clone().timed().run(Some(compiled), rounds - first, left, &mut watch_nothing);
    let same = rest.session == whole.session
        && rest.clock == whole.clock
        && rest.number == whole.number
        && begun.rounds + rest.rounds == whole.rounds
        && [begun.trace, rest.trace].concat() == whole.trace;
    ensure(same, "a run of a and then of b is a run of a + b")
}
