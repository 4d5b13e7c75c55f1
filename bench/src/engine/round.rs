//! A round, worked out beside the session: nothing is changed before it is known to fit.

use super::chart::Chart;
use super::clock::{Clock, Timers};
use super::limits::QUEUE_NAMES;
use super::row_set::RowSet;
use super::selection::Selection;
use super::session::Session;
use super::tables::{Part, CANCEL, ELSE, ELSE_IF, END, HOST, IF, RAISE, ROOT};
use std::ops::Deref;

const EXITED: u32 = 1 << 16;
const TRANSITION: u32 = 2 << 16;
const ENTERED: u32 = 3 << 16;
const HOST_ACTION: u32 = 4 << 16;
const RAISED: u32 = 5 << 16;
const DONE: u32 = 6 << 16;
const CHOOSER: u32 = 7 << 16;
const SENT: u32 = 8 << 16;
const CANCELLED: u32 = 9 << 16;

/// Rounds of so many entries are drafted; a longer one is worked out again where it is to stand.
pub const DRAFT: usize = 512;

pub struct Round<'a> {
    /// The first entries of the round, as far as there is room for them.
    entries: &'a mut [u32],
    /// How many entries the round has.
    pub count: usize,
    /// How many names join the internal queue, and the entries of those that may find room in it.
    pub queued: usize,
    queue: [u32; QUEUE_NAMES],
    /// The configuration as it moves.
    pub configuration: RowSet,
    /// A final under the root was entered.
    pub closing: bool,
    pub timers: Timers,
}

/// A chart, and the clock record that its sends and cancels are held to.
#[derive(Clone, Copy)]
pub struct Beside<'a> {
    pub chart: &'a Chart<'a>,
    pub clock: &'a Clock,
}

impl<'a> Deref for Beside<'a> {
    type Target = Chart<'a>;

    #[inline]
    fn deref(&self) -> &Chart<'a> {
        self.chart
    }
}

/// A name that joins the internal queue.
pub enum Queued {
    Raised(usize),
    DoneOf(usize),
}

/// What becomes of an action in a block with branches.
#[derive(Clone, Copy)]
enum Turn {
    Done,
    /// A branch of the if is still to be found.
    Sought,
    /// One was done: the rest of the if is not.
    Past,
}

impl Round<'_> {
    pub fn over(entries: &mut [u32]) -> Round<'_> {
        Round {
            entries,
            count: 0,
            queued: 0,
            queue: [0; QUEUE_NAMES],
            configuration: RowSet::EMPTY,
            closing: false,
            timers: Timers::NONE,
        }
    }

    fn begin(&mut self, configuration: RowSet, only_shown: bool) {
        self.timers.begin(only_shown);
        self.count = 0;
        self.queued = 0;
        self.configuration = configuration;
        self.closing = false;
    }

    /// The entries, if there was room for all of them.
    #[inline]
    pub fn entries(&self) -> Option<&[u32]> {
        self.entries.get(..self.count)
    }

    /// The names that join the internal queue, oldest first. There are no more than it can hold.
    pub fn names(&self) -> impl Iterator<Item = Queued> + '_ {
        self.queue[..self.queued].iter().map(|&entry| match entry {
            DONE.. => Queued::DoneOf((entry - DONE) as usize),
            _ => Queued::Raised((entry - RAISED) as usize),
        })
    }

    // The three kinds of round

    pub fn start(&mut self, chart: Beside) {
        self.begin(RowSet::EMPTY, false);
        let nothing_stored = |_: usize| RowSet::EMPTY;
        let (targets, fallen) = chart.resolved(chart.defaults(ROOT), nothing_stored);
        self.enter(chart, chart.with_ancestors_below(ROOT, targets), fallen, nothing_stored);
    }

    pub fn take(&mut self, chart: Beside, session: &Session, selection: &Selection) {
        let before = session.configuration();
        let exits = selection.exits;
        self.begin(before, false);
        self.exit(chart, exits);
        for taken in selection.taken() {
            let number = taken.transition as usize;
            self.push(TRANSITION, number);
            self.push(CHOOSER, selection.chooser(number));
            self.run(chart, chart.tables.transition(number).block(), RowSet::contains);
        }
        let stored = |history: usize| match exits.contains(chart.parent(history)) {
            true => chart.to_store(before, history),
            false => session.stored(history),
        };
        let mut targets = RowSet::EMPTY;
        let mut fallen = RowSet::EMPTY;
        for &taken in selection.taken() {
            if let Some(enters) = selection.enters(&chart, taken) {
                targets |= enters;
                continue;
            }
            let Some(domain) = taken.domain else { continue };
            let transition = chart.tables.transition(taken.transition as usize);
            let listed = chart.tables.listed(transition.targets()).collect();
            let (effective, by_default) = chart.resolved(listed, stored);
            targets |= chart.with_ancestors_below(domain as usize, effective);
            fallen |= by_default;
        }
        self.enter(chart, targets, fallen, stored);
    }

    pub fn close(&mut self, chart: Beside, session: &Session) {
        self.begin(session.configuration(), true);
        self.exit(chart, session.configuration());
    }

    // Their parts

    #[inline]
    fn push(&mut self, kind: u32, index: usize) {
        if let Some(place) = self.entries.get_mut(self.count) {
            *place = kind | index as u32;
        }
        self.count += 1;
    }

    #[inline]
    fn queue(&mut self, kind: u32, index: usize) {
        self.push(kind, index);
        if let Some(place) = self.queue.get_mut(self.queued) {
            *place = kind | index as u32;
        }
        self.queued += 1;
    }

    /// Does a block. Whether a row is active is told of the configuration as it stands here, and asked
    /// only by conditions.
    #[inline]
    fn run(&mut self, chart: Beside, block: Part, is_active: impl Fn(RowSet, usize) -> bool) {
        if block.count == 0 {
            return;
        }
        if chart.index.branches {
            return self.run_branches(chart, block, is_active);
        }
        for action in chart.tables.block(block) {
            self.act(chart, action);
        }
    }

    #[inline]
    fn act(&mut self, chart: Beside, action: &[u64; 4]) {
        let &[what, argument, ..] = action;
        match what {
            RAISE => self.queue(RAISED, argument as usize),
            HOST => self.push(HOST_ACTION, argument as usize),
            _ => self.time(chart, action),
        }
    }

    /// A send or a cancel.
    #[cold]
    fn time(&mut self, chart: Beside, &[what, name, delay, id]: &[u64; 4]) {
        if what == CANCEL {
            self.push(CANCELLED, name as usize);
            self.timers.cancel(chart.clock, chart.tables.names, name as usize);
        } else {
            self.push(SENT, name as usize);
            self.timers.send(chart.clock, [name, delay, id]);
        }
    }

    fn run_branches(&mut self, chart: Beside, block: Part, is_active: impl Fn(RowSet, usize) -> bool) {
        let mut turn = Turn::Done;
        // Ifs that were opened where nothing is done.
        let mut inside = 0_u32;
        for action in chart.tables.block(block) {
            let &[what, argument, ..] = action;
            let holds = |round: &Self| is_active(round.configuration, argument as usize);
            match (turn, what) {
                (Turn::Done, IF) if !holds(self) => turn = Turn::Sought,
                (Turn::Done, ELSE_IF | ELSE) => turn = Turn::Past,
                (Turn::Done, IF | END) => {}
                (Turn::Done, _) => self.act(chart, action),
                (_, IF) => inside += 1,
                (_, END) if inside > 0 => inside -= 1,
                (_, END) => turn = Turn::Done,
                (Turn::Sought, ELSE) if inside == 0 => turn = Turn::Done,
                (Turn::Sought, ELSE_IF) if inside == 0 && holds(self) => turn = Turn::Done,
                _ => {}
            }
        }
    }

    fn exit(&mut self, chart: Beside, exits: RowSet) {
        for row in exits.rows_backwards() {
            self.push(EXITED, row);
            let is_active = |configuration: RowSet, asked: usize| {
                configuration.contains(asked) && (asked <= row || !exits.contains(asked))
            };
            self.run(chart, chart.tables.row(row).exit(), is_active);
        }
        self.configuration = self.configuration - exits;
    }

    /// Enters the rows and what they bring along. What a row brings is below it and so behind it:
    /// one walk in document order finds all.
    fn enter(
        &mut self,
        chart: Beside,
        mut rows: RowSet,
        mut fallen: RowSet,
        stored: impl Fn(usize) -> RowSet,
    ) {
        let kinds = chart.kinds();
        let mut next = rows.first_from(0);
        while let Some(number) = next {
            let row = chart.tables.row(number);
            self.configuration.insert(number);
            self.push(ENTERED, number);
            self.run(chart, row.entry(), RowSet::contains);
            if !kinds.atomic.contains(number) {
                let children = chart.children(number);
                if kinds.parallel.contains(number) {
                    rows |= children;
                } else if !rows.meets(children) {
                    let mut targets = chart.defaults(number);
                    if targets.meets(kinds.histories) {
                        let (effective, by_default) = chart.resolved(targets, &stored);
                        targets = effective;
                        fallen |= by_default;
                    }
                    rows |= chart.with_ancestors_below(number, targets);
                    self.run(chart, row.block(), RowSet::contains);
                }
                for history in fallen.rows().filter(|&history| chart.parent(history) == number) {
                    self.run(chart, chart.tables.row(history).block(), RowSet::contains);
                }
            } else if kinds.finals.contains(number) {
                self.reach_final(chart, row.parent() as usize);
            }
            next = rows.first_from(number + 1);
        }
    }

    /// A final is entered, under this parent.
    fn reach_final(&mut self, chart: Beside, parent: usize) {
        if parent == ROOT {
            self.closing = true;
            return;
        }
        self.queue(DONE, parent);
        let above = chart.parent(parent);
        if chart.kinds().parallel.contains(above) && is_in_final_state(&chart, self.configuration, above) {
            self.queue(DONE, above);
        }
    }
}

/// A compound state is, if a final child of it is active; a parallel, if all its children are.
fn is_in_final_state(chart: &Chart, configuration: RowSet, row: usize) -> bool {
    let children = chart.children(row);
    if chart.kinds().parallel.contains(row) {
        return children.rows().all(|child| is_in_final_state(chart, configuration, child));
    }
    chart.kinds().compound.contains(row) && children.meets(configuration & chart.kinds().finals)
}
