//! Which transitions a round takes.

use super::chart::Chart;
use super::limits::{MOST_ROWS, MOST_TRANSITIONS};
use super::names::Event;
use super::row_set::RowSet;
use super::session::Session;
use super::tables::{Transition, NONE, ROOT};

/// A transition that is taken. Without targets it has no domain and exits nothing.
#[derive(Clone, Copy)]
pub struct Taken {
    pub transition: u16,
    pub domain: Option<u8>,
}

impl Taken {
    /// "the domain's active proper descendants".
    #[inline]
    fn exits(self, chart: &Chart, configuration: RowSet) -> RowSet {
        match self.domain {
            Some(domain) => chart.descendants(domain as usize) & configuration,
            None => RowSet::EMPTY,
        }
    }
}

/// Where a transition leads. Unless there is a history among its targets that is the same in every
/// round, so that it need not be worked out again.
#[derive(Clone, Copy)]
enum Route {
    Fixed { domain: Option<u8>, enters: RowSet },
    ByHistory,
}

impl Route {
    fn enters(self) -> Option<RowSet> {
        match self {
            Route::Fixed { enters, .. } => Some(enters),
            Route::ByHistory => None,
        }
    }

    #[inline(never)]
    fn of(chart: &Chart, number: usize) -> Route {
        let transition = chart.tables.transition(number);
        let targets: RowSet = chart.tables.listed(transition.targets()).collect();
        if targets.meets(chart.kinds().histories) {
            return Route::ByHistory;
        }
        if targets.is_empty() {
            return Route::Fixed { domain: None, enters: RowSet::EMPTY };
        }
        let domain = domain(chart, transition, targets);
        Route::Fixed { domain: Some(domain as u8), enters: chart.with_ancestors_below(domain, targets) }
    }
}

/// The routes that were worked out last, each in a place of its transition's number. Few, since a call
/// for one event has to clear them all for a round or two.
struct Routes {
    /// One more than the number of the transition, 0 for none.
    known: [u16; ROUTES],
    routes: [Route; ROUTES],
}

const ROUTES: usize = 64;

impl Routes {
    fn none() -> Routes {
        Routes { known: [0; ROUTES], routes: [Route::ByHistory; ROUTES] }
    }

    #[inline]
    fn get(&self, number: usize) -> Option<&Route> {
        let place = number % ROUTES;
        (self.known[place] as usize == number + 1).then_some(&self.routes[place])
    }

    #[inline]
    fn known(&mut self, chart: &Chart, number: usize) -> &Route {
        let place = number % ROUTES;
        if self.known[place] as usize != number + 1 {
            self.routes[place] = Route::of(chart, number);
            self.known[place] = number as u16 + 1;
        }
        &self.routes[place]
    }
}

/// Where a round comes from.
#[derive(Clone, Copy, PartialEq, Eq)]
pub enum Trigger {
    Eventless,
    Internal,
    External,
    Closing,
}

/// The transitions that one round takes, in the order of their selection. Each has another atomic
/// state to thank for, so that there are never more than rows.
pub struct Selection {
    taken: [Taken; MOST_ROWS],
    count: usize,
    /// All that they exit.
    pub exits: RowSet,
    /// The first match of each row that has one in this round; those of other rows are of earlier ones.
    first_match: [u16; MOST_ROWS],
    /// The first state that chose each transition that is chosen in this round.
    choosers: [u8; MOST_TRANSITIONS],
    routes: Routes,
}

impl Selection {
    pub fn none() -> Selection {
        Selection {
            taken: [Taken { transition: 0, domain: None }; MOST_ROWS],
            count: 0,
            exits: RowSet::EMPTY,
            first_match: [0; MOST_ROWS],
            choosers: [0; MOST_TRANSITIONS],
            routes: Routes::none(),
        }
    }

    /// The first active atomic state that chose a transition that is taken.
    #[inline]
    pub fn chooser(&self, transition: usize) -> usize {
        self.choosers[transition].into()
    }

    #[inline]
    pub fn taken(&self) -> &[Taken] {
        &self.taken[..self.count]
    }

    /// What a transition enters that is taken, unless that is a matter of histories.
    #[inline]
    pub fn enters(&self, chart: &Chart, taken: Taken) -> Option<RowSet> {
        let number = taken.transition as usize;
        match self.routes.get(number) {
            Some(Route::Fixed { enters, .. }) => Some(*enters),
            Some(Route::ByHistory) => None,
            None => Route::of(chart, number).enters(),
        }
    }

    fn clear(&mut self) {
        self.count = 0;
        self.exits = RowSet::EMPTY;
    }

    /// The next round of a running session: eventless transitions first, then the oldest internal
    /// event, then the oldest external one. Nothing, if the session is idle.
    pub fn choose(&mut self, chart: &Chart, session: &Session) -> Option<Trigger> {
        let index = chart.index;
        if session.configuration().meets(index.eventless) {
            self.select(chart, session, index.eventless, |transition| transition.descriptors().count == 0);
            if self.count > 0 {
                return Some(Trigger::Eventless);
            }
        }
        let (trigger, name) = match (session.first_internal(), session.first_external()) {
            (Some(name), _) => (Trigger::Internal, name),
            (None, Some(name)) => (Trigger::External, name),
            (None, None) => return None,
        };
        let event = Event::of(name);
        self.select(chart, session, index.by_event, |transition| chart.is_triggered(transition, &event));
        Some(trigger)
    }

    /// What is selected among the transitions of these sources. Whether a row has a match does not
    /// depend on where a climb begins, so each active one is asked once; the first match of a
    /// climb is the one of the last such row in document order.
    fn select(
        &mut self,
        chart: &Chart,
        session: &Session,
        sources: RowSet,
        is_triggered: impl Fn(Transition) -> bool,
    ) {
        self.clear();
        let configuration = session.configuration();
        let mut matching = RowSet::EMPTY;
        for row in (configuration & sources).rows() {
            let is_match = |&number: &usize| {
                let transition = chart.tables.transition(number);
                let condition = transition.condition();
                is_triggered(transition) && (condition == NONE || configuration.contains(condition as usize))
            };
            if let Some(number) = chart.transitions_of(row).find(is_match) {
                matching.insert(row);
                self.first_match[row] = number as u16;
            }
        }
        let mut chosen = RowSet::EMPTY;
        for atomic in (configuration & chart.kinds().atomic).rows() {
            let climb = chart.ancestors(atomic) | RowSet::single(atomic);
            let Some(row) = (climb & matching).last() else { continue };
            if !chosen.contains(row) {
                chosen.insert(row);
                let number = self.first_match[row].into();
                self.choosers[number] = atomic as u8;
                self.admit(chart, session, number);
            }
        }
    }

    /// A candidate that meets kept ones replaces them if its source is below all of theirs, and is
    /// dropped otherwise.
    #[inline]
    fn admit(&mut self, chart: &Chart, session: &Session, number: usize) {
        let domain = match self.routes.known(chart, number) {
            Route::Fixed { domain, .. } => *domain,
            _ => Some(domain_by_history(chart, session, chart.tables.transition(number)) as u8),
        };
        let candidate = Taken { transition: number as u16, domain };
        let exits = candidate.exits(chart, session.configuration());
        if !exits.meets(self.exits) || self.give_way(chart, session.configuration(), number, exits) {
            self.push(candidate, exits);
        }
    }

    /// Whether all kept transitions that exit some of these rows have sources above that of the
    /// candidate. If so, they leave.
    #[cold]
    fn give_way(&mut self, chart: &Chart, configuration: RowSet, candidate: usize, exits: RowSet) -> bool {
        let source = |number: usize| chart.tables.transition(number).source();
        let above = chart.ancestors(source(candidate));
        let is_met = |kept: Taken| kept.exits(chart, configuration).meets(exits);
        let is_above = |kept: Taken| above.contains(source(kept.transition.into()));
        if self.taken().iter().any(|&kept| is_met(kept) && !is_above(kept)) {
            return false;
        }
        let (before, count) = (self.taken, self.count);
        self.clear();
        for kept in before.into_iter().take(count).filter(|&kept| !is_met(kept)) {
            self.push(kept, kept.exits(chart, configuration));
        }
        true
    }

    #[inline]
    fn push(&mut self, taken: Taken, exits: RowSet) {
        self.taken[self.count] = taken;
        self.count += 1;
        self.exits |= exits;
    }
}

/// "Domain and exit set use the history stored before the round."
fn domain_by_history(chart: &Chart, session: &Session, transition: Transition) -> usize {
    let targets = chart.tables.listed(transition.targets()).collect();
    let (effective, _) = chart.resolved(targets, |history| session.stored(history));
    domain(chart, transition, effective)
}

/// The source itself, or its nearest ancestor that is compound or the root and has all targets
/// below it.
fn domain(chart: &Chart, transition: Transition, targets: RowSet) -> usize {
    let fits = |row: usize| chart.kinds().compound.contains(row) && targets.is_within(chart.descendants(row));
    let source = transition.source();
    if transition.is_internal() && fits(source) {
        return source;
    }
    let mut row = chart.parent(source);
    while row != ROOT && !fits(row) {
        row = chart.parent(row);
    }
    row
}
