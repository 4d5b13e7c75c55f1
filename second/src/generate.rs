//! Seeded generators of well-formed charts, of call lists for them, and of well-formed sessions
//! that no start needs to reach.

use crate::builder::empty_row;
use crate::calls::Call;
use crate::compiled::CompiledChart;
use crate::legal::set_to_store;
use crate::limits::*;
use crate::names::{is_name, slot_of};
use crate::numbers::{NameNumber, RowNumber, ROOT};
use crate::random::Random;
use crate::row_set::RowSet;
use crate::rules::can_hold_together;
use crate::session::{Queue, Session, CLOSING, RUNNING};
use crate::tables::{Action, Chart, Kind, Transition, TransitionType};
use crate::tree::Tree;

mod journals;
mod regions;
mod timers;

pub use journals::{
    absurd_journal, calls_at_full_journal, flavour_for_journals, recorded_calls, unasked_journal,
};
pub use regions::regions;
pub use timers::{clock, has_sends, later, timed};

/// What a chart shall be like. The percentages say how often.
#[derive(Clone, Debug)]
pub struct Flavour {
    pub rows: usize,
    pub parallels: usize,
    pub histories: usize,
    pub finals: usize,
    pub blocks: usize,
    /// Blocks with many raises, for full queues.
    pub many_raises: bool,
    /// Blocks with many sends, for full tables.
    pub many_sends: bool,
    /// Eventless transitions without a condition, for runs that never idle.
    pub spins: bool,
    pub shape: Shape,
    /// So many transitions more for each source.
    pub more_transitions: usize,
    /// So many slots stand before those of the events, and whether the others are filled up.
    pub names_before: usize,
    pub all_names: bool,
}

/// How many children a row has.
#[derive(Clone, Copy, PartialEq, Eq, Debug)]
pub enum Shape {
    Some,
    /// One or two, so that rows stand far below each other.
    Deep,
    /// Up to forty.
    Wide,
}

/// A chart with more rows than one word of a set has bits is large.
pub const LARGE: usize = 65;
/// Slots that a large chart keeps for its events.
const SLOTS_OF_EVENTS: usize = 80;
/// Of so many charts of any size one is large.
const ONE_LARGE_OF: usize = 25;

impl Flavour {
    pub fn any(random: &mut Random) -> Flavour {
        if random.below(ONE_LARGE_OF) == 0 {
            return Flavour::large(random);
        }
        let rows = match random.below(10) {
            0..=3 => random.between(2, 10),
            4..=6 => random.between(8, 20),
            7 | 8 => random.between(18, 40),
            _ => random.between(36, LARGE - 1),
        };
        Flavour::with_rows(random, rows)
    }

    /// Up to every limit, and often at it.
    pub fn large(random: &mut Random) -> Flavour {
        let most = MAX_ROWS as usize;
        let rows = if random.chance(40) { most } else { random.between(LARGE, most) };
        let more_slots = MAX_SLOTS as usize - most - SLOTS_OF_EVENTS;
        Flavour {
            shape: [Shape::Some, Shape::Deep, Shape::Wide][random.below(3)],
            more_transitions: random.below(4),
            names_before: if random.chance(50) { rows + random.below(more_slots) } else { 0 },
            all_names: random.chance(40),
            ..Flavour::with_rows(random, rows)
        }
    }

    pub fn with_rows(random: &mut Random, rows: usize) -> Flavour {
        Flavour {
            rows,
            parallels: random.between(15, 70),
            histories: random.between(0, 70),
            finals: random.between(5, 50),
            blocks: random.between(0, 50),
            many_raises: random.chance(6),
            many_sends: random.chance(5),
            spins: random.chance(8),
            shape: Shape::Some,
            more_transitions: 0,
            names_before: 0,
            all_names: false,
        }
    }
}

/// How often an initial list names a history where it can, and how often one is sought.
const LISTED_HISTORIES: usize = 50;
const HISTORY_TRIES: usize = 6;

/// How often a block has an if, and how many actions one with many raises has.
const BLOCKS_WITH_IF: usize = 25;
const MANY_RAISES: usize = 8;
/// How often a block may hold sends and cancels, which some of these then do not.
const BLOCKS_WITH_SENDS: usize = 30;

/// The events of a generated chart are few, so that transitions meet them.
const EVENTS: [&str; 9] = ["e", "f", "g", "e.x", "e.x.y", "f.z", "tick", "a-b_c.9", "7.up"];

pub struct Generator {
    random: Random,
    flavour: Flavour,
    chart: Chart,
    events: Vec<&'static str>,
    /// Whether the block that is made may hold sends and cancels.
    sends: bool,
}

/// A well-formed chart of at least two rows and at most the flavour's.
pub fn chart(random: &mut Random, flavour: Flavour) -> Chart {
    let mut events = EVENTS.to_vec();
    random.shuffle(&mut events);
    events.truncate(random.between(2, 5));
    let generator = Generator {
        random: Random::seeded(random.number()),
        flavour,
        chart: Chart { rows: vec![empty_row(Kind::Root, None, None)], ..Chart::default() },
        events,
        sends: false,
    };
    generator.generate()
}

impl Generator {
    fn generate(mut self) -> Chart {
        let budget = self.flavour.rows.max(2) - 1;
        self.grow(ROOT, budget);
        self.fill_slots(self.flavour.names_before);
        let tree = Tree::of(&self.chart);
        self.fill_rows(&tree);
        self.add_transitions(&tree);
        self.add_unused_slots();
        self.chart
    }

    // The tree

    /// Adds children, and children of children, in document order.
    fn grow(&mut self, row: RowNumber, budget: usize) {
        let kind = self.chart.kind(row);
        let histories = self.history_count(kind, budget);
        let budget = budget - histories;
        let count = self.child_count(kind, budget);
        if count == 0 {
            return;
        }
        let shares = self.shares(budget, count);
        let mut places: Vec<Option<usize>> = shares.into_iter().map(Some).collect();
        for _ in 0..histories {
            let place = self.random.between(0, places.len());
            places.insert(place, None);
        }
        let mut first = true;
        for place in places {
            match place {
                None => self.add_history(row),
                Some(share) => self.add_child(row, share, std::mem::take(&mut first)),
            }
        }
    }

    fn history_count(&mut self, kind: Kind, budget: usize) -> usize {
        let wanted = matches!(kind, Kind::State | Kind::Parallel)
            && budget >= 2
            && self.random.chance(self.flavour.histories);
        match wanted {
            true if budget >= 4 && self.random.chance(30) => 2,
            true => 1,
            false => 0,
        }
    }

    fn child_count(&mut self, kind: Kind, budget: usize) -> usize {
        let wanted = match (kind, self.flavour.shape) {
            (Kind::Final | Kind::ShallowHistory | Kind::DeepHistory, _) => 0,
            (_, Shape::Deep) => [1, 1, 1, 1, 2][self.random.below(5)],
            (_, Shape::Wide) => self.random.between(2, 40),
            (Kind::Root | Kind::State, Shape::Some) => self.random.between(1, 4),
            (Kind::Parallel, Shape::Some) => [1, 2, 2, 2, 3, 3, 4][self.random.below(7)],
        };
        wanted.min(budget)
    }

    /// Splits the budget into so many shares of at least one row.
    fn shares(&mut self, budget: usize, count: usize) -> Vec<usize> {
        let mut shares = vec![1; count];
        for _ in count..budget {
            let place = self.random.below(count);
            shares[place] += 1;
        }
        shares
    }

    fn add_row(&mut self, kind: Kind, parent: RowNumber) -> RowNumber {
        let id = self.new_id(parent);
        self.chart.rows.push(empty_row(kind, Some(parent), Some(id)));
        RowNumber(self.chart.rows.len() - 1)
    }

    fn add_history(&mut self, parent: RowNumber) {
        let kind = match self.random.chance(50) {
            true => Kind::ShallowHistory,
            false => Kind::DeepHistory,
        };
        self.add_row(kind, parent);
    }

    fn add_child(&mut self, parent: RowNumber, share: usize, first: bool) {
        let kind = self.child_kind(parent, share, first);
        let child = self.add_row(kind, parent);
        if share > 1 {
            self.grow(child, share - 1);
        }
    }

    fn child_kind(&mut self, parent: RowNumber, share: usize, first: bool) -> Kind {
        let under_parallel = self.chart.kind(parent) == Kind::Parallel;
        let parallels = self.flavour.parallels / if under_parallel { 3 } else { 1 };
        if share >= 3 && self.random.chance(parallels) {
            return Kind::Parallel;
        }
        let finals = self.finals_under(parent, first);
        match !under_parallel && share == 1 && self.random.chance(finals) {
            true => Kind::Final,
            false => Kind::State,
        }
    }

    /// Regions of parallels have more finals, so that parallels are done at times.
    fn finals_under(&self, parent: RowNumber, first: bool) -> usize {
        let above = self.chart.row(parent).parent;
        let is_region = above.is_some_and(|row| self.chart.kind(row) == Kind::Parallel);
        match (first, is_region) {
            (true, _) => self.flavour.finals / 5,
            (false, true) => self.flavour.finals + 35,
            (false, false) => self.flavour.finals,
        }
    }

    // Names

    fn new_id(&mut self, parent: RowNumber) -> NameNumber {
        let number = self.chart.rows.len();
        let parent_id = String::from_utf8_lossy(self.chart.id(parent)).into_owned();
        let dotted = format!("{parent_id}.c{number}");
        let text = match self.random.below(20) {
            0..=2 if !parent_id.is_empty() && dotted.len() <= MAX_ID_BYTES => dotted,
            3 => format!("_{number}-{}", "x".repeat(49))[..MAX_ID_BYTES].to_string(),
            4 => format!("_{number}"),
            5 => format!("Z-{number}_"),
            _ => format!("s{number}"),
        };
        self.chart.names.push(slot_of(text.as_bytes()));
        NameNumber(self.chart.names.len() - 1)
    }

    /// A slot that holds the text: mostly the first such one, sometimes a second.
    fn name(&mut self, text: &str) -> NameNumber {
        let slot = slot_of(text.as_bytes());
        let found = self.chart.names.iter().position(|other| *other == slot);
        let room = self.chart.names.len() < MAX_SLOTS as usize;
        match found {
            Some(place) if !room || !self.random.chance(4) => NameNumber(place),
            None if !room => self.any_name(),
            _ => {
                self.chart.names.push(slot);
                NameNumber(self.chart.names.len() - 1)
            }
        }
    }

    /// Any name that is in the table already.
    fn any_name(&mut self) -> NameNumber {
        let names: Vec<NameNumber> = (0..self.chart.names.len())
            .map(NameNumber)
            .filter(|&name| is_name(self.chart.name(name)))
            .collect();
        self.random.pick(&names).expect("every row has an id")
    }

    fn event(&mut self) -> NameNumber {
        let text = self.random.pick(&self.events).expect("there are events");
        self.name(text)
    }

    fn add_unused_slots(&mut self) {
        if self.flavour.all_names {
            self.fill_slots(MAX_SLOTS as usize);
        }
        while self.chart.names.len() < MAX_SLOTS as usize && self.random.chance(30) {
            self.add_unused_slot();
        }
    }

    /// Unused slots, until there are so many.
    fn fill_slots(&mut self, count: usize) {
        while self.chart.names.len() < count {
            self.add_unused_slot();
        }
    }

    fn add_unused_slot(&mut self) {
        const UNUSED: [&str; 6] = ["*", "unused", "un.used.*", "9", "-", "_._"];
        let text = self.random.pick(&UNUSED).expect("there are some");
        self.chart.names.push(slot_of(text.as_bytes()));
    }

    // Lists and blocks of rows

    fn fill_rows(&mut self, tree: &Tree) {
        for row in self.chart.row_numbers() {
            let (list, listed) = self.list_for(tree, row);
            let may_act = row != ROOT && !tree.is_history(row);
            self.chart.rows[row.0].list = list;
            self.chart.rows[row.0].entry = self.block_if(may_act, row);
            self.chart.rows[row.0].exit = self.block_if(may_act, row);
            self.chart.rows[row.0].block = self.block_if(listed && row != ROOT, row);
        }
    }

    /// The list of a row, and whether the row may have a block for it.
    fn list_for(&mut self, tree: &Tree, row: RowNumber) -> (Vec<RowNumber>, bool) {
        let parent = tree.parent(row).unwrap_or(ROOT);
        match tree.kind(row) {
            Kind::ShallowHistory if tree.is_parallel(parent) => (self.some_of(tree.children(parent)), true),
            Kind::ShallowHistory => {
                let children: Vec<RowNumber> = tree.children(parent).rows().collect();
                (self.random.pick(&children).into_iter().collect(), true)
            }
            Kind::DeepHistory => (self.states_below(tree, parent), true),
            _ if tree.is_compound_or_root(row) => self.initial_list(tree, row),
            _ => (Vec::new(), false),
        }
    }

    /// An initial list or none. Where a history can be named it mostly is, so that a third of all initial
    /// lists name one.
    fn initial_list(&mut self, tree: &Tree, owner: RowNumber) -> (Vec<RowNumber>, bool) {
        let mut owners = tree.descendants(owner);
        owners.insert(owner);
        let has_history = owners.rows().any(|row| !tree.histories(row).is_empty());
        if has_history && self.random.chance(LISTED_HISTORIES) {
            return (self.list_with_history(tree, owner), true);
        }
        match self.random.chance(if has_history { 20 } else { 45 }) {
            true => (self.states_below(tree, owner), true),
            false => (Vec::new(), false),
        }
    }

    /// The owner's own history, or one of a row below it, alone or beside rows of other regions.
    fn list_with_history(&mut self, tree: &Tree, owner: RowNumber) -> Vec<RowNumber> {
        let own = tree.histories(owner);
        if !own.is_empty() && self.random.chance(35) {
            return self.random.pick(own).into_iter().collect();
        }
        let mut list = Vec::new();
        for _ in 0..HISTORY_TRIES {
            list.clear();
            self.pick_below(tree, owner, true, &mut list);
            if list.iter().any(|&row| tree.is_history(row)) {
                break;
            }
        }
        self.random.shuffle(&mut list);
        list
    }

    fn some_of(&mut self, rows: RowSet) -> Vec<RowNumber> {
        let mut all: Vec<RowNumber> = rows.rows().collect();
        self.random.shuffle(&mut all);
        let count = self.random.between(1, all.len());
        all.truncate(count);
        all
    }

    fn states_below(&mut self, tree: &Tree, owner: RowNumber) -> Vec<RowNumber> {
        let mut list = Vec::new();
        self.pick_below(tree, owner, false, &mut list);
        self.random.shuffle(&mut list);
        list
    }

    /// Adds one row below the owner, or several in regions of one parallel.
    fn pick_below(&mut self, tree: &Tree, owner: RowNumber, histories: bool, list: &mut Vec<RowNumber>) {
        let mut scope = tree.descendants(owner);
        scope.insert(owner);
        let parallels: Vec<RowNumber> =
            scope.rows().filter(|&row| tree.is_parallel(row) && tree.children(row).len() >= 2).collect();
        match self.random.pick(&parallels) {
            Some(parallel) if self.random.chance(50) => self.pick_in_regions(tree, parallel, histories, list),
            _ => self.pick_one(tree, owner, &tree.descendants(owner), histories, list),
        }
    }

    fn pick_in_regions(
        &mut self,
        tree: &Tree,
        parallel: RowNumber,
        histories: bool,
        list: &mut Vec<RowNumber>,
    ) {
        for region in self.some_of(tree.children(parallel)) {
            if list.len() >= MAX_TARGETS_OF_TRANSITION as usize {
                return;
            }
            let mut scope = tree.descendants(region);
            if !scope.is_empty() && list.len() < 4 && self.random.chance(40) {
                self.pick_below(tree, region, histories, list);
            } else {
                scope.insert(region);
                self.pick_one(tree, region, &scope, histories, list);
            }
        }
    }

    /// Adds one row of the scope, or a history of the owner or of a row of the scope.
    fn pick_one(
        &mut self,
        tree: &Tree,
        owner: RowNumber,
        scope: &RowSet,
        histories: bool,
        list: &mut Vec<RowNumber>,
    ) {
        let owners = scope.union(&RowSet::single(owner));
        let found: Vec<RowNumber> = owners.rows().flat_map(|row| tree.histories(row).to_vec()).collect();
        let rows: Vec<RowNumber> = scope.rows().collect();
        let picked = match histories && self.random.chance(50) {
            true => self.random.pick(&found).or_else(|| self.random.pick(&rows)),
            false => self.random.pick(&rows),
        };
        list.extend(picked);
    }

    /// A block of this row, or of a transition from it.
    fn block_if(&mut self, allowed: bool, row: RowNumber) -> Vec<Action> {
        if !allowed || !self.random.chance(self.flavour.blocks) {
            return Vec::new();
        }
        self.sends = self.flavour.many_sends || self.random.chance(BLOCKS_WITH_SENDS);
        if self.random.chance(BLOCKS_WITH_IF) {
            return self.block_with_if(row);
        }
        let count = match self.flavour.many_raises || self.flavour.many_sends {
            true => self.random.between(3, MANY_RAISES),
            false => self.random.between(1, 2),
        };
        (0..count).map(|_| self.action()).collect()
    }

    /// Mostly short, at times as long as may be.
    fn block_with_if(&mut self, row: RowNumber) -> Vec<Action> {
        let most = match self.random.below(12) {
            0 => MAX_ACTIONS_OF_BLOCK as usize,
            1..=3 => self.random.between(10, 20),
            _ => self.random.between(3, 9),
        };
        let mut block = Vec::new();
        if self.random.chance(30) {
            block.push(self.action());
        }
        self.add_if(row, 1, most, &mut block);
        self.add_statements(row, 0, most, &mut block);
        block
    }

    /// Some statements more, while there are fewer actions than this; so many ifs are open.
    fn add_statements(&mut self, row: RowNumber, open: usize, most: usize, block: &mut Vec<Action>) {
        while block.len() < most && self.random.chance(65) {
            let room = block.len() + 2 <= most && open < MAX_OPEN_IFS;
            if room && self.random.chance(40) {
                self.add_if(row, open + 1, most, block);
            } else {
                block.push(self.action());
            }
        }
    }

    /// An if with its end, with which so many are open; there is room for both.
    fn add_if(&mut self, row: RowNumber, open: usize, most: usize, block: &mut Vec<Action>) {
        let before_end = most - 1;
        block.push(Action::If(self.asked_row(row)));
        self.add_statements(row, open, before_end, block);
        while block.len() < before_end && self.random.chance(35) {
            block.push(Action::ElseIf(self.asked_row(row)));
            self.add_statements(row, open, before_end, block);
        }
        if block.len() < before_end && self.random.chance(50) {
            block.push(Action::Else);
            self.add_statements(row, open, before_end, block);
        }
        block.push(Action::End);
    }

    /// A row to ask In of: often the row itself or one next to it, which come and go together.
    fn asked_row(&mut self, row: RowNumber) -> RowNumber {
        let chart = &self.chart;
        let is_real =
            |&other: &RowNumber| matches!(chart.kind(other), Kind::State | Kind::Parallel | Kind::Final);
        let parent = chart.row(row).parent;
        let is_near = |&other: &RowNumber| {
            let above = chart.row(other).parent;
            other == row || Some(other) == parent || above == parent || above == Some(row)
        };
        let real: Vec<RowNumber> = chart.row_numbers().filter(is_real).collect();
        let near: Vec<RowNumber> = real.iter().copied().filter(is_near).collect();
        let asked = if self.random.chance(60) { self.random.pick(&near) } else { None };
        asked.or_else(|| self.random.pick(&real)).expect("the root has a child")
    }

    fn action(&mut self) -> Action {
        if let Some(timing) = self.timing() {
            return timing;
        }
        let raises = if self.flavour.many_raises { 80 } else { 35 };
        if self.random.chance(raises) {
            return Action::Raise(self.event());
        }
        match self.random.below(30) {
            0 => Action::Host(0),
            1 => Action::Host(65_535),
            _ => Action::Host(self.random.below(65_536) as u16),
        }
    }

    // Transitions

    fn add_transitions(&mut self, tree: &Tree) {
        for source in self.chart.row_numbers() {
            if !matches!(tree.kind(source), Kind::State | Kind::Parallel) {
                continue;
            }
            let count = [0, 0, 1, 1, 1, 1, 2, 2, 3, 5][self.random.below(10)];
            for _ in 0..count + self.flavour.more_transitions {
                if self.chart.transitions.len() < MAX_TRANSITIONS as usize {
                    let transition = self.transition(tree, source);
                    self.chart.transitions.push(transition);
                }
            }
        }
    }

    fn transition(&mut self, tree: &Tree, source: RowNumber) -> Transition {
        let eventless = self.random.chance(9);
        let free = eventless && self.flavour.spins && self.random.chance(40);
        let descriptors = if eventless { Vec::new() } else { self.descriptors(tree, source) };
        let conditioned = if eventless { !free } else { self.random.chance(15) };
        let no_targets = self.random.chance(if eventless { 3 } else { 10 });
        let targets = if no_targets && !eventless { Vec::new() } else { self.targets(tree, source) };
        let descriptors = match eventless && targets.is_empty() {
            true => self.descriptors(tree, source),
            false => descriptors,
        };
        let conditioned = conditioned || (descriptors.is_empty() && targets.contains(&source));
        Transition {
            source,
            descriptors,
            condition: if conditioned { self.condition(tree) } else { None },
            kind: match self.random.chance(35) {
                true => TransitionType::Internal,
                false => TransitionType::External,
            },
            targets,
            block: self.block_if(true, source),
        }
    }

    fn descriptors(&mut self, tree: &Tree, source: RowNumber) -> Vec<NameNumber> {
        let count = [1, 1, 1, 1, 1, 1, 2, 2, 3, 4][self.random.below(10)];
        (0..count).map(|_| self.descriptor(tree, source)).collect()
    }

    fn descriptor(&mut self, tree: &Tree, source: RowNumber) -> NameNumber {
        match self.random.below(20) {
            0 => self.name("*"),
            1 => self.name("e.*"),
            2 => self.name("done.state"),
            3 => self.name("done.*"),
            4..=6 => {
                let mut owners: Vec<RowNumber> =
                    tree.descendants(source).rows().filter(|&row| !tree.is_atomic(row)).collect();
                owners.push(source);
                let owner = self.random.pick(&owners).unwrap_or(source);
                let text = format!("done.state.{}", String::from_utf8_lossy(self.chart.id(owner)));
                self.name(&text)
            }
            _ => self.event(),
        }
    }

    fn condition(&mut self, tree: &Tree) -> Option<RowNumber> {
        let rows: Vec<RowNumber> = self.chart.row_numbers().filter(|&row| tree.is_real_state(row)).collect();
        self.random.pick(&rows)
    }

    fn targets(&mut self, tree: &Tree, source: RowNumber) -> Vec<RowNumber> {
        let mut list = Vec::new();
        match self.random.below(10) {
            0..=3 => {
                let parent = tree.parent(source).unwrap_or(ROOT);
                let mut siblings: Vec<RowNumber> = tree.children(parent).rows().collect();
                let finals = siblings.iter().any(|&row| tree.kind(row) == Kind::Final);
                if finals && self.random.chance(40) {
                    siblings.retain(|&row| tree.kind(row) == Kind::Final);
                }
                list.extend(self.random.pick(&siblings));
            }
            4 | 5 => {
                let above = tree.ancestors_upwards(source);
                let owner = self.random.pick(&above).unwrap_or(ROOT);
                self.pick_below(tree, owner, true, &mut list);
            }
            6 if !tree.descendants(source).is_empty() => self.pick_below(tree, source, true, &mut list),
            _ => self.pick_below(tree, ROOT, true, &mut list),
        }
        self.random.shuffle(&mut list);
        debug_assert!(can_hold_together(tree, &list));
        list
    }
}

// Calls

/// Names that are no event names: refusal 6.
pub fn bad_names() -> Vec<Vec<u8>> {
    let mut names: Vec<Vec<u8>> = ["", "*", "a.", "a..b", ".a", ".", "a.*", "a b", "a*"]
        .iter()
        .map(|text| text.as_bytes().to_vec())
        .collect();
    names.extend([vec![0], b"a\0".to_vec(), vec![0x80], b"a\x80".to_vec(), vec![0xff]]);
    names.extend([vec![b'a'; 64], vec![b'a'; 65], vec![b'a'; 300]]);
    names
}

/// Names that the chart's transitions may match.
pub fn known_events(chart: &Chart) -> Vec<Vec<u8>> {
    let mut events = vec![b"e".to_vec(), b"nobody.knows".to_vec()];
    for transition in &chart.transitions {
        for &descriptor in &transition.descriptors {
            let text = chart.name(descriptor);
            let name = text.strip_suffix(b".*").unwrap_or(text);
            if is_name(name) && !name.starts_with(DONE_PREFIX) {
                events.push(name.to_vec());
            }
        }
    }
    events
}

pub struct CallMaker<'a> {
    random: &'a mut Random,
    events: Vec<Vec<u8>>,
    /// A large chart is given so many times the room.
    rooms: usize,
    /// Whether the chart has sends, and the last clock.
    sends: bool,
    ticks: u64,
    calls: Vec<Call>,
}

impl<'a> CallMaker<'a> {
    pub fn new(random: &'a mut Random, chart: &Chart) -> CallMaker<'a> {
        let rooms = chart.rows.len().div_ceil(LARGE);
        let (events, sends) = (known_events(chart), has_sends(chart));
        CallMaker { random, events, rooms, sends, ticks: 0, calls: Vec::new() }
    }

    /// A list of calls that mostly starts, posts and runs; where the chart has sends, clock calls as well.
    pub fn calls(mut self, steps: usize) -> Vec<Call> {
        if self.random.chance(10) {
            self.step();
        }
        self.start();
        for _ in 0..steps {
            self.step();
        }
        self.calls
    }

    fn room(&mut self) -> usize {
        match self.random.below(20) {
            0 => 0,
            1..=3 => self.random.between(1, 20),
            _ => self.random.between(150, 400) * self.rooms,
        }
    }

    fn start(&mut self) {
        let room = match self.random.chance(6) {
            true => self.random.between(0, 6),
            false => 300 * self.rooms,
        };
        self.ticks = 0;
        self.calls.push(Call::Start { room });
    }

    fn event(&mut self) -> Vec<u8> {
        let place = self.random.below(self.events.len());
        let mut name = self.events[place].clone();
        if self.random.chance(10) && name.len() + 2 <= MAX_NAME_BYTES {
            name.extend(b".q");
        }
        name
    }

    fn post(&mut self) {
        let name = match self.random.chance(4) {
            true => {
                let bad = bad_names();
                bad[self.random.below(bad.len())].clone()
            }
            false => self.event(),
        };
        self.calls.push(Call::Post { name });
    }

    fn run(&mut self) {
        let rounds = match self.random.below(20) {
            0 => 0,
            1..=6 => self.random.between(1, 3) as u32,
            7 => u32::MAX,
            _ => self.random.between(4, 16) as u32,
        };
        let room = self.room();
        self.calls.push(Call::Run { rounds, room });
    }

    fn step(&mut self) {
        match self.random.below(60) {
            0 | 1 => self.start(),
            2 => (0..QUEUE_NAMES + 1).for_each(|_| self.post()),
            3..=6 => self.post(),
            7..=10 => self.run(),
            11 => self.clock(),
            12 => self.clock_beside_full_queue(),
            _ => {
                for _ in 0..self.random.between(1, 4) {
                    self.post();
                }
                self.run();
                while self.sends && self.random.chance(60) {
                    self.clock();
                    self.run();
                }
            }
        }
    }
}

// Sessions

/// A legal configuration of what is below a row, the row itself left out.
pub fn legal_below(random: &mut Random, tree: &Tree, row: RowNumber) -> RowSet {
    let children: Vec<RowNumber> = tree.children(row).rows().collect();
    let active: Vec<RowNumber> = match tree.is_parallel(row) {
        true => children,
        false => random.pick(&children).into_iter().collect(),
    };
    let mut below = RowSet::of(&active);
    for child in active {
        below = below.union(&legal_below(random, tree, child));
    }
    below
}

/// A set that a history's parent would store from some legal configuration.
pub fn storable(random: &mut Random, tree: &Tree, history: RowNumber) -> RowSet {
    let parent = tree.parent(history).unwrap_or(ROOT);
    set_to_store(tree, &legal_below(random, tree, parent), history)
}

/// A well-formed session that is not ended, reachable or not.
pub fn session(random: &mut Random, compiled: &CompiledChart) -> Session {
    let tree = &compiled.tree;
    let configuration = legal_below(random, tree, ROOT);
    let closing = configuration.rows().any(|row| tree.is_final_under_root(row));
    let mut session = Session {
        configuration,
        mode: if closing { CLOSING } else { RUNNING },
        internal: queue(random, &compiled.chart),
        external: queue(random, &compiled.chart),
        ..Session::ended()
    };
    for row in compiled.chart.row_numbers() {
        if tree.is_history(row) && random.chance(60) {
            session.stored[row.0] = storable(random, tree, row);
        }
    }
    session
}

fn queue(random: &mut Random, chart: &Chart) -> Queue {
    let events = known_events(chart);
    let count = match random.below(10) {
        0..=2 => 0,
        3..=8 => random.between(1, 4),
        _ => random.between(28, QUEUE_NAMES),
    };
    let names: Vec<Vec<u8>> = (0..count).map(|_| events[random.below(events.len())].clone()).collect();
    Queue::of(&names).expect("no more than fit")
}
