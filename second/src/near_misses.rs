//! Charts that are well formed but for one thing, each kind with the number it must get.

use crate::builder::{empty_row, Builder, Do};
use crate::encode::{encode, Layout, Spelt};
use crate::limits::*;
use crate::names::{slot_of, EMPTY_SLOT};
use crate::numbers::{NameNumber, RowNumber, ROOT};
use crate::random::Random;
use crate::rules::Place;
use crate::tables::{Action, Chart, Counts, Kind, Table, Transition, TransitionType};
use crate::tree::Tree;

/// Tables and places, one of them spoilt.
#[derive(Clone, PartialEq, Eq, Debug)]
pub struct Lent {
    pub spelt: Spelt,
    pub place: Place,
}

impl Lent {
    /// The chart with places of the right sizes, also where the counts are past their limits.
    pub fn of(chart: &Chart, layout: Layout) -> Lent {
        let spelt = encode(chart, layout);
        let mut lent = Lent { spelt, place: Place { numbers: 0, names: 0 } };
        lent.fit_place();
        lent
    }

    fn fit_place(&mut self) {
        let numbers = &self.spelt.numbers;
        let sets = COMPILED_SETS_OF_ROW as u64 * numbers[0] + COMPILED_SETS_OF_TRANSITION as u64 * numbers[1];
        self.place =
            Place { numbers: numbers.len() + ROW_SET_WORDS * sets as usize, names: self.spelt.names.len() };
    }

    fn counts(&self) -> Counts {
        Counts::read(&self.spelt.numbers).expect("a well-formed chart before it is spoilt")
    }

    fn lines(&self, table: Table) -> usize {
        let counts = self.counts();
        match table {
            Table::Rows => counts.rows,
            Table::Transitions => counts.transitions,
            Table::References => counts.references,
            Table::Descriptors => counts.descriptors,
            Table::Actions => counts.actions,
        }
    }

    fn set(&mut self, table: Table, line: usize, column: usize, value: u64) {
        let cell = self.counts().cell(table, line, column);
        self.spelt.numbers[cell] = value;
    }

    /// Sets a column in some line, if the table has a line.
    fn set_in_some(&mut self, random: &mut Random, table: Table, column: usize, value: u64) -> Option<()> {
        let lines = self.lines(table);
        if lines == 0 {
            return None;
        }
        self.set(table, random.below(lines), column, value);
        Some(())
    }

    /// Adds unused lines behind a table, so that it has so many.
    pub fn lengthen(&mut self, table: Table, lines: u64, line: &[u64]) -> Option<()> {
        let old = self.lines(table);
        let missing = (lines as usize).checked_sub(old)?;
        let end = self.counts().cell(table, old, 0);
        let unused = line.repeat(missing);
        self.spelt.numbers.splice(end..end, unused);
        let header = match table {
            Table::Rows => 0,
            Table::Transitions => 1,
            Table::References => 2,
            Table::Descriptors => 3,
            Table::Actions => 4,
        };
        self.spelt.numbers[header] = lines;
        self.fit_place();
        Some(())
    }
}

/// How a chart is spoilt: in its tables, or before it is spelt. Nothing, if it has no fitting
/// place.
#[derive(Clone, Copy)]
pub enum Spoil {
    Tables(fn(&mut Lent, &mut Random) -> Option<()>),
    Chart(fn(&mut Chart, &Tree, &mut Random) -> Option<()>),
}

#[derive(Clone, Copy)]
pub struct NearMiss {
    pub name: &'static str,
    pub rule: u64,
    pub spoil: Spoil,
}

impl NearMiss {
    /// The spoilt tables of a well-formed chart.
    pub fn of(&self, chart: &Chart, random: &mut Random, plain: bool) -> Option<Lent> {
        let layout = match plain {
            true => Layout::Plain,
            false => Layout::Mixed(Random::seeded(random.number())),
        };
        match self.spoil {
            Spoil::Tables(spoil) => {
                let mut lent = Lent::of(chart, layout);
                spoil(&mut lent, random)?;
                Some(lent)
            }
            Spoil::Chart(spoil) => {
                let mut chart = chart.clone();
                let tree = Tree::of(&chart);
                spoil(&mut chart, &tree, random)?;
                Some(Lent::of(&chart, layout))
            }
        }
    }
}

/// A small chart in which every kind of near miss finds a place.
pub fn sample() -> Chart {
    let mut b = Builder::new();
    b.parallel("", "p").state("p", "a").state("a", "a1").state("a", "a2").final_("a", "af");
    b.shallow("a", "ha");
    b.state("p", "b").parallel("b", "q").state("q", "q1").state("q1", "q1a").state("q", "q2");
    b.deep("b", "hb").deep("b", "hc");
    b.shallow("p", "hp");
    b.state("", "s").state("", "c").state("c", "c1").final_("c", "cf").final_("", "f");
    b.list("a", "a2", &[Do::Host(1)]).list("ha", "a1", &[Do::Raise("e")]);
    b.list("hb", "q1a q2", &[]).list("hc", "q", &[]).list("hp", "a b", &[]);
    b.on_entry("s", &[Do::Raise("e"), Do::Host(65_535)]).on_exit("c1", &[Do::Host(0)]);
    b.on("p", "done.state.p", "c").on("a1", "e f.*", "a2").doing(&[Do::Raise("f")]);
    b.on("a2", "e", "af").on("s", "g", "ha hb").on("s", "*", "p").when_in("s");
    b.on_internally("c", "", "cf").when_in("c1").on("c1", "e", "f");
    b.chart()
}

/// Smaller charts, smallest first, for whoever wants a near miss as small as may be.
pub fn small_samples() -> Vec<Chart> {
    let mut one = Builder::new();
    one.state("", "s").on("s", "e *", "s").doing(&[Do::Raise("e"), Do::Host(1)]);
    let mut two = Builder::new();
    two.state("", "s").final_("", "f").on("s", "e", "f");
    let mut nested = Builder::new();
    nested.state("", "s").state("s", "a").state("s", "b").on("s", "e", "b").on("a", "e", "b");
    let mut regions = Builder::new();
    regions.parallel("", "p").state("p", "a").state("p", "b").on("a", "e", "b");
    let mut history = Builder::new();
    history.state("", "s").state("s", "a").state("s", "b").shallow("s", "h").deep("s", "d");
    history.list("h", "a", &[]).list("d", "b", &[]).on("a", "e", "h");
    let mut outside = Builder::new();
    outside.state("", "s").state("s", "a").state("a", "x").shallow("s", "h").state("", "z");
    outside.list("h", "a", &[]).on("x", "e", "h").on("z", "e", "s");
    [one, two, nested, regions, history, outside].iter_mut().map(Builder::chart).collect()
}

const HUGE: u64 = u64::MAX;

fn rows_where(chart: &Chart, tree: &Tree, fits: impl Fn(&Tree, RowNumber) -> bool) -> Vec<RowNumber> {
    chart.row_numbers().filter(|&row| fits(tree, row)).collect()
}

fn push_slot(chart: &mut Chart, text: &[u8]) -> Option<NameNumber> {
    push_raw_slot(chart, slot_of(text))
}

fn push_raw_slot(chart: &mut Chart, slot: [u8; SLOT_BYTES]) -> Option<NameNumber> {
    if chart.names.len() >= MAX_SLOTS as usize {
        return None;
    }
    chart.names.push(slot);
    Some(NameNumber(chart.names.len() - 1))
}

/// Gives some row but the root this id.
fn set_some_id(chart: &mut Chart, random: &mut Random, text: &[u8]) -> Option<()> {
    let id = push_slot(chart, text)?;
    let row = random.between(1, chart.rows.len() - 1);
    chart.rows[row].id = Some(id);
    Some(())
}

fn raise_something(chart: &mut Chart, random: &mut Random, text: &[u8]) -> Option<()> {
    let name = push_slot(chart, text)?;
    let place = chart.transitions.len().checked_sub(1).map(|last| random.between(0, last))?;
    chart.transitions[place].block = vec![Action::Raise(name)];
    Some(())
}

fn append_row(chart: &mut Chart, kind: Kind, parent: Option<RowNumber>) -> Option<RowNumber> {
    if chart.rows.len() >= MAX_ROWS as usize {
        return None;
    }
    let text = format!("added{}", chart.rows.len());
    let id = push_slot(chart, text.as_bytes())?;
    chart.rows.push(empty_row(kind, parent, Some(id)));
    Some(RowNumber(chart.rows.len() - 1))
}

fn some_row(
    chart: &Chart,
    tree: &Tree,
    random: &mut Random,
    fits: impl Fn(&Tree, RowNumber) -> bool,
) -> Option<RowNumber> {
    random.pick(&rows_where(chart, tree, fits))
}

fn has_kind(kind: Kind) -> impl Fn(&Tree, RowNumber) -> bool {
    move |tree, row| tree.kind(row) == kind
}

/// Spoils the targets of some transition; its source stays as it is.
fn set_some_targets(chart: &mut Chart, random: &mut Random, targets: Vec<RowNumber>) -> Option<()> {
    let place = chart.transitions.len().checked_sub(1).map(|last| random.between(0, last))?;
    chart.transitions[place].targets = targets;
    Some(())
}

/// Two rows whose nearest common ancestor is a compound state or the root.
fn pair_under_compound(chart: &Chart, tree: &Tree, random: &mut Random) -> Option<Vec<RowNumber>> {
    let owner = some_row(chart, tree, random, |tree, row| {
        tree.is_compound_or_root(row) && tree.children(row).len() >= 2
    })?;
    let mut children: Vec<RowNumber> = tree.children(owner).rows().collect();
    random.shuffle(&mut children);
    Some(children[..2].to_vec())
}

fn host_block() -> Vec<Action> {
    vec![Action::Host(7)]
}

fn last_source_transition(chart: &Chart) -> Transition {
    Transition {
        source: chart.transitions.last().map_or(ROOT, |last| last.source),
        descriptors: Vec::new(),
        condition: None,
        kind: TransitionType::External,
        targets: Vec::new(),
        block: Vec::new(),
    }
}

/// Adds a transition behind the others, so that sources stay sorted.
fn push_transition(chart: &mut Chart, source: RowNumber, targets: Vec<RowNumber>) -> Option<()> {
    if chart.transitions.len() >= MAX_TRANSITIONS as usize {
        return None;
    }
    chart.transitions.retain(|transition| transition.source <= source);
    chart.transitions.push(Transition { source, targets, ..last_source_transition(chart) });
    Some(())
}

macro_rules! tables {
    ($name:literal, $rule:literal, $spoil:expr) => {
        NearMiss { name: $name, rule: $rule, spoil: Spoil::Tables($spoil) }
    };
}

macro_rules! chart {
    ($name:literal, $rule:literal, $spoil:expr) => {
        NearMiss { name: $name, rule: $rule, spoil: Spoil::Chart($spoil) }
    };
}

mod branches;
mod listed_histories;
mod spinning;
mod timers;

/// Every kind of near miss that is refused.
pub fn all() -> Vec<NearMiss> {
    let mut kinds =
        [sizes(), counts_past_limits(), numbers_out_of_range(), names(), tree(), lists()].concat();
    kinds.extend(transitions());
    kinds.extend(spinning::refused());
    kinds.extend(listed_histories::refused());
    kinds.extend(branches::refused());
    kinds.extend(timers::refused());
    kinds
}

/// Every kind that comes next to a refused one and is accepted.
pub fn accepted() -> Vec<NearMiss> {
    [spinning::accepted(), listed_histories::accepted(), branches::accepted(), timers::accepted()].concat()
}

fn sizes() -> Vec<NearMiss> {
    vec![
        tables!("no numbers", 1, |lent, _| {
            lent.spelt.numbers.clear();
            Some(())
        }),
        tables!("half a header", 1, |lent, _| {
            lent.spelt.numbers.truncate(3);
            Some(())
        }),
        tables!("header alone", 1, |lent, _| {
            lent.spelt.numbers.truncate(6);
            Some(())
        }),
        tables!("numbers one short", 1, |lent, _| {
            lent.spelt.numbers.pop();
            Some(())
        }),
        tables!("numbers one long", 1, |lent, _| {
            lent.spelt.numbers.push(0);
            Some(())
        }),
        tables!("names one short", 1, |lent, _| {
            lent.spelt.names.pop();
            lent.place.names -= 1;
            Some(())
        }),
        tables!("names one long", 1, |lent, _| {
            lent.spelt.names.push(0);
            lent.place.names += 1;
            Some(())
        }),
        tables!("no names", 1, |lent, _| {
            lent.spelt.names.clear();
            Some(())
        }),
        tables!("numbers place one short", 1, |lent, _| {
            lent.place.numbers -= 1;
            Some(())
        }),
        tables!("numbers place one long", 1, |lent, _| {
            lent.place.numbers += 1;
            Some(())
        }),
        tables!("names place one short", 1, |lent, _| {
            lent.place.names -= 1;
            Some(())
        }),
        tables!("names place one long", 1, |lent, _| {
            lent.place.names += 1;
            Some(())
        }),
        tables!("places of no size", 1, |lent, _| {
            lent.place = Place { numbers: 0, names: 0 };
            Some(())
        }),
        tables!("a huge count", 1, |lent, random| {
            lent.spelt.numbers[random.below(6)] = HUGE;
            Some(())
        }),
        tables!("a count that wraps", 1, |lent, random| {
            lent.spelt.numbers[random.below(6)] = 1 << 60;
            Some(())
        }),
        tables!("no rows", 1, |lent, _| {
            let counts = lent.counts();
            lent.spelt
                .numbers
                .drain(counts.cell(Table::Rows, 0, 0)..counts.cell(Table::Rows, counts.rows, 0));
            lent.spelt.numbers[0] = 0;
            lent.fit_place();
            Some(())
        }),
    ]
}

fn counts_past_limits() -> Vec<NearMiss> {
    vec![
        chart!("one row too many", 1, |chart, _, _| {
            while chart.rows.len() < MAX_ROWS as usize + 1 {
                let text = format!("more{}", chart.rows.len());
                let id = push_slot(chart, text.as_bytes())?;
                chart.rows.push(empty_row(Kind::State, Some(ROOT), Some(id)));
            }
            Some(())
        }),
        chart!("one transition too many", 1, |chart, _, _| {
            let last = chart.transitions.last()?.clone();
            chart.transitions.resize(MAX_TRANSITIONS as usize + 1, last);
            Some(())
        }),
        chart!("one slot too many", 1, |chart, _, _| {
            chart.names.resize(MAX_SLOTS as usize + 1, slot_of(b"unused"));
            Some(())
        }),
        tables!("one reference too many", 1, |lent, _| {
            lent.lengthen(Table::References, MAX_REFERENCES + 1, &[0])
        }),
        tables!("one descriptor too many", 1, |lent, _| {
            lent.lengthen(Table::Descriptors, MAX_DESCRIPTORS + 1, &[0])
        }),
        tables!("one action too many", 1, |lent, _| {
            lent.lengthen(Table::Actions, MAX_ACTIONS + 1, &[0; ACTION_CELLS])
        }),
        chart!("thirty-three actions on entry", 1, |chart, _, random| {
            let row = random.between(1, chart.rows.len() - 1);
            chart.rows[row].entry = vec![Action::Host(1); MAX_ACTIONS_OF_BLOCK as usize + 1];
            Some(())
        }),
        chart!("thirty-three actions on exit", 1, |chart, _, random| {
            let row = random.between(1, chart.rows.len() - 1);
            chart.rows[row].exit = vec![Action::Host(1); MAX_ACTIONS_OF_BLOCK as usize + 1];
            Some(())
        }),
        chart!("thirty-three actions of a list", 1, |chart, _, random| {
            let row = random.between(1, chart.rows.len() - 1);
            chart.rows[row].block = vec![Action::Host(1); MAX_ACTIONS_OF_BLOCK as usize + 1];
            Some(())
        }),
        chart!("thirty-three actions of a transition", 1, |chart, _, random| {
            let last = chart.transitions.len().checked_sub(1)?;
            chart.transitions[random.between(0, last)].block =
                vec![Action::Host(1); MAX_ACTIONS_OF_BLOCK as usize + 1];
            Some(())
        }),
        chart!("five descriptors", 1, |chart, _, random| {
            let last = chart.transitions.len().checked_sub(1)?;
            chart.transitions[random.between(0, last)].descriptors = vec![NameNumber(0); 5];
            Some(())
        }),
        chart!("nine targets", 1, |chart, _, random| set_some_targets(chart, random, vec![RowNumber(1); 9])),
    ]
}

fn numbers_out_of_range() -> Vec<NearMiss> {
    vec![
        tables!("kind 6", 1, |lent, random| lent.set_in_some(random, Table::Rows, 0, 6)),
        tables!("parent past the rows", 1, |lent, random| {
            let rows = lent.counts().rows as u64;
            lent.set_in_some(random, Table::Rows, 1, rows)
        }),
        tables!("parent 65,536", 1, |lent, random| lent.set_in_some(random, Table::Rows, 1, 65_536)),
        tables!("id past the slots", 1, |lent, random| {
            let slots = lent.counts().slots as u64;
            lent.set_in_some(random, Table::Rows, 2, slots)
        }),
        tables!("entry block past the actions", 1, |lent, random| {
            let start = lent.counts().actions as u64 + 1;
            lent.set_in_some(random, Table::Rows, 3, start)
        }),
        tables!("exit block past the actions", 1, |lent, random| {
            let start = lent.counts().actions as u64 + 1;
            lent.set_in_some(random, Table::Rows, 5, start)
        }),
        tables!("list past the references", 1, |lent, random| {
            let start = lent.counts().references as u64 + 1;
            lent.set_in_some(random, Table::Rows, 7, start)
        }),
        tables!("list longer than the references", 1, |lent, random| {
            let count = lent.counts().references as u64 + 1;
            lent.set_in_some(random, Table::Rows, 8, count)
        }),
        tables!("list that wraps around", 1, |lent, random| {
            let row = random.below(lent.counts().rows);
            lent.set(Table::Rows, row, 7, HUGE);
            lent.set(Table::Rows, row, 8, 1);
            Some(())
        }),
        tables!("huge list", 1, |lent, random| lent.set_in_some(random, Table::Rows, 8, HUGE)),
        tables!("list block past the actions", 1, |lent, random| {
            let start = lent.counts().actions as u64 + 1;
            lent.set_in_some(random, Table::Rows, 9, start)
        }),
        tables!("source past the rows", 1, |lent, random| {
            let rows = lent.counts().rows as u64;
            lent.set_in_some(random, Table::Transitions, 0, rows)
        }),
        tables!("source none", 1, |lent, random| lent.set_in_some(random, Table::Transitions, 0, NONE)),
        tables!("descriptors past their table", 1, |lent, random| {
            let start = lent.counts().descriptors as u64 + 1;
            lent.set_in_some(random, Table::Transitions, 1, start)
        }),
        tables!("condition past the rows", 1, |lent, random| {
            let rows = lent.counts().rows as u64;
            lent.set_in_some(random, Table::Transitions, 3, rows)
        }),
        tables!("type 2", 1, |lent, random| lent.set_in_some(random, Table::Transitions, 4, 2)),
        tables!("targets past the references", 1, |lent, random| {
            let start = lent.counts().references as u64 + 1;
            lent.set_in_some(random, Table::Transitions, 5, start)
        }),
        tables!("transition block past the actions", 1, |lent, random| {
            let start = lent.counts().actions as u64 + 1;
            lent.set_in_some(random, Table::Transitions, 7, start)
        }),
        tables!("reference past the rows", 1, |lent, random| {
            let rows = lent.counts().rows as u64;
            lent.set_in_some(random, Table::References, 0, rows)
        }),
        tables!("unused reference past the rows", 1, |lent, _| {
            let rows = lent.counts().rows as u64;
            let lines = lent.counts().references as u64 + 1;
            lent.lengthen(Table::References, lines, &[rows])
        }),
        tables!("unused reference none", 1, |lent, _| {
            let lines = lent.counts().references as u64 + 1;
            lent.lengthen(Table::References, lines, &[NONE])
        }),
        tables!("descriptor past the slots", 1, |lent, random| {
            let slots = lent.counts().slots as u64;
            lent.set_in_some(random, Table::Descriptors, 0, slots)
        }),
        tables!("unused descriptor past the slots", 1, |lent, _| {
            let slots = lent.counts().slots as u64;
            let lines = lent.counts().descriptors as u64 + 1;
            lent.lengthen(Table::Descriptors, lines, &[slots])
        }),
        tables!("unused raise past the slots", 1, |lent, _| {
            let slots = lent.counts().slots as u64;
            let lines = lent.counts().actions as u64 + 1;
            lent.lengthen(Table::Actions, lines, &[0, slots, 0, 0])
        }),
        tables!("unused host action 65,536", 1, |lent, _| {
            let lines = lent.counts().actions as u64 + 1;
            lent.lengthen(Table::Actions, lines, &[1, 65_536, 0, 0])
        }),
        tables!("action argument past all", 1, |lent, random| {
            lent.set_in_some(random, Table::Actions, 1, 65_536)
        }),
    ]
}

/// An unused slot with this text breaks rule 2 as much as a used one.
macro_rules! slot {
    ($name:literal, $text:expr) => {
        chart!($name, 2, |chart, _, _| push_slot(chart, $text).map(|_| ()))
    };
}

fn names() -> Vec<NearMiss> {
    vec![
        chart!("slot with no text", 2, |chart, _, _| push_raw_slot(chart, EMPTY_SLOT).map(|_| ())),
        chart!("slot without a zero", 2, |chart, _, _| {
            push_raw_slot(chart, [b'a'; SLOT_BYTES]).map(|_| ())
        }),
        chart!("descriptor of 64 bytes", 2, |chart, _, _| {
            let mut slot = [b'a'; SLOT_BYTES];
            slot[62..].copy_from_slice(b".*");
            push_raw_slot(chart, slot).map(|_| ())
        }),
        chart!("slot with text behind a zero", 2, |chart, _, _| {
            let mut slot = slot_of(b"good");
            slot[63] = b'x';
            push_raw_slot(chart, slot).map(|_| ())
        }),
        chart!("slot that begins with a zero", 2, |chart, _, _| {
            let mut slot = EMPTY_SLOT;
            slot[1] = b'x';
            push_raw_slot(chart, slot).map(|_| ())
        }),
        chart!("used slot spoilt", 2, |chart, _, random| {
            let place = random.below(chart.names.len());
            chart.names[place][0] = b' ';
            Some(())
        }),
        slot!("name with a blank", b"a b"),
        slot!("name with byte 128", b"a\x80"),
        slot!("name with a slash", b"a/b"),
        slot!("name that begins with a dot", b".a"),
        slot!("name that ends with a dot", b"a."),
        slot!("name with two dots", b"a..b"),
        slot!("name of a dot", b"."),
        slot!("star behind a name", b"a*"),
        slot!("star before a name", b"*.a"),
        slot!("two stars", b"**"),
        slot!("star inside", b"a.*.b"),
        slot!("star behind a dot alone", b".*"),
        slot!("star behind two dots", b"a..*"),
        slot!("star behind a star", b"*.*"),
        chart!("id of 53 bytes", 2, |chart, _, random| set_some_id(chart, random, &[b'i'; 53])),
        chart!("id of 63 bytes", 2, |chart, _, random| set_some_id(chart, random, &[b'i'; 63])),
        chart!("id that begins with a digit", 2, |chart, _, random| set_some_id(chart, random, b"1a")),
        chart!("id that begins with a dash", 2, |chart, _, random| set_some_id(chart, random, b"-a")),
        chart!("id that is a star", 2, |chart, _, random| set_some_id(chart, random, b"*")),
        chart!("id that is a descriptor", 2, |chart, _, random| set_some_id(chart, random, b"a.*")),
        chart!("one slot for two ids", 2, |chart, _, random| {
            let count = chart.rows.len();
            let one = random.between(1, count - 1);
            let other = 1 + (one - 1 + random.between(1, count.max(3) - 2)) % (count - 1);
            chart.rows[one].id = chart.rows[other].id;
            (one != other).then_some(())
        }),
        chart!("two slots for equal ids", 2, |chart, _, random| {
            let count = chart.rows.len();
            let one = random.between(1, count - 1);
            let other = 1 + (one - 1 + random.between(1, count.max(3) - 2)) % (count - 1);
            let text = chart.id(RowNumber(other)).to_vec();
            chart.rows[one].id = Some(push_slot(chart, &text)?);
            (one != other).then_some(())
        }),
        chart!("root with an id", 2, |chart, _, _| {
            chart.rows[0].id = Some(push_slot(chart, b"theroot")?);
            Some(())
        }),
        chart!("row without an id", 2, |chart, _, random| {
            let row = random.between(1, chart.rows.len() - 1);
            chart.rows[row].id = None;
            Some(())
        }),
        chart!("raise of a star", 2, |chart, _, random| raise_something(chart, random, b"*")),
        chart!("raise of a descriptor", 2, |chart, _, random| raise_something(chart, random, b"a.*")),
        tables!("unused raise of a descriptor", 2, |lent, _| {
            let is_star = |slot: &[u8]| slot == slot_of(b"*");
            let star = lent.spelt.names.chunks(SLOT_BYTES).position(is_star)? as u64;
            let lines = lent.counts().actions as u64 + 1;
            (lines <= MAX_ACTIONS).then_some(())?;
            lent.lengthen(Table::Actions, lines, &[0, star, 0, 0])
        }),
        chart!("raise of a star on entry", 2, |chart, _, random| {
            let name = push_slot(chart, b"*")?;
            let row = random.between(1, chart.rows.len() - 1);
            chart.rows[row].entry = vec![Action::Raise(name)];
            Some(())
        }),
    ]
}

fn tree() -> Vec<NearMiss> {
    vec![
        chart!("row 0 is a state", 3, |chart, _, _| {
            chart.rows[0].kind = Kind::State;
            Some(())
        }),
        chart!("a second root", 3, |chart, _, random| {
            let row = random.between(1, chart.rows.len() - 1);
            chart.rows[row].kind = Kind::Root;
            Some(())
        }),
        chart!("root with a parent", 3, |chart, _, random| {
            chart.rows[0].parent = Some(RowNumber(random.below(chart.rows.len())));
            Some(())
        }),
        chart!("row without a parent", 3, |chart, _, random| {
            let row = random.between(1, chart.rows.len() - 1);
            chart.rows[row].parent = None;
            Some(())
        }),
        chart!("row under itself", 3, |chart, _, random| {
            let row = random.between(1, chart.rows.len() - 1);
            chart.rows[row].parent = Some(RowNumber(row));
            Some(())
        }),
        chart!("row under a later row", 3, |chart, _, _| {
            let last = chart.rows.len() - 1;
            chart.rows[1].parent = Some(RowNumber(last));
            Some(())
        }),
        chart!("row under a row that is closed", 3, |chart, tree, random| {
            let first = some_row(chart, tree, random, |tree, row| {
                tree.kind(row) == Kind::State && row.0 + 2 < tree.row_count()
            })?;
            let closed_at = chart.row_numbers().find(|&row| row > first && !tree.is_ancestor(first, row))?;
            let later = chart.row_numbers().find(|&row| row > closed_at)?;
            chart.rows[later.0].parent = Some(first);
            Some(())
        }),
        chart!("history under root", 3, |chart, _, _| append_row(chart, Kind::DeepHistory, Some(ROOT))
            .map(|_| ())),
        chart!("state under final", 3, |chart, tree, _| {
            let last = RowNumber(chart.rows.len() - 1);
            (tree.kind(last) == Kind::Final).then_some(())?;
            append_row(chart, Kind::State, Some(last)).map(|_| ())
        }),
        chart!("final under parallel", 3, |chart, tree, random| {
            let region = some_row(chart, tree, random, |tree, row| {
                tree.is_atomic(row) && tree.parent(row).is_some_and(|parent| tree.is_parallel(parent))
            })?;
            chart.rows[region.0].kind = Kind::Final;
            Some(())
        }),
        chart!("state under history", 3, |chart, tree, random| {
            let history = some_row(chart, tree, random, |tree, row| {
                tree.is_history(row) && row.0 + 1 < tree.row_count()
            })?;
            chart.rows[history.0 + 1].parent = Some(history);
            Some(())
        }),
        chart!("parallel without a child", 3, |chart, tree, random| {
            let leaf = some_row(chart, tree, random, |tree, row| {
                tree.is_atomic(row) && tree.kind(row) == Kind::State
            })?;
            chart.rows[leaf.0].kind = Kind::Parallel;
            Some(())
        }),
        chart!("state with a history alone", 3, |chart, _, _| {
            let state = append_row(chart, Kind::State, Some(ROOT))?;
            append_row(chart, Kind::ShallowHistory, Some(state)).map(|_| ())
        }),
        chart!("parallel with a history alone", 3, |chart, _, _| {
            let parallel = append_row(chart, Kind::Parallel, Some(ROOT))?;
            append_row(chart, Kind::DeepHistory, Some(parallel)).map(|_| ())
        }),
        chart!("root alone", 3, |chart, _, _| {
            chart.rows.truncate(1);
            chart.rows[0].list.clear();
            chart.transitions.clear();
            Some(())
        }),
        chart!("two roots of two trees", 3, |chart, _, _| {
            let row = append_row(chart, Kind::Root, None)?;
            append_row(chart, Kind::State, Some(row)).map(|_| ())
        }),
    ]
}

/// Sets the list of some row that fits, to rows that are found for it.
fn set_list(
    chart: &mut Chart,
    tree: &Tree,
    random: &mut Random,
    fits: impl Fn(&Tree, RowNumber) -> bool,
    list: impl Fn(&Tree, RowNumber) -> Option<Vec<RowNumber>>,
) -> Option<()> {
    let owner = some_row(chart, tree, random, |tree, row| fits(tree, row) && list(tree, row).is_some())?;
    chart.rows[owner.0].list = list(tree, owner)?;
    Some(())
}

fn is_history(tree: &Tree, row: RowNumber) -> bool {
    tree.is_history(row)
}

fn owns_initial_list(tree: &Tree, row: RowNumber) -> bool {
    tree.is_compound_or_root(row)
}

fn lists() -> Vec<NearMiss> {
    [initial_lists(), default_lists(), useless_lists_and_blocks(), target_lists()].concat()
}

fn initial_lists() -> Vec<NearMiss> {
    vec![
        chart!("initial list holds its owner", 4, |chart, tree, random| {
            set_list(chart, tree, random, owns_initial_list, |_, row| Some(vec![row]))
        }),
        chart!("initial list holds a row outside", 4, |chart, tree, random| {
            set_list(chart, tree, random, owns_initial_list, |tree, row| {
                let mut outside = tree.descendants(ROOT).minus(&tree.descendants(row));
                outside.remove(row);
                Some(vec![outside.rows().last()?])
            })
        }),
        chart!("initial list holds the root", 4, |chart, tree, random| {
            set_list(chart, tree, random, owns_initial_list, |_, _| Some(vec![ROOT]))
        }),
        chart!("initial list holds two children", 4, |chart, tree, random| {
            set_list(chart, tree, random, owns_initial_list, |tree, row| {
                let children: Vec<RowNumber> = tree.children(row).rows().take(2).collect();
                (children.len() == 2).then_some(children)
            })
        }),
        chart!("initial list holds a row twice", 4, |chart, tree, random| {
            set_list(chart, tree, random, owns_initial_list, |tree, row| {
                Some(vec![tree.first_child(row)?; 2])
            })
        }),
        chart!("initial list holds a row and its ancestor", 4, |chart, tree, random| {
            set_list(chart, tree, random, owns_initial_list, |tree, row| {
                let child = tree.children(row).rows().find(|&child| tree.first_child(child).is_some())?;
                Some(vec![tree.first_child(child)?, child])
            })
        }),
        chart!("block without an initial list", 4, |chart, tree, random| {
            let owner = some_row(chart, tree, random, |tree, row| tree.is_compound(row))?;
            chart.rows[owner.0].list.clear();
            chart.rows[owner.0].block = host_block();
            Some(())
        }),
    ]
}

fn default_lists() -> Vec<NearMiss> {
    vec![
        chart!("default list empty", 4, |chart, tree, random| {
            set_list(chart, tree, random, is_history, |_, _| Some(Vec::new()))
        }),
        chart!("default list holds a history", 4, |chart, tree, random| {
            set_list(chart, tree, random, is_history, |tree, row| {
                tree.histories(tree.anchor(row)).iter().rev().take(1).map(|&one| Some(one)).collect()
            })
        }),
        chart!("default list holds the parent", 4, |chart, tree, random| {
            set_list(chart, tree, random, is_history, |tree, row| Some(vec![tree.anchor(row)]))
        }),
        chart!("default list holds a row outside", 4, |chart, tree, random| {
            set_list(chart, tree, random, is_history, |tree, row| {
                let parent = tree.anchor(row);
                let mut outside = tree.descendants(ROOT).minus(&tree.descendants(parent));
                outside.remove(parent);
                Some(vec![outside.rows().next()?])
            })
        }),
        chart!("shallow default list holds a grandchild", 4, |chart, tree, random| {
            set_list(chart, tree, random, has_kind(Kind::ShallowHistory), |tree, row| {
                let children = tree.children(tree.anchor(row));
                let grandchild = children.rows().find_map(|child| tree.first_child(child))?;
                Some(vec![grandchild])
            })
        }),
        chart!("default list holds two children of a state", 4, |chart, tree, random| {
            set_list(chart, tree, random, is_history, |tree, row| {
                let parent = tree.anchor(row);
                let children: Vec<RowNumber> = tree.children(parent).rows().take(2).collect();
                (tree.is_compound(parent) && children.len() == 2).then_some(children)
            })
        }),
        chart!("default list holds a row twice", 4, |chart, tree, random| {
            set_list(chart, tree, random, is_history, |tree, row| {
                Some(vec![tree.first_child(tree.anchor(row))?; 2])
            })
        }),
    ]
}

fn useless_lists_and_blocks() -> Vec<NearMiss> {
    vec![
        chart!("atomic state with a list", 4, |chart, tree, random| {
            set_list(
                chart,
                tree,
                random,
                |tree, row| tree.is_atomic(row) && tree.kind(row) == Kind::State,
                |_, _| Some(vec![RowNumber(1)]),
            )
        }),
        chart!("atomic state with a list's block", 4, |chart, tree, random| {
            let row = some_row(chart, tree, random, |tree, row| {
                tree.is_atomic(row) && tree.kind(row) == Kind::State
            })?;
            chart.rows[row.0].block = host_block();
            Some(())
        }),
        chart!("parallel with a list", 4, |chart, tree, random| {
            set_list(chart, tree, random, has_kind(Kind::Parallel), |tree, row| {
                Some(tree.children(row).rows().collect())
            })
        }),
        chart!("parallel with a list's block", 4, |chart, tree, random| {
            let row = some_row(chart, tree, random, has_kind(Kind::Parallel))?;
            chart.rows[row.0].block = host_block();
            Some(())
        }),
        chart!("final with a list", 4, |chart, tree, random| {
            set_list(chart, tree, random, has_kind(Kind::Final), |_, _| Some(vec![RowNumber(1)]))
        }),
        chart!("final with a list's block", 4, |chart, tree, random| {
            let row = some_row(chart, tree, random, has_kind(Kind::Final))?;
            chart.rows[row.0].block = host_block();
            Some(())
        }),
        chart!("root with an entry block", 4, |chart, _, _| {
            chart.rows[0].entry = host_block();
            Some(())
        }),
        chart!("root with an exit block", 4, |chart, _, _| {
            chart.rows[0].exit = host_block();
            Some(())
        }),
        chart!("root with an initial block", 4, |chart, tree, _| {
            chart.rows[0].list = vec![tree.first_child(ROOT)?];
            chart.rows[0].block = host_block();
            Some(())
        }),
        chart!("history with an entry block", 4, |chart, tree, random| {
            let row = some_row(chart, tree, random, is_history)?;
            chart.rows[row.0].entry = host_block();
            Some(())
        }),
        chart!("history with an exit block", 4, |chart, tree, random| {
            let row = some_row(chart, tree, random, is_history)?;
            chart.rows[row.0].exit = host_block();
            Some(())
        }),
    ]
}

fn target_lists() -> Vec<NearMiss> {
    vec![
        chart!("target is the root", 4, |chart, _, random| set_some_targets(chart, random, vec![ROOT])),
        chart!("target twice", 4, |chart, _, random| {
            let row = RowNumber(random.between(1, chart.rows.len() - 1));
            set_some_targets(chart, random, vec![row, row])
        }),
        chart!("targets a row and its ancestor", 4, |chart, tree, random| {
            let row = some_row(chart, tree, random, |tree, row| tree.ancestors(row).len() >= 2)?;
            let above: Vec<RowNumber> = tree.ancestors(row).rows().skip(1).collect();
            let above = random.pick(&above)?;
            set_some_targets(chart, random, vec![above, row])
        }),
        chart!("targets under one state", 4, |chart, tree, random| {
            let pair = pair_under_compound(chart, tree, random)?;
            set_some_targets(chart, random, pair)
        }),
        chart!("targets two histories of one row", 4, |chart, tree, random| {
            let owner = some_row(chart, tree, random, |tree, row| tree.histories(row).len() >= 2)?;
            let pair = tree.histories(owner)[..2].to_vec();
            set_some_targets(chart, random, pair)
        }),
        chart!("targets a history and its parent", 4, |chart, tree, random| {
            let history = some_row(chart, tree, random, is_history)?;
            set_some_targets(chart, random, vec![history, tree.anchor(history)])
        }),
        chart!("targets a history and a row beside it", 4, |chart, tree, random| {
            let history = some_row(chart, tree, random, is_history)?;
            let child = tree.first_child(tree.anchor(history))?;
            set_some_targets(chart, random, vec![child, history])
        }),
    ]
}

fn transitions() -> Vec<NearMiss> {
    vec![
        chart!("sources out of order", 5, |chart, _, random| {
            let steps: Vec<usize> = (1..chart.transitions.len())
                .filter(|&place| chart.transitions[place - 1].source < chart.transitions[place].source)
                .collect();
            let place = random.pick(&steps)?;
            chart.transitions.swap(place - 1, place);
            Some(())
        }),
        chart!("source is the root", 5, |chart, _, _| {
            let first = chart.transitions.first_mut()?;
            first.source = ROOT;
            Some(())
        }),
        chart!("source is a final", 5, |chart, tree, random| {
            let source = some_row(chart, tree, random, has_kind(Kind::Final))?;
            push_transition(chart, source, vec![RowNumber(1)])
        }),
        chart!("source is a history", 5, |chart, tree, random| {
            let source = some_row(chart, tree, random, is_history)?;
            push_transition(chart, source, vec![RowNumber(1)])
        }),
        chart!("transition with nothing", 5, |chart, tree, random| {
            let source = some_row(chart, tree, random, has_kind(Kind::State))?;
            push_transition(chart, source, Vec::new())
        }),
        chart!("transition with a block alone", 5, |chart, tree, random| {
            let source = some_row(chart, tree, random, has_kind(Kind::State))?;
            push_transition(chart, source, Vec::new())?;
            chart.transitions.last_mut()?.block = host_block();
            Some(())
        }),
        chart!("In names the root", 5, |chart, _, random| {
            let last = chart.transitions.len().checked_sub(1)?;
            chart.transitions[random.between(0, last)].condition = Some(ROOT);
            Some(())
        }),
        chart!("In names a history", 5, |chart, tree, random| {
            let history = some_row(chart, tree, random, is_history)?;
            let last = chart.transitions.len().checked_sub(1)?;
            chart.transitions[random.between(0, last)].condition = Some(history);
            Some(())
        }),
    ]
}
