//! Writing charts by hand: rows by id, names by text.

use crate::names::slot_of;
use crate::numbers::{NameNumber, RowNumber, ROOT};
use crate::tables::{Action, Chart, Kind, Row, Transition, TransitionType};

/// A row is named by its id while a chart is built; the root's id is "".
pub struct Builder {
    pub chart: Chart,
}

/// An action of a block, spelt for the builder.
#[derive(Clone, Copy)]
pub enum Do<'a> {
    Raise(&'a str),
    Host(u16),
    If(&'a str),
    ElseIf(&'a str),
    Else,
    End,
    /// The event, the delay, the send id; "" for none.
    Send(&'a str, u32, &'a str),
    Cancel(&'a str),
}

pub fn empty_row(kind: Kind, parent: Option<RowNumber>, id: Option<NameNumber>) -> Row {
    Row { kind, parent, id, entry: Vec::new(), exit: Vec::new(), list: Vec::new(), block: Vec::new() }
}

impl Default for Builder {
    fn default() -> Self {
        Builder::new()
    }
}

impl Builder {
    pub fn new() -> Builder {
        let root = empty_row(Kind::Root, None, None);
        Builder { chart: Chart { rows: vec![root], ..Chart::default() } }
    }

    /// The slot of a text, a new one if there is none yet.
    pub fn name(&mut self, text: &str) -> NameNumber {
        let slot = slot_of(text.as_bytes());
        let found = self.chart.names.iter().position(|other| *other == slot);
        NameNumber(found.unwrap_or_else(|| {
            self.chart.names.push(slot);
            self.chart.names.len() - 1
        }))
    }

    pub fn row(&self, id: &str) -> RowNumber {
        if id.is_empty() {
            return ROOT;
        }
        self.chart
            .row_numbers()
            .find(|&row| self.chart.id(row) == id.as_bytes())
            .unwrap_or_else(|| panic!("no row has the id {id}"))
    }

    fn rows(&self, ids: &str) -> Vec<RowNumber> {
        ids.split_whitespace().map(|id| self.row(id)).collect()
    }

    fn block(&mut self, actions: &[Do]) -> Vec<Action> {
        actions
            .iter()
            .map(|action| match action {
                Do::Raise(text) => Action::Raise(self.name(text)),
                Do::Host(number) => Action::Host(*number),
                Do::If(id) => Action::If(self.row(id)),
                Do::ElseIf(id) => Action::ElseIf(self.row(id)),
                Do::Else => Action::Else,
                Do::End => Action::End,
                Do::Send(event, delay, id) => Action::Send {
                    event: self.name(event),
                    delay: *delay,
                    id: (!id.is_empty()).then(|| self.name(id)),
                },
                Do::Cancel(id) => Action::Cancel(self.name(id)),
            })
            .collect()
    }

    pub fn add(&mut self, kind: Kind, parent: &str, id: &str) -> RowNumber {
        let parent = self.row(parent);
        let id = self.name(id);
        self.chart.rows.push(empty_row(kind, Some(parent), Some(id)));
        RowNumber(self.chart.rows.len() - 1)
    }

    pub fn state(&mut self, parent: &str, id: &str) -> &mut Self {
        self.add(Kind::State, parent, id);
        self
    }

    pub fn parallel(&mut self, parent: &str, id: &str) -> &mut Self {
        self.add(Kind::Parallel, parent, id);
        self
    }

    pub fn final_(&mut self, parent: &str, id: &str) -> &mut Self {
        self.add(Kind::Final, parent, id);
        self
    }

    pub fn shallow(&mut self, parent: &str, id: &str) -> &mut Self {
        self.add(Kind::ShallowHistory, parent, id);
        self
    }

    pub fn deep(&mut self, parent: &str, id: &str) -> &mut Self {
        self.add(Kind::DeepHistory, parent, id);
        self
    }

    /// The initial or default list of a row, with its block.
    pub fn list(&mut self, id: &str, targets: &str, block: &[Do]) -> &mut Self {
        let row = self.row(id);
        let list = self.rows(targets);
        let block = self.block(block);
        self.chart.rows[row.0].list = list;
        self.chart.rows[row.0].block = block;
        self
    }

    pub fn on_entry(&mut self, id: &str, block: &[Do]) -> &mut Self {
        let row = self.row(id);
        self.chart.rows[row.0].entry = self.block(block);
        self
    }

    pub fn on_exit(&mut self, id: &str, block: &[Do]) -> &mut Self {
        let row = self.row(id);
        self.chart.rows[row.0].exit = self.block(block);
        self
    }

    fn transition(&mut self, source: &str, events: &str, targets: &str, kind: TransitionType) {
        let descriptors = events.split_whitespace().map(|event| self.name(event)).collect();
        let transition = Transition {
            source: self.row(source),
            descriptors,
            condition: None,
            kind,
            targets: self.rows(targets),
            block: Vec::new(),
        };
        self.chart.transitions.push(transition);
    }

    /// An external transition; no events for an eventless one, no targets for one without.
    pub fn on(&mut self, source: &str, events: &str, targets: &str) -> &mut Self {
        self.transition(source, events, targets, TransitionType::External);
        self
    }

    pub fn on_internally(&mut self, source: &str, events: &str, targets: &str) -> &mut Self {
        self.transition(source, events, targets, TransitionType::Internal);
        self
    }

    /// Gives the transition just added a condition.
    pub fn when_in(&mut self, id: &str) -> &mut Self {
        let row = self.row(id);
        self.last().condition = Some(row);
        self
    }

    /// Gives the transition just added a block.
    pub fn doing(&mut self, block: &[Do]) -> &mut Self {
        let block = self.block(block);
        self.last().block = block;
        self
    }

    fn last(&mut self) -> &mut Transition {
        self.chart.transitions.last_mut().expect("a transition was added before")
    }

    /// The chart, its transitions sorted by source (rule 5); equal sources keep their order.
    pub fn chart(&mut self) -> Chart {
        let mut chart = self.chart.clone();
        chart.transitions.sort_by_key(|transition| transition.source);
        chart
    }
}
