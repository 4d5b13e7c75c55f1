//! The chart that a text means, once nothing is wrong with it.

use super::elements::{Element, Name};
use super::faults::tags;
use super::scan::{Mark, Tag};
use super::values::{condition, delay, items, label, DEFAULTS, EXTERNAL, SHALLOW};
use crate::builder::empty_row;
use crate::names::slot_of;
use crate::numbers::{NameNumber, RowNumber, TransitionNumber};
use crate::tables::{Action, Chart, Kind, Transition, TransitionType};
use std::collections::HashMap;

/// "An attribute reader answers the attribute's part of the document, or where it is absent the part of
/// the defaults text".
pub fn attribute<'a>(
    text: &'a [u8],
    defaults: &'a [u8],
    tag: &Tag,
    name: Name,
    default: std::ops::Range<usize>,
) -> &'a [u8] {
    match tag.attribute(name) {
        Some(given) => &text[given.start..given.end],
        None => &defaults[default],
    }
}

/// The chart of a text with these tags and without faults.
pub fn chart(text: &[u8], marks: &[Mark]) -> Chart {
    let mut rows = HashMap::new();
    for (number, tag) in tags(marks).filter(|tag| tag.element.row_kind().is_some()).enumerate() {
        if let Some(id) = tag.attribute(Name::Id) {
            // "a doubled id is taken as the first"
            rows.entry(&text[id.start..id.end]).or_insert(RowNumber(number));
        }
    }
    let build = Build { text, rows, open: Vec::new(), slots: HashMap::new(), chart: Chart::default() };
    build.whole(marks)
}

/// Where the actions of an element go.
#[derive(Clone, Copy)]
enum Block {
    Entry(RowNumber),
    Exit(RowNumber),
    List(RowNumber),
    Of(TransitionNumber),
}

/// An element that is still open.
#[derive(Clone, Copy)]
enum Open {
    Row {
        number: RowNumber,
        has_default: bool,
    },
    Block(Block),
    /// An if in that block: its actions go there, and at its end tag an end.
    If(Block),
    /// It holds nothing that the tables keep.
    Other,
}

struct Build<'a> {
    text: &'a [u8],
    rows: HashMap<&'a [u8], RowNumber>,
    open: Vec<Open>,
    slots: HashMap<&'a [u8], NameNumber>,
    chart: Chart,
}

impl<'a> Build<'a> {
    fn whole(mut self, marks: &[Mark]) -> Chart {
        for mark in marks {
            match mark {
                Mark::Open(tag) => {
                    let opened = self.opened(tag);
                    self.open.push(opened);
                }
                Mark::Close => {
                    if let Some(Open::If(_)) = self.open.last() {
                        self.add_action(Action::End);
                    }
                    self.open.pop();
                }
            }
        }
        // "Transitions are numbered by source row, then by place": the sort keeps the places' order.
        self.chart.transitions.sort_by_key(|transition| transition.source);
        self.chart
    }

    /// The row that the next element stands in; before the root it is the one to come.
    fn row(&self) -> RowNumber {
        let rows = self.open.iter().rev().filter_map(|open| match open {
            Open::Row { number, .. } => Some(*number),
            _ => None,
        });
        rows.into_iter().next().unwrap_or(RowNumber(0))
    }

    fn opened(&mut self, tag: &Tag) -> Open {
        let row = self.row();
        match tag.element {
            Element::Scxml | Element::State | Element::Parallel | Element::Final | Element::History => {
                self.add_row(tag)
            }
            Element::Initial => Open::Other,
            Element::Entering => self.set_list(row, tag),
            Element::Transition => self.add_transition(row, tag),
            Element::Onentry => Open::Block(Block::Entry(row)),
            Element::Onexit => Open::Block(Block::Exit(row)),
            Element::Raise
            | Element::Log
            | Element::If
            | Element::Elseif
            | Element::Else
            | Element::Send
            | Element::Cancel => {
                let action = self.action(tag);
                let block = self.add_action(action);
                match action {
                    Action::If(_) => Open::If(block),
                    _ => Open::Other,
                }
            }
        }
    }

    fn add_row(&mut self, tag: &Tag) -> Open {
        let number = RowNumber(self.chart.rows.len());
        let parent = (tag.element != Element::Scxml).then(|| self.row());
        let id = self.names(tag, Name::Id).first().copied();
        let mut row = empty_row(self.kind(tag), parent, id);
        row.list = self.references(tag, Name::Initial);
        self.chart.rows.push(row);
        Open::Row { number, has_default: false }
    }

    fn kind(&self, tag: &Tag) -> Kind {
        let kind = tag.element.row_kind().expect("the element is a row");
        let deep = kind == Kind::ShallowHistory
            && attribute(self.text, DEFAULTS, tag, Name::Type, SHALLOW) == b"deep";
        if deep {
            Kind::DeepHistory
        } else {
            kind
        }
    }

    /// Gives the row its list; the actions inside are the list's block.
    fn set_list(&mut self, row: RowNumber, tag: &Tag) -> Open {
        self.chart.rows[row.0].list = self.references(tag, Name::Target);
        Open::Block(Block::List(row))
    }

    /// The first transition of a history that has neither event nor cond is its default.
    fn add_transition(&mut self, source: RowNumber, tag: &Tag) -> Open {
        let plain = tag.attribute(Name::Event).is_none() && tag.attribute(Name::Cond).is_none();
        if let Some(Open::Row { has_default: has_default @ false, .. }) = self.open.last_mut() {
            if plain && self.chart.rows[source.0].kind.is_history() {
                *has_default = true;
                return self.set_list(source, tag);
            }
        }
        let kind = match attribute(self.text, DEFAULTS, tag, Name::Type, EXTERNAL) {
            b"internal" => TransitionType::Internal,
            _ => TransitionType::External,
        };
        let transition = Transition {
            source,
            descriptors: self.names(tag, Name::Event),
            condition: self.condition(tag),
            kind,
            targets: self.references(tag, Name::Target),
            block: Vec::new(),
        };
        self.chart.transitions.push(transition);
        Open::Block(Block::Of(TransitionNumber(self.chart.transitions.len() - 1)))
    }

    fn condition(&self, tag: &Tag) -> Option<RowNumber> {
        let cond = tag.attribute(Name::Cond)?;
        let (_, id) = condition(self.text, cond.start, cond.end).expect("the value was judged");
        Some(self.rows[&id[..]])
    }

    fn action(&mut self, tag: &Tag) -> Action {
        match tag.element {
            Element::Raise => Action::Raise(self.names(tag, Name::Event)[0]),
            Element::If => Action::If(self.condition(tag).expect("the attribute is required")),
            Element::Elseif => Action::ElseIf(self.condition(tag).expect("the attribute is required")),
            Element::Else => Action::Else,
            Element::Send => self.send(tag),
            Element::Cancel => Action::Cancel(self.names(tag, Name::Sendid)[0]),
            _ => {
                let value = attribute(self.text, b"", tag, Name::Label, 0..0);
                Action::Host(label(value).expect("the value was judged"))
            }
        }
    }

    /// The names take their slots in the order in which the tag has them. Without delay it is 0.
    fn send(&mut self, tag: &Tag) -> Action {
        let (mut event, mut id) = (None, None);
        for attribute in &tag.attributes {
            match attribute.name {
                Name::Event => event = self.names(tag, Name::Event).first().copied(),
                Name::Id => id = self.names(tag, Name::Id).first().copied(),
                _ => {}
            }
        }
        let ticks = attribute(self.text, b"0", tag, Name::Delay, 0..1);
        let delay = delay(ticks).expect("the value was judged");
        Action::Send { event: event.expect("the attribute is required"), delay, id }
    }

    /// "Several onentry (or onexit) elements of one row join into one block." The block it went to.
    fn add_action(&mut self, action: Action) -> Block {
        let Some(Open::Block(block) | Open::If(block)) = self.open.last().copied() else {
            unreachable!("actions stand in blocks")
        };
        let actions = match block {
            Block::Entry(row) => &mut self.chart.rows[row.0].entry,
            Block::Exit(row) => &mut self.chart.rows[row.0].exit,
            Block::List(row) => &mut self.chart.rows[row.0].block,
            Block::Of(transition) => &mut self.chart.transitions[transition.0].block,
        };
        actions.push(action);
        block
    }

    fn items(&self, tag: &Tag, name: Name) -> Vec<&'a [u8]> {
        let given = tag.attribute(name).into_iter();
        given.flat_map(|given| items(self.text, given.start, given.end)).map(|(_, item)| item).collect()
    }

    fn references(&self, tag: &Tag, name: Name) -> Vec<RowNumber> {
        self.items(tag, name).into_iter().map(|id| self.rows[id]).collect()
    }

    /// "equal names share a slot, by first use in the text as id, descriptor or action's name".
    fn names(&mut self, tag: &Tag, name: Name) -> Vec<NameNumber> {
        let mut names = Vec::new();
        for text in self.items(tag, name) {
            let next = NameNumber(self.chart.names.len());
            let slot = *self.slots.entry(text).or_insert(next);
            if slot == next {
                self.chart.names.push(slot_of(text));
            }
            names.push(slot);
        }
        names
    }
}
