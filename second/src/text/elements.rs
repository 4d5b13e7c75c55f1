//! "elements scxml, state, parallel, final, history, initial, transition, onentry, onexit, raise, log;
//! attributes xmlns, version, id, initial, type, event, cond (In('id')), target, label, placed as in the
//! Recommendation"; if, elseif and else (R-5); send "(event, delay in decimal ticks, id) and cancel (sendid)"
//!

use crate::tables::Kind;

#[derive(Clone, Copy, PartialEq, Eq, Debug)]
pub enum Element {
    Scxml,
    State,
    Parallel,
    Final,
    History,
    Initial,
    /// The transition of an initial element: "it has a target and neither event nor cond".
    Entering,
    Transition,
    Onentry,
    Onexit,
    Raise,
    Log,
    ///
    If,
    Elseif,
    Else,
    ///
    Send,
    Cancel,
}

/// What a block holds.
pub const ACTIONS: [Element; 7] = [
    Element::Raise,
    Element::Log,
    Element::If,
    Element::Elseif,
    Element::Else,
    Element::Send,
    Element::Cancel,
];

#[derive(Clone, Copy, PartialEq, Eq, Debug)]
pub enum Name {
    Xmlns,
    Version,
    Id,
    Initial,
    Type,
    Event,
    Cond,
    Target,
    Label,
    Delay,
    Sendid,
}

/// What the grammar asks of a value.
#[derive(Clone, Copy, PartialEq, Eq, Debug)]
pub enum Form {
    Name,
    /// Names, each a reference to a row.
    References,
    Descriptors,
    /// "other values free".
    Free,
}

/// What an element may hold between its tags.
#[derive(Clone, Copy, PartialEq, Eq, Debug)]
pub enum Content {
    /// "Rows, blocks and transitions may stand under any row".
    Row,
    /// The same, and one initial element where the attribute is not given.
    State,
    /// Exactly one transition.
    Entering,
    Block,
    Nothing,
}

pub struct Entry {
    pub element: Element,
    pub word: &'static str,
    pub attributes: &'static [(Name, Form)],
    /// Without these there is nothing to write into the tables.
    pub required: &'static [Name],
    pub content: Content,
}

const fn entry(
    element: Element,
    word: &'static str,
    attributes: &'static [(Name, Form)],
    required: &'static [Name],
    content: Content,
) -> Entry {
    Entry { element, word, attributes, required, content }
}

const XMLNS: (Name, Form) = (Name::Xmlns, Form::Free);
const VERSION: (Name, Form) = (Name::Version, Form::Free);
const ID: (Name, Form) = (Name::Id, Form::Name);
const INITIAL: (Name, Form) = (Name::Initial, Form::References);
const TYPE: (Name, Form) = (Name::Type, Form::Free);
const EVENTS: (Name, Form) = (Name::Event, Form::Descriptors);
const EVENT: (Name, Form) = (Name::Event, Form::Name);
const COND: (Name, Form) = (Name::Cond, Form::Free);
const TARGET: (Name, Form) = (Name::Target, Form::References);
const LABEL: (Name, Form) = (Name::Label, Form::Free);
const DELAY: (Name, Form) = (Name::Delay, Form::Free);
const SENDID: (Name, Form) = (Name::Sendid, Form::Name);

static ENTRIES: [Entry; 17] = [
    entry(Element::Scxml, "scxml", &[XMLNS, VERSION, INITIAL], &[], Content::Row),
    entry(Element::State, "state", &[ID, INITIAL], &[], Content::State),
    entry(Element::Parallel, "parallel", &[ID], &[], Content::Row),
    entry(Element::Final, "final", &[ID], &[], Content::Row),
    entry(Element::History, "history", &[ID, TYPE], &[], Content::Row),
    entry(Element::Initial, "initial", &[], &[], Content::Entering),
    entry(Element::Entering, "transition", &[TYPE, TARGET], &[Name::Target], Content::Block),
    entry(Element::Transition, "transition", &[TYPE, EVENTS, COND, TARGET], &[], Content::Block),
    entry(Element::Onentry, "onentry", &[], &[], Content::Block),
    entry(Element::Onexit, "onexit", &[], &[], Content::Block),
    entry(Element::Raise, "raise", &[EVENT], &[Name::Event], Content::Nothing),
    entry(Element::Log, "log", &[LABEL], &[Name::Label], Content::Nothing),
    entry(Element::If, "if", &[COND], &[Name::Cond], Content::Block),
    entry(Element::Elseif, "elseif", &[COND], &[Name::Cond], Content::Nothing),
    entry(Element::Else, "else", &[], &[], Content::Nothing),
    entry(Element::Send, "send", &[ID, EVENT, DELAY], &[Name::Event], Content::Nothing),
    entry(Element::Cancel, "cancel", &[SENDID], &[Name::Sendid], Content::Nothing),
];

const UNDER_ROW: [Element; 7] = [
    Element::State,
    Element::Parallel,
    Element::Final,
    Element::History,
    Element::Transition,
    Element::Onentry,
    Element::Onexit,
];
const UNDER_STATE: [Element; 8] = [
    Element::Initial,
    Element::State,
    Element::Parallel,
    Element::Final,
    Element::History,
    Element::Transition,
    Element::Onentry,
    Element::Onexit,
];

impl Content {
    /// The elements that may stand there; of a state's, the initial element only once.
    pub fn elements(self) -> &'static [Element] {
        match self {
            Content::Row => &UNDER_ROW,
            Content::State => &UNDER_STATE,
            Content::Entering => &[Element::Entering],
            Content::Block => &ACTIONS,
            Content::Nothing => &[],
        }
    }
}

impl Element {
    pub fn entry(self) -> &'static Entry {
        ENTRIES.iter().find(|entry| entry.element == self).expect("every element has an entry")
    }

    /// The kind of the row that an element is, if it is one; a history is shallow by default.
    pub fn row_kind(self) -> Option<Kind> {
        match self {
            Element::Scxml => Some(Kind::Root),
            Element::State => Some(Kind::State),
            Element::Parallel => Some(Kind::Parallel),
            Element::Final => Some(Kind::Final),
            Element::History => Some(Kind::ShallowHistory),
            _ => None,
        }
    }
}

impl Name {
    pub fn word(self) -> &'static str {
        match self {
            Name::Xmlns => "xmlns",
            Name::Version => "version",
            Name::Id => "id",
            Name::Initial => "initial",
            Name::Type => "type",
            Name::Event => "event",
            Name::Cond => "cond",
            Name::Target => "target",
            Name::Label => "label",
            Name::Delay => "delay",
            Name::Sendid => "sendid",
        }
    }
}
