//! The lent tables, and the chart that they spell.

use crate::limits::*;
use crate::names::{text_of, Slot};
use crate::numbers::{NameNumber, RowNumber, TransitionNumber};

#[derive(Clone, Copy, PartialEq, Eq, Debug, Hash)]
pub enum Kind {
    Root,
    State,
    Parallel,
    Final,
    ShallowHistory,
    DeepHistory,
}

impl Kind {
    pub const ALL: [Kind; 6] =
        [Kind::Root, Kind::State, Kind::Parallel, Kind::Final, Kind::ShallowHistory, Kind::DeepHistory];

    pub fn number(self) -> u64 {
        self as u64
    }

    pub fn from_number(number: u64) -> Option<Kind> {
        Kind::ALL.into_iter().find(|kind| kind.number() == number)
    }

    pub fn is_history(self) -> bool {
        matches!(self, Kind::ShallowHistory | Kind::DeepHistory)
    }
}

#[derive(Clone, Copy, PartialEq, Eq, Debug)]
pub enum TransitionType {
    External,
    Internal,
}

/// "raise a named event, or host action 0 to 65,535"; those of R-5: if and elseif "with In as the
/// condition", else, and the end of an if; those of R-9: "send (event, delay 0 to 4,294,967,295 ticks,
/// optional send id) and cancel (send id)".
#[derive(Clone, Copy, PartialEq, Eq, Debug)]
pub enum Action {
    Raise(NameNumber),
    Host(u16),
    If(RowNumber),
    ElseIf(RowNumber),
    Else,
    End,
    Send { event: NameNumber, delay: u32, id: Option<NameNumber> },
    Cancel(NameNumber),
}

impl Action {
    /// Whether it stands for itself, and not for a part of an if.
    pub fn is_plain(self) -> bool {
        matches!(self, Action::Raise(_) | Action::Host(_) | Action::Send { .. } | Action::Cancel(_))
    }
}

#[derive(Clone, PartialEq, Eq, Debug)]
pub struct Row {
    pub kind: Kind,
    pub parent: Option<RowNumber>,
    pub id: Option<NameNumber>,
    pub entry: Vec<Action>,
    pub exit: Vec<Action>,
    /// The initial list of the root or a compound state, the default list of a history.
    pub list: Vec<RowNumber>,
    /// The block of that list.
    pub block: Vec<Action>,
}

#[derive(Clone, PartialEq, Eq, Debug)]
pub struct Transition {
    pub source: RowNumber,
    pub descriptors: Vec<NameNumber>,
    pub condition: Option<RowNumber>,
    pub kind: TransitionType,
    pub targets: Vec<RowNumber>,
    pub block: Vec<Action>,
}

#[derive(Clone, PartialEq, Eq, Debug, Default)]
pub struct Chart {
    pub rows: Vec<Row>,
    pub transitions: Vec<Transition>,
    pub names: Vec<Slot>,
}

impl Chart {
    pub fn row(&self, row: RowNumber) -> &Row {
        &self.rows[row.0]
    }

    pub fn kind(&self, row: RowNumber) -> Kind {
        self.rows[row.0].kind
    }

    pub fn transition(&self, transition: TransitionNumber) -> &Transition {
        &self.transitions[transition.0]
    }

    /// The bytes of a name; no bytes for a slot that holds no text.
    pub fn name(&self, name: NameNumber) -> &[u8] {
        text_of(&self.names[name.0]).unwrap_or(&[])
    }

    pub fn id(&self, row: RowNumber) -> &[u8] {
        self.row(row).id.map_or(&[], |name| self.name(name))
    }

    pub fn row_numbers(&self) -> impl Iterator<Item = RowNumber> {
        (0..self.rows.len()).map(RowNumber)
    }

    pub fn transition_numbers(&self) -> impl Iterator<Item = TransitionNumber> {
        (0..self.transitions.len()).map(TransitionNumber)
    }
}

/// The tables of numbers behind the header, in their order.
#[derive(Clone, Copy, PartialEq, Eq, Debug)]
pub enum Table {
    Rows,
    Transitions,
    References,
    Descriptors,
    Actions,
}

/// The six counts of the header.
#[derive(Clone, Copy, PartialEq, Eq, Debug)]
pub struct Counts {
    pub rows: usize,
    pub transitions: usize,
    pub references: usize,
    pub descriptors: usize,
    pub actions: usize,
    pub slots: usize,
}

impl Counts {
    /// The counts, if there is a header and "counts as above" holds of it. All are small after
    /// this, so that nothing below can overflow.
    pub fn read(numbers: &[u64]) -> Option<Counts> {
        let header = numbers.get(..HEADER_CELLS)?;
        let greatest = [MAX_ROWS, MAX_TRANSITIONS, MAX_REFERENCES, MAX_DESCRIPTORS, MAX_ACTIONS, MAX_SLOTS];
        let within = header.iter().zip(greatest).all(|(&count, limit)| count <= limit);
        if !within || header[0] == 0 {
            return None;
        }
        Some(Counts {
            rows: header[0] as usize,
            transitions: header[1] as usize,
            references: header[2] as usize,
            descriptors: header[3] as usize,
            actions: header[4] as usize,
            slots: header[5] as usize,
        })
    }

    fn row_table(&self) -> usize {
        HEADER_CELLS
    }

    fn transition_table(&self) -> usize {
        self.row_table() + ROW_CELLS * self.rows
    }

    fn reference_table(&self) -> usize {
        self.transition_table() + TRANSITION_CELLS * self.transitions
    }

    fn descriptor_table(&self) -> usize {
        self.reference_table() + REFERENCE_CELLS * self.references
    }

    fn action_table(&self) -> usize {
        self.descriptor_table() + DESCRIPTOR_CELLS * self.descriptors
    }

    /// Where the cells of one table are, and how many it has to a line.
    pub fn cell(&self, table: Table, line: usize, column: usize) -> usize {
        let (start, width) = match table {
            Table::Rows => (self.row_table(), ROW_CELLS),
            Table::Transitions => (self.transition_table(), TRANSITION_CELLS),
            Table::References => (self.reference_table(), REFERENCE_CELLS),
            Table::Descriptors => (self.descriptor_table(), DESCRIPTOR_CELLS),
            Table::Actions => (self.action_table(), ACTION_CELLS),
        };
        start + width * line + column
    }

    /// The exact length of the table of numbers.
    pub fn numbers_length(&self) -> usize {
        self.action_table() + ACTION_CELLS * self.actions
    }

    /// The exact length of the table of names.
    pub fn names_length(&self) -> usize {
        SLOT_BYTES * self.slots
    }

    /// The exact length of the place lent for the compiled chart's numbers.
    pub fn compiled_length(&self) -> usize {
        self.numbers_length()
            + COMPILED_SETS_OF_ROW * ROW_SET_WORDS * self.rows
            + COMPILED_SETS_OF_TRANSITION * ROW_SET_WORDS * self.transitions
    }
}

/// A start and a count in one of the tables.
#[derive(Clone, Copy, PartialEq, Eq, Debug)]
pub struct Span {
    pub start: u64,
    pub count: u64,
}

impl Span {
    /// "every list inside its table".
    pub fn is_inside(self, table: usize) -> bool {
        self.start.checked_add(self.count).is_some_and(|end| end <= table as u64)
    }
}

/// One row of the row table, as it is spelt.
#[derive(Clone, Copy, Debug)]
pub struct RawRow {
    pub kind: u64,
    pub parent: u64,
    pub id: u64,
    pub entry: Span,
    pub exit: Span,
    pub list: Span,
    pub block: Span,
}

#[derive(Clone, Copy, Debug)]
pub struct RawTransition {
    pub source: u64,
    pub descriptors: Span,
    pub condition: u64,
    pub kind: u64,
    pub targets: Span,
    pub block: Span,
}

#[derive(Clone, Copy, Debug)]
pub struct RawAction {
    pub what: u64,
    pub argument: u64,
    pub delay: u64,
    pub send_id: u64,
}

/// Tables whose lengths fit their own header. Nothing else is known of them.
#[derive(Clone, Copy)]
pub struct Tables<'a> {
    pub counts: Counts,
    numbers: &'a [u64],
    names: &'a [u8],
}

fn span(cells: &[u64]) -> Span {
    Span { start: cells[0], count: cells[1] }
}

impl<'a> Tables<'a> {
    pub fn read(numbers: &'a [u64], names: &'a [u8]) -> Option<Tables<'a>> {
        let counts = Counts::read(numbers)?;
        let fits = numbers.len() == counts.numbers_length() && names.len() == counts.names_length();
        fits.then_some(Tables { counts, numbers, names })
    }

    pub fn row(&self, row: usize) -> RawRow {
        let cells = &self.numbers[self.counts.row_table() + ROW_CELLS * row..][..ROW_CELLS];
        RawRow {
            kind: cells[0],
            parent: cells[1],
            id: cells[2],
            entry: span(&cells[3..5]),
            exit: span(&cells[5..7]),
            list: span(&cells[7..9]),
            block: span(&cells[9..11]),
        }
    }

    pub fn transition(&self, transition: usize) -> RawTransition {
        let start = self.counts.transition_table() + TRANSITION_CELLS * transition;
        let cells = &self.numbers[start..][..TRANSITION_CELLS];
        RawTransition {
            source: cells[0],
            descriptors: span(&cells[1..3]),
            condition: cells[3],
            kind: cells[4],
            targets: span(&cells[5..7]),
            block: span(&cells[7..9]),
        }
    }

    pub fn references(&self) -> &'a [u64] {
        &self.numbers[self.counts.reference_table()..self.counts.descriptor_table()]
    }

    pub fn descriptors(&self) -> &'a [u64] {
        &self.numbers[self.counts.descriptor_table()..self.counts.action_table()]
    }

    pub fn action(&self, action: usize) -> RawAction {
        let start = self.counts.action_table() + ACTION_CELLS * action;
        let cells = &self.numbers[start..][..ACTION_CELLS];
        RawAction { what: cells[0], argument: cells[1], delay: cells[2], send_id: cells[3] }
    }

    pub fn slot(&self, name: usize) -> &'a [u8] {
        &self.names[SLOT_BYTES * name..][..SLOT_BYTES]
    }

    /// The chart that tables spell that keep rule 1; before that rule is known, this may panic.
    pub fn decode(&self) -> Chart {
        Chart {
            rows: (0..self.counts.rows).map(|row| self.decode_row(row)).collect(),
            transitions: (0..self.counts.transitions)
                .map(|transition| self.decode_transition(transition))
                .collect(),
            names: (0..self.counts.slots).map(|name| self.decode_slot(name)).collect(),
        }
    }

    fn decode_row(&self, row: usize) -> Row {
        let raw = self.row(row);
        Row {
            kind: Kind::from_number(raw.kind).expect("rule 1 bounds the kind"),
            parent: some_row(raw.parent),
            id: some_name(raw.id),
            entry: self.decode_block(raw.entry),
            exit: self.decode_block(raw.exit),
            list: self.decode_rows(raw.list),
            block: self.decode_block(raw.block),
        }
    }

    fn decode_transition(&self, transition: usize) -> Transition {
        let raw = self.transition(transition);
        let descriptors = &self.descriptors()[range(raw.descriptors)];
        Transition {
            source: RowNumber(raw.source as usize),
            descriptors: descriptors.iter().map(|&name| NameNumber(name as usize)).collect(),
            condition: some_row(raw.condition),
            kind: match raw.kind {
                0 => TransitionType::External,
                _ => TransitionType::Internal,
            },
            targets: self.decode_rows(raw.targets),
            block: self.decode_block(raw.block),
        }
    }

    fn decode_rows(&self, list: Span) -> Vec<RowNumber> {
        self.references()[range(list)].iter().map(|&row| RowNumber(row as usize)).collect()
    }

    fn decode_block(&self, block: Span) -> Vec<Action> {
        range(block).map(|action| self.decode_action(action)).collect()
    }

    pub fn decode_action(&self, action: usize) -> Action {
        let raw = self.action(action);
        match raw.what {
            0 => Action::Raise(NameNumber(raw.argument as usize)),
            1 => Action::Host(raw.argument as u16),
            2 => Action::If(RowNumber(raw.argument as usize)),
            3 => Action::ElseIf(RowNumber(raw.argument as usize)),
            4 => Action::Else,
            5 => Action::End,
            6 => Action::Send {
                event: NameNumber(raw.argument as usize),
                delay: raw.delay as u32,
                id: some_name(raw.send_id),
            },
            _ => Action::Cancel(NameNumber(raw.argument as usize)),
        }
    }

    fn decode_slot(&self, name: usize) -> Slot {
        let mut slot = [0; SLOT_BYTES];
        slot.copy_from_slice(self.slot(name));
        slot
    }
}

fn range(span: Span) -> std::ops::Range<usize> {
    span.start as usize..(span.start + span.count) as usize
}

fn some_row(number: u64) -> Option<RowNumber> {
    (number != NONE).then_some(RowNumber(number as usize))
}

fn some_name(number: u64) -> Option<NameNumber> {
    (number != NONE).then_some(NameNumber(number as usize))
}
