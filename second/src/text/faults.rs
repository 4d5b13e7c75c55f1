//! The second stage of reading: the faults that a text of the grammar is searched for.

use super::cursor::Offset;
use super::elements::{Element, Form, Name};
use super::scan::{Attribute, Mark, Tag};
use super::values::{condition, delay, items, label, HISTORY_TYPES, NAMESPACE, TRANSITION_TYPES, VERSION};
use crate::limits::MAX_NAME_BYTES;
use std::collections::HashSet;

pub fn tags(marks: &[Mark]) -> impl Iterator<Item = &Tag> {
    marks.iter().filter_map(|mark| match mark {
        Mark::Open(tag) => Some(tag),
        Mark::Close => None,
    })
}

/// Whether an element is a row that must state an id.
fn is_named_row(element: Element) -> bool {
    element != Element::Scxml && element.row_kind().is_some()
}

/// The place of the first fault, if there is one.
pub fn first_fault(text: &[u8], marks: &[Mark]) -> Option<Offset> {
    let rows = tags(marks).filter(|tag| is_named_row(tag.element));
    let ids = rows.filter_map(|tag| tag.attribute(Name::Id)).map(|id| &text[id.start..id.end]).collect();
    let search = Search { text, ids };
    tags(marks).flat_map(|tag| search.faults(tag)).min()
}

struct Search<'a> {
    text: &'a [u8],
    ids: HashSet<&'a [u8]>,
}

impl Search<'_> {
    fn faults(&self, tag: &Tag) -> Vec<Offset> {
        let nameless = is_named_row(tag.element) && tag.attribute(Name::Id).is_none();
        let missing = nameless.then_some(tag.at);
        let values = tag.attributes.iter().flat_map(|&attribute| self.faults_of(tag.element, attribute));
        missing.into_iter().chain(values).collect()
    }

    fn faults_of(&self, element: Element, attribute: Attribute) -> Vec<Offset> {
        let Attribute { form, start, end, .. } = attribute;
        let listed = items(self.text, start, end).into_iter();
        let is_faulty = |item: &[u8]| match form {
            Form::References => !self.is_reference(item),
            _ => item.len() > MAX_NAME_BYTES,
        };
        match form {
            Form::Free => self.fault_of_free(element, attribute).into_iter().collect(),
            _ => listed.filter(|(_, item)| is_faulty(item)).map(|(place, _)| place).collect(),
        }
    }

    /// "A reference to an id .. that does not exist, or a name or descriptor over 63 bytes".
    fn is_reference(&self, item: &[u8]) -> bool {
        item.len() <= MAX_NAME_BYTES && self.ids.contains(item)
    }

    /// A value that does not exist is a fault at its first byte, an id in a condition at that of the id.
    fn fault_of_free(&self, element: Element, attribute: Attribute) -> Option<Offset> {
        let Attribute { name, start, end, .. } = attribute;
        let value = &self.text[start..end];
        let exists = match name {
            Name::Xmlns => value == NAMESPACE,
            Name::Version => value == VERSION,
            Name::Type if element == Element::History => HISTORY_TYPES.contains(&value),
            Name::Type => TRANSITION_TYPES.contains(&value),
            Name::Label => label(value).is_some(),
            Name::Delay => delay(value).is_some(),
            Name::Cond => match condition(self.text, start, end) {
                Some((place, id)) => return (!self.is_reference(&id)).then_some(place),
                None => false,
            },
            Name::Id | Name::Initial | Name::Event | Name::Target | Name::Sendid => true,
        };
        (!exists).then_some(start)
    }
}
