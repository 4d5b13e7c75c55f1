//! The first stage of reading: the tags of a text of the grammar, or the place where it leaves it.

use super::cursor::{Cursor, Offset};
use super::elements::{Content, Element, Form, Name};
use super::recogniser::MAX_TEXT;

/// An attribute and the part of the text between its quotes.
#[derive(Clone, Copy, PartialEq, Eq, Debug)]
pub struct Attribute {
    pub name: Name,
    pub form: Form,
    pub start: Offset,
    pub end: Offset,
}

#[derive(Clone, PartialEq, Eq, Debug)]
pub struct Tag {
    pub element: Element,
    /// Where its "<" stands.
    pub at: Offset,
    /// In the order of the text.
    pub attributes: Vec<Attribute>,
}

impl Tag {
    pub fn attribute(&self, name: Name) -> Option<Attribute> {
        self.attributes.iter().copied().find(|attribute| attribute.name == name)
    }
}

#[derive(Clone, PartialEq, Eq, Debug)]
pub enum Mark {
    Open(Tag),
    Close,
}

/// The tags of a text of the grammar and of at most 32,768 bytes; else "the first byte that no text of
/// the grammar has there, at its end or at 32,768, whichever is first".
pub fn scan(text: &[u8]) -> Result<Vec<Mark>, Offset> {
    let seen = &text[..text.len().min(MAX_TEXT)];
    let mut scanner = Scanner { cursor: Cursor { text: seen, at: 0 }, open: Vec::new(), marks: Vec::new() };
    scanner.document()?;
    match text.len() > MAX_TEXT {
        true => Err(MAX_TEXT),
        false => Ok(scanner.marks),
    }
}

/// An element whose end tag is still to come.
struct Open {
    element: Element,
    /// Whether an initial element, or the transition of one, may still come.
    once_more: bool,
}

struct Scanner<'a> {
    cursor: Cursor<'a>,
    open: Vec<Open>,
    marks: Vec<Mark>,
}

impl Scanner<'_> {
    // Between tags

    fn document(&mut self) -> Result<(), Offset> {
        loop {
            self.cursor.blanks();
            match self.cursor.peek() {
                None if self.open.is_empty() && !self.marks.is_empty() => return Ok(()),
                Some(b'<') => self.markup()?,
                _ => return Err(self.cursor.at),
            }
        }
    }

    fn markup(&mut self) -> Result<(), Offset> {
        let at = self.cursor.at;
        self.cursor.at += 1;
        match self.cursor.peek() {
            Some(b'!') => self.comment(),
            Some(b'/') if self.may_close() => self.end_tag(),
            _ => self.start_tag(at),
        }
    }

    /// "--" is in a comment only as part of its end.
    fn comment(&mut self) -> Result<(), Offset> {
        for byte in *b"!--" {
            self.cursor.expect(byte)?;
        }
        loop {
            let dash = self.cursor.char()? == b'-';
            if dash && self.cursor.char()? == b'-' {
                return self.cursor.expect(b'>');
            }
        }
    }

    fn may_close(&self) -> bool {
        self.open.last().is_some_and(|open| !(open.element == Element::Initial && open.once_more))
    }

    fn end_tag(&mut self) -> Result<(), Offset> {
        self.cursor.at += 1;
        let open = self.open.pop().expect("an element is open");
        self.cursor.word(&[open.element.entry().word])?;
        self.cursor.blanks();
        self.cursor.expect(b'>')?;
        self.marks.push(Mark::Close);
        Ok(())
    }

    /// The elements whose start tags may stand here.
    fn possible(&self) -> Vec<Element> {
        let Some(open) = self.open.last() else {
            return if self.marks.is_empty() { vec![Element::Scxml] } else { Vec::new() };
        };
        let elements = open.element.entry().content.elements().iter().copied();
        elements.filter(|&element| open.once_more || !comes_once(element)).collect()
    }

    // Inside a tag

    fn start_tag(&mut self, at: Offset) -> Result<(), Offset> {
        let possible = self.possible();
        let words: Vec<&str> = possible.iter().map(|element| element.entry().word).collect();
        let element = possible[self.cursor.word(&words)?];
        if let (true, Some(parent)) = (comes_once(element), self.open.last_mut()) {
            parent.once_more = false;
        }
        let mut tag = Tag { element, at, attributes: Vec::new() };
        while self.attribute(&mut tag)? {}
        self.end_of_start_tag(tag)
    }

    /// Reads one attribute, if one comes before the tag's end.
    fn attribute(&mut self, tag: &mut Tag) -> Result<bool, Offset> {
        let spaced = self.cursor.blanks();
        if matches!(self.cursor.peek(), Some(b'/' | b'>')) {
            return Ok(false);
        }
        if !spaced {
            return Err(self.cursor.at);
        }
        let listed = tag.element.entry().attributes.iter().copied();
        let left: Vec<(Name, Form)> = listed.filter(|&(name, _)| tag.attribute(name).is_none()).collect();
        let words: Vec<&str> = left.iter().map(|(name, _)| name.word()).collect();
        let (name, form) = left[self.cursor.word(&words)?];
        self.cursor.blanks();
        self.cursor.expect(b'=')?;
        self.cursor.blanks();
        let (start, end) = self.cursor.quoted(form)?;
        tag.attributes.push(Attribute { name, form, start, end });
        Ok(true)
    }

    fn end_of_start_tag(&mut self, tag: Tag) -> Result<(), Offset> {
        let entry = tag.element.entry();
        let complete = entry.required.iter().all(|&name| tag.attribute(name).is_some());
        let empty = self.cursor.peek() == Some(b'/');
        if !complete || (empty && entry.content == Content::Entering) {
            return Err(self.cursor.at);
        }
        self.cursor.at += usize::from(empty);
        self.cursor.expect(b'>')?;
        let once_more = entry.content == Content::Entering || tag.attribute(Name::Initial).is_none();
        let element = tag.element;
        self.marks.push(Mark::Open(tag));
        match empty {
            true => self.marks.push(Mark::Close),
            false => self.open.push(Open { element, once_more }),
        }
        Ok(())
    }
}

/// An initial element stands once in its state, its transition once in it.
fn comes_once(element: Element) -> bool {
    matches!(element, Element::Initial | Element::Entering)
}
