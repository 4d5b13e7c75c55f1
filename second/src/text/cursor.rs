//! A place in a text that moves on over what the grammar allows, and stops where it does not.

use super::elements::Form;
use super::values::ENTITIES;

/// A place in the text, counted in bytes from 0.
pub type Offset = usize;

pub struct Cursor<'a> {
    pub text: &'a [u8],
    pub at: Offset,
}

fn is_blank(byte: u8) -> bool {
    matches!(byte, b' ' | b'\t' | b'\n' | b'\r')
}

/// "Plain ASCII only", of which XML allows these.
fn is_char(byte: u8) -> bool {
    is_blank(byte) || (32..128).contains(&byte)
}

fn is_token_byte(byte: u8) -> bool {
    byte.is_ascii_alphanumeric() || byte == b'-' || byte == b'_'
}

impl Cursor<'_> {
    pub fn peek(&self) -> Option<u8> {
        self.text.get(self.at).copied()
    }

    pub fn expect(&mut self, wanted: u8) -> Result<(), Offset> {
        match self.peek() == Some(wanted) {
            true => self.at += 1,
            false => return Err(self.at),
        }
        Ok(())
    }

    /// Skips white space; whether there was any.
    pub fn blanks(&mut self) -> bool {
        let from = self.at;
        while self.peek().is_some_and(is_blank) {
            self.at += 1;
        }
        self.at > from
    }

    /// Reads the longest of the words that stands here, and answers its number.
    pub fn word(&mut self, words: &[&str]) -> Result<usize, Offset> {
        let from = self.at;
        let mut left: Vec<usize> = (0..words.len()).collect();
        loop {
            let read = self.at - from;
            let next = self.peek();
            let go_on: Vec<usize> = left
                .iter()
                .copied()
                .filter(|&word| next.is_some() && words[word].as_bytes().get(read).copied() == next)
                .collect();
            if go_on.is_empty() {
                return left.into_iter().find(|&word| words[word].len() == read).ok_or(self.at);
            }
            left = go_on;
            self.at += 1;
        }
    }

    pub fn char(&mut self) -> Result<u8, Offset> {
        let byte = self.peek().filter(|&byte| is_char(byte)).ok_or(self.at)?;
        self.at += 1;
        Ok(byte)
    }

    pub fn quoted(&mut self, form: Form) -> Result<(Offset, Offset), Offset> {
        let quote = self.peek().filter(|quote| matches!(quote, b'"' | b'\'')).ok_or(self.at)?;
        self.at += 1;
        let start = self.at;
        match form {
            Form::Name => self.name(false)?,
            Form::References => self.list(quote, |cursor| cursor.name(false))?,
            Form::Descriptors => self.list(quote, |cursor| cursor.descriptor())?,
            Form::Free => self.free(quote)?,
        }
        let end = self.at;
        self.expect(quote)?;
        Ok((start, end))
    }

    /// Tokens with single dots between them; where a star may be the last, up to that.
    fn name(&mut self, star: bool) -> Result<(), Offset> {
        loop {
            let from = self.at;
            while self.peek().is_some_and(is_token_byte) {
                self.at += 1;
            }
            if self.at == from {
                return Err(from);
            }
            if self.peek() != Some(b'.') {
                return Ok(());
            }
            self.at += 1;
            if star && self.peek() == Some(b'*') {
                self.at += 1;
                return Ok(());
            }
        }
    }

    fn descriptor(&mut self) -> Result<(), Offset> {
        match self.peek() {
            Some(b'*') => {
                self.at += 1;
                Ok(())
            }
            _ => self.name(true),
        }
    }

    /// At least one item, white space between items and around them.
    fn list(&mut self, quote: u8, item: impl Fn(&mut Self) -> Result<(), Offset>) -> Result<(), Offset> {
        self.blanks();
        loop {
            item(self)?;
            let spaced = self.blanks();
            if self.peek() == Some(quote) {
                return Ok(());
            }
            if !spaced {
                return Err(self.at);
            }
        }
    }

    fn free(&mut self, quote: u8) -> Result<(), Offset> {
        loop {
            match self.peek() {
                Some(byte) if byte == quote => return Ok(()),
                Some(b'&') => {
                    self.at += 1;
                    self.word(&ENTITIES.map(|(word, _)| word))?;
                }
                Some(byte) if is_char(byte) && byte != b'<' => self.at += 1,
                _ => return Err(self.at),
            }
        }
    }
}
