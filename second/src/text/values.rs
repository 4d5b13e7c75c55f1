//! What values mean: "A reference to an id or attribute value that does not exist".

use super::cursor::Offset;

/// "the five predefined entities", without their "&".
pub const ENTITIES: [(&str, u8); 5] =
    [("amp;", b'&'), ("lt;", b'<'), ("gt;", b'>'), ("quot;", b'"'), ("apos;", b'\'')];

pub const NAMESPACE: &[u8] = b"http://www.w3.org/2005/07/scxml";
pub const VERSION: &[u8] = b"1.0";
pub const TRANSITION_TYPES: [&[u8]; 2] = [b"external", b"internal"];
pub const HISTORY_TYPES: [&[u8]; 2] = [b"shallow", b"deep"];

/// "the defaults text ('external', 'shallow')".
pub const DEFAULTS: &[u8] = b"external shallow";
pub const EXTERNAL: std::ops::Range<usize> = 0..8;
pub const SHALLOW: std::ops::Range<usize> = 9..16;

/// The items of a list with their places, which are counted from the text's beginning.
pub fn items(text: &[u8], start: Offset, end: Offset) -> Vec<(Offset, &[u8])> {
    let value = &text[start..end];
    let blank = |byte: &u8| matches!(byte, b' ' | b'\t' | b'\n' | b'\r');
    let pieces = value.split(blank).filter(|item| !item.is_empty());
    pieces.map(|item| (start + place_in(value, item), item)).collect()
}

/// Where a part of a text begins in it.
fn place_in(text: &[u8], part: &[u8]) -> usize {
    part.as_ptr() as usize - text.as_ptr() as usize
}

/// "A log's label is a decimal host action from 0 to 65,535."
pub fn label(value: &[u8]) -> Option<u16> {
    decimal(value).and_then(|number| u16::try_from(number).ok())
}

/// "delay 0 to 4,294,967,295 ticks".
pub fn delay(value: &[u8]) -> Option<u32> {
    decimal(value).and_then(|number| u32::try_from(number).ok())
}

/// The number that digits spell, leading zeros or not; one of more than 32 bits is 2^32.
fn decimal(value: &[u8]) -> Option<u64> {
    let digits = !value.is_empty() && value.iter().all(u8::is_ascii_digit);
    let add = |number: u64, digit: &u8| (number * 10 + u64::from(digit - b'0')).min(1 << 32);
    digits.then(|| value.iter().fold(0, add))
}

/// The bytes that a free value stands for, each with its place in the text.
fn without_entities(text: &[u8], start: Offset, end: Offset) -> Vec<(Offset, u8)> {
    let mut bytes = Vec::new();
    let mut at = start;
    while at < end {
        let behind = &text[at + 1..end];
        let entity =
            ENTITIES.iter().find(|(word, _)| text[at] == b'&' && behind.starts_with(word.as_bytes()));
        let (length, byte) = entity.map_or((1, text[at]), |(word, byte)| (1 + word.len(), *byte));
        bytes.push((at, byte));
        at += length;
    }
    bytes
}

/// The id that a value `In('id')` names, and where it stands; its length is not judged.
pub fn condition(text: &[u8], start: Offset, end: Offset) -> Option<(Offset, Vec<u8>)> {
    let read = without_entities(text, start, end);
    let bytes: Vec<u8> = read.iter().map(|&(_, byte)| byte).collect();
    let id = bytes.strip_prefix(b"In('")?.strip_suffix(b"')")?;
    let tokens = id.split(|&byte| byte == b'.');
    let is_token = |token: &[u8]| {
        !token.is_empty()
            && token.iter().all(|&byte| byte.is_ascii_alphanumeric() || matches!(byte, b'-' | b'_'))
    };
    let is_name = tokens.into_iter().all(is_token);
    is_name.then(|| (read[4].0, id.to_vec()))
}
