//! Names, descriptors and ids, and how a descriptor matches an event's name.

use crate::limits::{DONE_PREFIX, MAX_ID_BYTES, MAX_NAME_BYTES, SLOT_BYTES};

pub type Slot = [u8; SLOT_BYTES];

pub const EMPTY_SLOT: Slot = [0; SLOT_BYTES];

/// "Name bytes: letters, digits, '-', '_', '.'."
fn is_name_byte(byte: u8) -> bool {
    byte.is_ascii_alphanumeric() || byte == b'-' || byte == b'_' || byte == b'.'
}

/// "A name has 1 to 63 bytes ... No token is empty." The empty text has one empty token.
pub fn is_name(text: &[u8]) -> bool {
    text.len() <= MAX_NAME_BYTES
        && text.iter().all(|&byte| is_name_byte(byte))
        && text.split(|&byte| byte == b'.').all(|token| !token.is_empty())
}

/// "A descriptor is '*', a name, or a name with '.*' after it (63 bytes in all)."
pub fn is_descriptor(text: &[u8]) -> bool {
    if text.len() > MAX_NAME_BYTES {
        return false;
    }
    text == b"*" || is_name(text.strip_suffix(b".*").unwrap_or(text))
}

/// "every row's id has at most 52. It begins with a letter or '_'".
pub fn is_id(text: &[u8]) -> bool {
    let begins_well = text.first().is_some_and(|&byte| byte.is_ascii_alphabetic() || byte == b'_');
    begins_well && is_name(text) && text.len() <= MAX_ID_BYTES
}

/// The text of a slot, if it has 1 to 63 bytes and "then zeros to the slot's end".
pub fn text_of(slot: &[u8]) -> Option<&[u8]> {
    let length = slot.iter().position(|&byte| byte == 0)?;
    let rest_is_zero = slot[length..].iter().all(|&byte| byte == 0);
    (length > 0 && rest_is_zero).then(|| &slot[..length])
}

pub fn slot_holds_name(slot: &[u8]) -> bool {
    text_of(slot).is_some_and(is_name)
}

pub fn slot_holds_descriptor(slot: &[u8]) -> bool {
    text_of(slot).is_some_and(is_descriptor)
}

pub fn slot_holds_id(slot: &[u8]) -> bool {
    text_of(slot).is_some_and(is_id)
}

/// The slot that holds a text of at most 63 bytes.
pub fn slot_of(text: &[u8]) -> Slot {
    let mut slot = EMPTY_SLOT;
    slot[..text.len()].copy_from_slice(text);
    slot
}

/// The name of the done event of the row with this id.
pub fn done_name(id: &[u8]) -> Vec<u8> {
    [DONE_PREFIX, id].concat()
}

/// "a descriptor without its '.*' matches a name whose first tokens are its tokens; '*' matches
/// all."
pub fn matches(descriptor: &[u8], event: &[u8]) -> bool {
    if descriptor == b"*" {
        return true;
    }
    let wanted = descriptor.strip_suffix(b".*").unwrap_or(descriptor);
    match event.strip_prefix(wanted) {
        Some(rest) => rest.is_empty() || rest[0] == b'.',
        None => false,
    }
}
