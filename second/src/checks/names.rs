//! Names, descriptors, ids and matching, against slower definitions of the same.

use super::Check;
use crate::invariants::{ensure, Found};
use crate::names::*;

pub fn checks() -> Vec<Check> {
    vec![
        Check::new("names: every byte at every place of short names", every_byte_everywhere),
        Check::new("names: every short text of a small alphabet", every_short_text),
        Check::new("names: lengths", lengths),
        Check::new("names: slots", slots),
        Check::new("names: ids", ids),
        Check::new("names: matching by hand", matching_by_hand),
        Check::new("names: matching by tokens", matching_by_tokens),
        Check::new("marked run 6: e1.x matches e1, e11 does not", marked_run_6),
    ]
}

/// A name, read byte by byte with the one fact that matters: is the token empty so far?
fn is_name_slowly(text: &[u8]) -> bool {
    let mut token_is_empty = true;
    for &byte in text {
        let letter = b"abcdefghijklmnopqrstuvwxyzABCDEFGHIJKLMNOPQRSTUVWXYZ0123456789-_".contains(&byte);
        if !letter && (byte != b'.' || token_is_empty) {
            return false;
        }
        token_is_empty = byte == b'.';
    }
    !token_is_empty && text.len() < 64
}

fn is_descriptor_slowly(text: &[u8]) -> bool {
    if text == [b'*'] || is_name_slowly(text) {
        return true;
    }
    let length = text.len();
    length > 2 && length < 64 && text[length - 2..] == *b".*" && is_name_slowly(&text[..length - 2])
}

fn is_id_slowly(text: &[u8]) -> bool {
    is_name_slowly(text) && text.len() < 53 && !b"0123456789-".contains(&text[0])
}

fn compare(text: &[u8]) -> Found {
    ensure(is_name(text) == is_name_slowly(text), &format!("name {text:?}"))?;
    ensure(is_descriptor(text) == is_descriptor_slowly(text), &format!("descriptor {text:?}"))?;
    ensure(is_id(text) == is_id_slowly(text), &format!("id {text:?}"))
}

fn every_byte_everywhere() -> Found {
    for text in [&b"a"[..], b"ab", b"a.b", b"a_-9", b"a.b.*", b"ab.cd"] {
        for place in 0..text.len() {
            for byte in 0..=255 {
                let mut changed = text.to_vec();
                changed[place] = byte;
                compare(&changed)?;
            }
        }
    }
    Ok(())
}

fn every_short_text() -> Found {
    const ALPHABET: [u8; 9] = [b'a', b'Z', b'7', b'-', b'_', b'.', b'*', 0, 0x80];
    let mut texts: Vec<Vec<u8>> = vec![Vec::new()];
    for _ in 0..=5 {
        for text in &texts {
            compare(text)?;
        }
        texts = texts
            .iter()
            .flat_map(|text| ALPHABET.iter().map(|&byte| [&text[..], &[byte]].concat()))
            .collect();
        if texts.len() > 60_000 {
            break;
        }
    }
    Ok(())
}

fn lengths() -> Found {
    for length in 0..=130 {
        let text = vec![b'a'; length];
        ensure(is_name(&text) == (1..=63).contains(&length), "a name has 1 to 63 bytes")?;
        ensure(is_id(&text) == (1..=52).contains(&length), "an id has 1 to 52 bytes")?;
        let wildcard = [&text[..], b".*"].concat();
        ensure(is_descriptor(&wildcard) == (1..=61).contains(&length), "63 bytes in all")?;
        ensure(!is_name(&wildcard), "a descriptor with a star is no name")?;
    }
    Ok(())
}

fn slots() -> Found {
    ensure(text_of(&EMPTY_SLOT).is_none(), "an empty slot holds no text")?;
    ensure(text_of(&[b'a'; 64]).is_none(), "a full slot holds no text")?;
    for length in 1..=63 {
        let text = vec![b'a'; length];
        let slot = slot_of(&text);
        ensure(text_of(&slot) == Some(&text[..]), "a slot gives its text back")?;
        for place in length + 1..64 {
            for byte in [1, b'a', 255] {
                let mut changed = slot;
                changed[place] = byte;
                ensure(text_of(&changed).is_none(), "zeros to the slot's end")?;
            }
        }
    }
    Ok(())
}

fn ids() -> Found {
    for byte in 0..=255u8 {
        let begins = byte.is_ascii_alphabetic() || byte == b'_';
        ensure(is_id(&[byte]) == begins, "an id begins with a letter or an underscore")?;
        ensure(is_id(&[byte, b'a']) == begins, "an id begins with a letter or an underscore")?;
    }
    ensure(is_id(b"p.q") && is_id(b"a-1._") && !is_id(b"p."), "ids are names")?;
    ensure(is_name(&done_name(&[b'a'; 52])) && !is_name(&done_name(&[b'a'; 53])), "done names fit")
}

fn matching_by_hand() -> Found {
    let right = [
        ("*", "a"),
        ("*", "a.b.c"),
        ("a", "a"),
        ("a", "a.b"),
        ("a.*", "a"),
        ("a.*", "a.b.c"),
        ("a.b", "a.b"),
        ("a.b", "a.b.c"),
        ("a.b.*", "a.b"),
        ("done.state", "done.state.p"),
        ("done.state.p", "done.state.p.q"),
        ("error", "error.send.failed"),
    ];
    let wrong = [
        ("a", "ab"),
        ("a", "b"),
        ("a.b", "a"),
        ("a.b", "a.bc"),
        ("a.*", "ab"),
        ("a.b.*", "a"),
        ("error", "errors.my.custom"),
        ("error", "errorhandler.mistake"),
        ("A", "a"),
        ("e", "E"),
        ("a-b", "a.b"),
        ("a.b.c", "a.b"),
    ];
    for (descriptor, event) in right {
        ensure(matches(descriptor.as_bytes(), event.as_bytes()), &format!("{descriptor} matches {event}"))?;
    }
    for (descriptor, event) in wrong {
        ensure(!matches(descriptor.as_bytes(), event.as_bytes()), &format!("{descriptor} is not {event}"))?;
    }
    Ok(())
}

fn tokens(text: &[u8]) -> Vec<&[u8]> {
    text.split(|&byte| byte == b'.').collect()
}

fn matches_by_tokens(descriptor: &[u8], event: &[u8]) -> bool {
    let mut wanted = tokens(descriptor);
    if wanted.last() == Some(&&b"*"[..]) {
        wanted.pop();
    }
    tokens(event).starts_with(&wanted)
}

fn matching_by_tokens() -> Found {
    let words: [&[u8]; 4] = [b"a", b"b", b"ab", b"aa"];
    let mut names: Vec<Vec<u8>> = words.iter().map(|word| word.to_vec()).collect();
    for depth in 0..2 {
        let longer: Vec<Vec<u8>> = names
            .iter()
            .filter(|name| tokens(name).len() == depth + 1)
            .flat_map(|name| words.iter().map(move |word| [&name[..], b".", word].concat()))
            .collect();
        names.extend(longer);
    }
    let mut descriptors = names.clone();
    descriptors.extend(names.iter().map(|name| [&name[..], b".*"].concat()));
    descriptors.push(b"*".to_vec());
    for descriptor in &descriptors {
        for name in &names {
            let same = matches(descriptor, name) == matches_by_tokens(descriptor, name);
            ensure(same, &format!("{descriptor:?} on {name:?}"))?;
        }
    }
    Ok(())
}

fn marked_run_6() -> Found {
    ensure(matches(b"e1", b"e1.x"), "e1.x matches e1")?;
    ensure(!matches(b"e1", b"e11"), "e11 does not match e1")
}
