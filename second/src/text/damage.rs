//! Texts with random damage, most of them no texts of the grammar any more.

use crate::random::Random;

/// Bytes that mean something somewhere, and some that mean nothing anywhere.
pub const BYTES: [u8; 40] = [
    b'<', b'>', b'/', b'!', b'?', b'-', b'_', b'.', b'*', b'=', b'"', b'\'', b'&', b';', b'#', b':', b' ',
    b'\t', b'\n', b'\r', b'a', b'e', b'i', b'l', b'n', b's', b't', b'x', b'I', b'Z', b'0', b'9', b'(', b']',
    0, 11, 31, 127, 128, 255,
];

/// Words that a random text is made of.
const WORDS: [&str; 40] = [
    "<scxml>",
    "</scxml>",
    "<scxml",
    "<state",
    "<parallel",
    "<final",
    "<history",
    "<initial",
    "<transition",
    "<onentry",
    "<onexit",
    "<raise",
    "<log",
    "</state>",
    "</initial>",
    "</transition>",
    "</onentry>",
    "/>",
    ">",
    " id=\"a\"",
    " initial='a b'",
    " type='deep'",
    " event=\"e.* *\"",
    " cond='In(&apos;a&apos;)'",
    " target=\"a\"",
    " label='1'",
    "<!-- - -->",
    " ",
    "\n",
    "</",
    "<if",
    "<elseif",
    "<else",
    "<send",
    "<cancel",
    "</if>",
    " delay='5'",
    " sendid=\"a\"",
    " cond=\"\"",
    "<onexit>",
];

/// The text with one thing changed.
pub fn damaged(text: &[u8], random: &mut Random) -> Vec<u8> {
    let mut next = text.to_vec();
    let at = random.below(text.len());
    let byte = BYTES[random.below(BYTES.len())];
    match random.below(8) {
        0 => next[at] = byte,
        1 => next.insert(at, byte),
        2 => {
            next.remove(at);
        }
        3 if at > 0 => next.swap(at - 1, at),
        4 => next.truncate(at),
        5 => next[at] = (random.number() % 256) as u8,
        6 => {
            let end = random.between(at, text.len().min(at + 60));
            next.drain(at..end);
        }
        _ => {
            let end = random.between(at, text.len().min(at + 60));
            let to = random.below(text.len());
            next.splice(to..to, text[at..end].iter().copied());
        }
    }
    next
}

/// A row of words of the grammar, in no order.
pub fn words(random: &mut Random) -> Vec<u8> {
    let count = random.between(0, 30);
    let mut text = b"<scxml>".to_vec();
    for _ in 0..count {
        text.extend(WORDS[random.below(WORDS.len())].bytes());
    }
    text
}
