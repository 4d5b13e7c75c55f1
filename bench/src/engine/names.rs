//! Names in slots of 64 bytes, and how descriptors match them.

pub const SLOT: usize = 64;
const MOST_NAME_BYTES: usize = 63;
const MOST_ID_BYTES: u8 = 52;
const DONE_STATE: &[u8] = b"done.state.";

pub type Slot = [u8; SLOT];

// What a byte may be in a name; a byte that is none of it has no place there.
const FIRST_OF_ID: u8 = 1;
const IN_TOKEN: u8 = 2;
const DOT: u8 = 4;
const OTHER: u8 = 8;

const CLASSES: [u8; 256] = {
    let mut classes = [OTHER; 256];
    let mut byte = 0;
    while byte < 256 {
        classes[byte] = match byte as u8 {
            b'A'..=b'Z' | b'a'..=b'z' | b'_' => IN_TOKEN | FIRST_OF_ID,
            b'0'..=b'9' | b'-' => IN_TOKEN,
            b'.' => DOT,
            _ => OTHER,
        };
        byte += 1;
    }
    classes
};

#[inline]
fn class(byte: u8) -> u8 {
    CLASSES[byte as usize]
}

/// 1 to 63 name bytes, and no token between dots is empty.
#[inline]
pub fn is_name(text: &[u8]) -> bool {
    let mut last = DOT;
    let mut wrong = 0;
    for &byte in text {
        let found = class(byte);
        wrong |= found & OTHER | found & last & DOT;
        last = found;
    }
    wrong == 0 && last != DOT && text.len() <= MOST_NAME_BYTES
}

#[inline]
fn words(slot: &Slot) -> [u64; SLOT / HEAD] {
    let words: &[[u8; HEAD]] = slot.as_chunks().0;
    std::array::from_fn(|place| u64::from_le_bytes(words[place]))
}

/// All that stands in front of the zeros at the slot's end. A name is short mostly, so that all is in
/// the first word.
#[inline]
fn text_of(slot: &Slot) -> &[u8] {
    let [head, rest @ ..] = words(slot);
    let length = |word: u64| HEAD - word.leading_zeros() as usize / 8;
    if rest.iter().fold(0, |bits, word| bits | word) == 0 {
        return &slot[..length(head)];
    }
    let last = rest.iter().rposition(|&word| word != 0).unwrap_or(0);
    &slot[..HEAD * (last + 1) + length(rest[last])]
}

/// A name, and behind it zeros alone: since no name has a zero in it.
pub fn holds_name(slot: &Slot) -> bool {
    is_name(text_of(slot))
}

/// What a slot holds: how long the name is that an event has to begin with to match it, and whether
/// the slot holds a star, so that it is a descriptor and no name. All zeros for "*".
#[derive(Clone, Copy)]
pub struct Spelling(u8);

const STAR: u8 = 128;

impl Spelling {
    pub const STAR_ALONE: Spelling = Spelling(STAR);

    /// Nothing, if the slot holds no descriptor.
    #[inline]
    pub fn of(slot: &Slot) -> Option<Spelling> {
        let text = text_of(slot);
        if is_name(text) {
            return Some(Spelling(text.len() as u8));
        }
        match text {
            b"*" => Some(Spelling::STAR_ALONE),
            [name @ .., b'.', b'*'] if text.len() < SLOT && is_name(name) => {
                Some(Spelling(name.len() as u8 | STAR))
            }
            _ => None,
        }
    }

    #[inline]
    pub fn is_name(self) -> bool {
        self.0 < STAR
    }

    /// Of the slot that is spelt so.
    #[inline]
    pub fn is_id(self, slot: &Slot) -> bool {
        self.0 <= MOST_ID_BYTES && class(slot[0]) & FIRST_OF_ID != 0
    }

    /// A number for each slot that is spelt so, seldom the same for two.
    #[inline]
    pub fn key(self, slot: &Slot) -> usize {
        let [head, rest @ ..] = words(slot);
        let mixed = match self.0 as usize {
            ..=HEAD => head,
            _ => rest.iter().fold(head, |mixed, word| mixed.rotate_left(23) ^ word),
        };
        (mixed.wrapping_mul(0x9e37_79b9_7f4a_7c15) >> 40) as usize
    }

    /// Whether the descriptor that is spelt so matches the event. The first eight bytes, which tell
    /// most names apart, are compared as a word.
    #[inline]
    pub fn matches(self, descriptor: &Slot, event: &Event) -> bool {
        let length = self.0 as usize % SLOT;
        (event.head ^ head_of(descriptor)) & HEAD_MASKS[length] == 0
            && (length <= HEAD || descriptor[HEAD..length] == event.slot[HEAD..length])
            && (length == 0 || matches!(event.slot[length], 0 | b'.'))
    }
}

/// The name of an event, its first eight bytes as a word.
pub struct Event<'a> {
    slot: &'a Slot,
    head: u64,
}

const HEAD: usize = size_of::<u64>();

/// Which bits of the head belong to a name of this length.
const HEAD_MASKS: [u64; SLOT] = {
    let mut masks = [u64::MAX; SLOT];
    let mut length = 0;
    while length < HEAD {
        masks[length] = !(u64::MAX << (8 * length));
        length += 1;
    }
    masks
};

#[inline]
fn head_of(slot: &Slot) -> u64 {
    let [head, ..] = slot.as_chunks().0 else { unreachable!("a slot has 64 bytes") };
    u64::from_le_bytes(*head)
}

impl<'a> Event<'a> {
    pub fn of(slot: &'a Slot) -> Event<'a> {
        Event { slot, head: head_of(slot) }
    }
}

/// The slot of the done event of the row that has this id.
pub fn done_name(id: &Slot) -> Slot {
    let mut slot = [0; SLOT];
    let (prefix, rest) = slot.split_at_mut(DONE_STATE.len());
    prefix.copy_from_slice(DONE_STATE);
    rest.copy_from_slice(&id[..rest.len()]);
    slot
}
