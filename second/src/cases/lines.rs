//! What the texts for the programs share: how numbers and names are spelt, what stands in the
//! buffers, sums, and ways to change a cell.

use crate::limits::{MAX_COMPILED, MAX_SLOTS, NONE, SLOT_BYTES};

// Spelling

/// Decimal numbers with a blank between them; 8*0 stands for eight zeros.
pub fn spell_numbers(numbers: &[u64]) -> String {
    let run = |run: &[u64]| match run.len() {
        0..=2 => run.iter().map(u64::to_string).collect::<Vec<_>>().join(" "),
        length => format!("{length}*{}", run[0]),
    };
    numbers.chunk_by(|one, next| one == next).map(run).collect::<Vec<_>>().join(" ")
}

/// Other bytes than printed ones are %, then two digits.
pub fn spell_bytes(bytes: &[u8]) -> String {
    let byte = |&byte: &u8| match byte {
        b'!'..=b'~' if byte != b'%' => char::from(byte).to_string(),
        _ => format!("%{byte:02x}"),
    };
    bytes.iter().map(byte).collect()
}

/// The bytes of each slot before its last zeros, with a blank between two slots.
pub fn spell_slots<'a>(slots: impl Iterator<Item = &'a [u8]>) -> String {
    let slot = |slot: &[u8]| {
        let end = slot.iter().rposition(|&byte| byte != 0).map_or(1, |last| last + 1);
        spell_bytes(&slot[..end])
    };
    slots.map(slot).collect::<Vec<_>>().join(" ")
}

// Buffers

/// The places are lent from here on in buffers of these lengths, so that something stands before
/// and behind them.
pub const GUARD: usize = 8;
pub const BUFFER_WORDS: usize = MAX_COMPILED + MORE;
pub const BUFFER_BYTES: usize = SLOT_BYTES * MAX_SLOTS as usize + MORE;
/// More than the greatest chart needs.
const MORE: usize = 256;
/// What stands in the buffers before they are written: each word and each byte another.
const FILLER: u64 = 0xa5a5_a5a5_a5a5_a5a5;

pub fn filled_words() -> Vec<u64> {
    (0..BUFFER_WORDS as u64).map(|word| word ^ FILLER).collect()
}

pub fn filled_bytes() -> Vec<u8> {
    (0..BUFFER_BYTES).map(|byte| (byte % 251) as u8).collect()
}

// Sums

pub const FIRST_SUM: u64 = 88_172_645_463_325_252;

pub fn mix(sum: u64, word: u64) -> u64 {
    let mut mixed = sum ^ word;
    mixed ^= mixed << 13;
    mixed ^= mixed >> 7;
    mixed ^ (mixed << 17)
}

pub fn sum_words(sum: u64, words: &[u64]) -> u64 {
    words.iter().fold(sum, |sum, &word| mix(sum, word))
}

pub fn sum_bytes(sum: u64, bytes: &[u8]) -> u64 {
    bytes.iter().fold(sum, |sum, &byte| mix(sum, u64::from(byte)))
}

// Ways to change a cell

pub const WAYS: usize = 6;

pub fn changed(way: usize, number: u64) -> u64 {
    match way {
        0 => number.wrapping_add(1),
        1 => number.wrapping_sub(1),
        2 => number ^ 2,
        3 => number ^ (1 << 63),
        4 => 0,
        _ => NONE,
    }
}

pub fn changed_byte(way: usize, byte: u8) -> u8 {
    match way {
        0 => byte ^ 1,
        1 => 0,
        2 => b' ',
        3 => b'*',
        4 => b'.',
        _ => b'a',
    }
}
