//! Every limit of a chart and of a session, in one place.

use super::names::SLOT;

pub const MOST_ROWS: usize = 256;
pub const MOST_TRANSITIONS: usize = 512;
pub const MOST_NAMES: usize = 768;
pub const MOST_DESCRIPTORS_EACH: u64 = 4;
pub const MOST_TARGETS_EACH: u64 = 8;
pub const MOST_ACTIONS_EACH: u64 = 32;
/// Ifs that are open at once in a block.
pub const MOST_OPEN_IFS: u32 = 4;

/// The other tables have room for every chart within these: a list and three blocks of each row, and
/// what each transition has.
pub const MOST_REFERENCES: usize = MOST_ROWS * MOST_ROWS + MOST_TRANSITIONS * MOST_TARGETS_EACH as usize;
pub const MOST_DESCRIPTORS: usize = MOST_TRANSITIONS * MOST_DESCRIPTORS_EACH as usize;
pub const MOST_ACTIONS: usize = (MOST_ROWS * 3 + MOST_TRANSITIONS) * MOST_ACTIONS_EACH as usize;

/// A set of rows has a bit for each.
pub const BITS: usize = u64::BITS as usize;
pub const WORDS: usize = MOST_ROWS / BITS;

pub const QUEUE_NAMES: usize = 32;
pub const QUEUE_BYTES: usize = QUEUE_NAMES * SLOT;

/// Sends that are pending at once, the latest clock, and the longest delay.
pub const MOST_PENDING: usize = 32;
pub const MOST_TICKS: u64 = 1 << 62;
pub const MOST_DELAY: u64 = 4_294_967_295;
