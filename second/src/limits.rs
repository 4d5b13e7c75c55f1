//! Every limit, in one place, so that a larger chart is a change of this file. Document 01 has them but
//! for the first three, which are request R-8's, those of blocks, which are R-5's, the clock's, which are R-9's, the
//! journal's, which is R-10's, and the flat table's, which are R-11's.

/// "Raise rows to 256, transitions to 512 and name slots to 768."
pub const MAX_ROWS: u64 = 256;
pub const MAX_TRANSITIONS: u64 = 512;
pub const MAX_SLOTS: u64 = 768;
/// "each with a source, 0 to 4 descriptors".
pub const MAX_DESCRIPTORS_OF_TRANSITION: u64 = 4;
/// "0 to 8 targets".
pub const MAX_TARGETS_OF_TRANSITION: u64 = 8;
/// "at most 32 actions in a block, these and the end of an if included".
pub const MAX_ACTIONS_OF_BLOCK: u64 = 32;
/// "nested at most four deep".
pub const MAX_OPEN_IFS: usize = 4;
/// Entry, exit and the block of the list: a row has three blocks.
pub const BLOCKS_OF_ROW: u64 = 3;

/// The reference table holds one list for each row and the targets of every transition.
pub const MAX_REFERENCES: u64 = MAX_ROWS * MAX_ROWS + MAX_TRANSITIONS * MAX_TARGETS_OF_TRANSITION;
/// The descriptor table holds the descriptors of every transition.
pub const MAX_DESCRIPTORS: u64 = MAX_TRANSITIONS * MAX_DESCRIPTORS_OF_TRANSITION;
/// The action table holds every block of every row and every transition.
pub const MAX_ACTIONS: u64 = (MAX_ROWS * BLOCKS_OF_ROW + MAX_TRANSITIONS) * MAX_ACTIONS_OF_BLOCK;

/// The six counts at the head of the table of numbers.
pub const HEADER_CELLS: usize = 6;
pub const ROW_CELLS: usize = 11;
pub const TRANSITION_CELLS: usize = 9;
pub const REFERENCE_CELLS: usize = 1;
pub const DESCRIPTOR_CELLS: usize = 1;
pub const ACTION_CELLS: usize = 4;

/// Spells "none" in the columns parent, id, condition and send id.
pub const NONE: u64 = 65_535;
/// "host action 0 to 65,535".
pub const MAX_HOST_ACTION: u64 = 65_535;
/// "delay 0 to 4,294,967,295 ticks".
pub const MAX_DELAY: u64 = 4_294_967_295;

/// "name slots of 64 bytes. A name has 1 to 63 bytes".
pub const SLOT_BYTES: usize = 64;
pub const MAX_NAME_BYTES: usize = 63;
/// "'done.state.' has 11 bytes, so every row's id has at most 52."
pub const DONE_PREFIX: &[u8] = b"done.state.";
pub const MAX_ID_BYTES: usize = MAX_NAME_BYTES - DONE_PREFIX.len();

/// A set of rows has a bit for each row there may be, in words of 64 bits.
pub const ROW_SET_ROWS: usize = MAX_ROWS as usize;
pub const WORD_BITS: usize = u64::BITS as usize;
pub const ROW_SET_WORDS: usize = ROW_SET_ROWS / WORD_BITS;
/// Ancestors, descendants, children and default entry targets.
pub const COMPILED_SETS_OF_ROW: usize = 4;
/// The target anchors.
pub const COMPILED_SETS_OF_TRANSITION: usize = 1;

/// The numbers of the greatest chart, and of what it compiles to.
pub const MAX_NUMBERS: usize = HEADER_CELLS
    + ROW_CELLS * MAX_ROWS as usize
    + TRANSITION_CELLS * MAX_TRANSITIONS as usize
    + REFERENCE_CELLS * MAX_REFERENCES as usize
    + DESCRIPTOR_CELLS * MAX_DESCRIPTORS as usize
    + ACTION_CELLS * MAX_ACTIONS as usize;
pub const MAX_COMPILED: usize = MAX_NUMBERS
    + ROW_SET_WORDS
        * (COMPILED_SETS_OF_ROW * MAX_ROWS as usize + COMPILED_SETS_OF_TRANSITION * MAX_TRANSITIONS as usize);

/// "an internal and an external queue of at most 32 names each".
pub const QUEUE_NAMES: usize = 32;
/// "At most 32 are pending."
pub const MAX_PENDING: usize = 32;
/// "The host gives the clock, ticks up to 2^62".
pub const MAX_TICKS: u64 = 1 << 62;
/// "A run is given a number of rounds from 0 to 4,294,967,295".
pub const MAX_ROUNDS: u64 = 4_294_967_295;
/// "Keep a journal of at most 512 accepted posts, clock calls and runs".
pub const MAX_ENTRIES: usize = 512;
/// "a caller's list of at most 32 event names".
pub const MAX_LISTED_NAMES: usize = 32;
/// "New refusal 16 is given exactly when more than 256 are reachable so".
pub const MAX_CONFIGURATIONS: usize = 256;
/// A session keeps a place for stored history for as many rows as a row set can hold.
pub const HISTORY_PLACES: usize = ROW_SET_ROWS;
