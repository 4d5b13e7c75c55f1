//! An ordinary engine for compiled charts: the calls of documents 01 and 02 on the layouts of
//! docs/tables.md, written for speed and not proved. Nothing is put on the heap.

#![forbid(unsafe_code)]

mod chart;
mod clock;
pub mod limits;
mod names;
mod round;
mod row_set;
mod rules;
mod selection;
mod session;
mod tables;
mod tree;
mod well_formed;

pub use chart::is_compiled;
pub use clock::Clock;
pub use rules::verdict;
pub use session::{Ran, Session, Started, Stepped};

/// The answers that the calls give.
pub mod answers {
    pub const DONE: u32 = 0;
    pub const BAD_NAME: u32 = 6;
    pub const FULL: u32 = 7;
    pub const BAD_CHART: u32 = 8;
    pub const BAD_SESSION: u32 = 9;
    pub const NO_ROOM: u32 = 10;
    pub const SESSION_ENDED: u32 = 11;
    pub const BAD_TICKS: u32 = 14;
    pub const MORE: u32 = 100;
    pub const IDLE: u32 = 101;
    pub const ENDED: u32 = 102;
}
