//! What the programs over the crates are run on, and what they must print.

pub mod calls;
pub mod charts;
mod lines;
mod lists;
pub mod names;
pub mod rows;
mod script;
