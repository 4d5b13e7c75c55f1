//! SCXML text (document 02, R-1 and R-4), written from the documents alone: two programs that share no
//! line say where a text leaves the grammar, a recogniser of the EBNF and the reader's own scanner. Behind
//! them stand the reader, the writer, and what makes random texts, right ones and damaged ones.
//!
//! A new element is one line in `grammar.ebnf`, one entry in `elements.rs`, one case in `build.rs` and one
//! in `write.rs`.

pub mod build;
pub mod content;
pub mod cursor;
pub mod damage;
pub mod ebnf;
pub mod elements;
pub mod faults;
pub mod plant;
pub mod read;
pub mod recogniser;
pub mod samples;
pub mod scan;
pub mod spell;
pub mod values;
pub mod write;
