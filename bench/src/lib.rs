//! An ordinary engine for the same job as the proved library, and what it takes to compare the
//! two: charts that never rest, measurements, and a comparison with the second program.

#![deny(unsafe_code)]

pub mod agreement;
pub mod bridge;
pub mod charts;
pub mod clock;
pub mod contenders;
pub mod engine;
pub mod given;
#[cfg(feature = "linked")]
pub mod library;
pub mod measure;
pub mod plot;
#[cfg(feature = "linked")]
pub mod wrappers;
