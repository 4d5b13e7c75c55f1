//! The static library of Auttervil, called and compared with the second program.

pub mod calls;
pub mod compare;
pub mod exports;
#[cfg(feature = "flat")]
pub mod flats;
pub mod library;
pub mod lists;
pub mod posts;
#[cfg(any(feature = "journal", feature = "flat"))]
pub mod proposed;
#[cfg(feature = "journal")]
pub mod recorded;
pub mod seeds;
pub mod sessions;
pub mod story;
pub mod texts;
pub mod written;
