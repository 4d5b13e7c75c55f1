//! "A state number is never taken for a transition number: the two are different types, as are
//! name numbers."

#[derive(Clone, Copy, PartialEq, Eq, PartialOrd, Ord, Debug, Hash)]
pub struct RowNumber(pub usize);

#[derive(Clone, Copy, PartialEq, Eq, PartialOrd, Ord, Debug, Hash)]
pub struct TransitionNumber(pub usize);

#[derive(Clone, Copy, PartialEq, Eq, PartialOrd, Ord, Debug, Hash)]
pub struct NameNumber(pub usize);

/// "Row 0 is the root."
pub const ROOT: RowNumber = RowNumber(0);
