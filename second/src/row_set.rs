//! A set of rows: bit i % 64 of word i / 64 says whether row i is in it.

use crate::limits::{ROW_SET_ROWS, ROW_SET_WORDS, WORD_BITS};
use crate::numbers::RowNumber;
use std::fmt;

#[derive(Clone, Copy, PartialEq, Eq, PartialOrd, Ord, Hash, Default)]
pub struct RowSet(pub [u64; ROW_SET_WORDS]);

impl RowSet {
    pub const EMPTY: RowSet = RowSet([0; ROW_SET_WORDS]);

    pub fn of(rows: &[RowNumber]) -> RowSet {
        rows.iter().copied().collect()
    }

    pub fn single(row: RowNumber) -> RowSet {
        RowSet::of(&[row])
    }

    pub fn contains(&self, row: RowNumber) -> bool {
        row.0 < ROW_SET_ROWS && self.0[row.0 / WORD_BITS] >> (row.0 % WORD_BITS) & 1 == 1
    }

    pub fn insert(&mut self, row: RowNumber) {
        self.0[row.0 / WORD_BITS] |= 1 << (row.0 % WORD_BITS);
    }

    pub fn remove(&mut self, row: RowNumber) {
        self.0[row.0 / WORD_BITS] &= !(1 << (row.0 % WORD_BITS));
    }

    pub fn is_empty(&self) -> bool {
        self.0.iter().all(|&word| word == 0)
    }

    pub fn len(&self) -> usize {
        self.0.iter().map(|word| word.count_ones() as usize).sum()
    }

    fn zip(&self, other: &RowSet, join: impl Fn(u64, u64) -> u64) -> RowSet {
        let mut joined = RowSet::EMPTY;
        for (place, word) in joined.0.iter_mut().enumerate() {
            *word = join(self.0[place], other.0[place]);
        }
        joined
    }

    pub fn union(&self, other: &RowSet) -> RowSet {
        self.zip(other, |a, b| a | b)
    }

    pub fn intersection(&self, other: &RowSet) -> RowSet {
        self.zip(other, |a, b| a & b)
    }

    pub fn minus(&self, other: &RowSet) -> RowSet {
        self.zip(other, |a, b| a & !b)
    }

    pub fn meets(&self, other: &RowSet) -> bool {
        !self.intersection(other).is_empty()
    }

    pub fn is_subset_of(&self, other: &RowSet) -> bool {
        self.minus(other).is_empty()
    }

    /// The rows in ascending order, which is document order.
    pub fn rows(&self) -> Rows {
        Rows { left: *self }
    }

    /// Descending order, which is exit order.
    pub fn rows_in_exit_order(&self) -> Vec<RowNumber> {
        let mut rows: Vec<RowNumber> = self.rows().collect();
        rows.reverse();
        rows
    }
}

pub struct Rows {
    left: RowSet,
}

impl Iterator for Rows {
    type Item = RowNumber;

    fn next(&mut self) -> Option<RowNumber> {
        for (place, word) in self.left.0.iter_mut().enumerate() {
            if *word != 0 {
                let bit = word.trailing_zeros() as usize;
                *word &= *word - 1;
                return Some(RowNumber(place * WORD_BITS + bit));
            }
        }
        None
    }
}

impl FromIterator<RowNumber> for RowSet {
    fn from_iter<I: IntoIterator<Item = RowNumber>>(rows: I) -> RowSet {
        let mut set = RowSet::EMPTY;
        for row in rows {
            set.insert(row);
        }
        set
    }
}

impl fmt::Debug for RowSet {
    fn fmt(&self, out: &mut fmt::Formatter<'_>) -> fmt::Result {
        out.debug_set().entries(self.rows().map(|row| row.0)).finish()
    }
}
