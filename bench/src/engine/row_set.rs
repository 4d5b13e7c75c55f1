//! A set of rows in four words: bit i % 64 of word i / 64 says whether row i is in it.

use super::limits::{BITS, MOST_ROWS, WORDS};
use std::ops::{BitAnd, BitOr, BitOrAssign, Sub};

#[derive(Clone, Copy, PartialEq, Eq, Debug)]
pub struct RowSet(pub [u64; WORDS]);

/// The sets of one row each.
static SINGLES: [RowSet; MOST_ROWS] = {
    let mut singles = [RowSet::EMPTY; MOST_ROWS];
    let mut row = 0;
    while row < MOST_ROWS {
        singles[row].0[row / BITS] = 1 << (row % BITS);
        row += 1;
    }
    singles
};

impl RowSet {
    pub const EMPTY: RowSet = RowSet([0; WORDS]);

    #[inline]
    pub fn single(row: usize) -> RowSet {
        SINGLES[row % MOST_ROWS]
    }

    #[inline]
    pub fn contains(self, row: usize) -> bool {
        has(&self.0, row)
    }

    #[inline]
    pub fn insert(&mut self, row: usize) {
        *self |= RowSet::single(row);
    }

    /// The same in memory, where the set is not asked at once.
    #[inline]
    pub fn note(&mut self, row: usize) {
        self.0[row / BITS % WORDS] |= 1 << (row % BITS);
    }

    #[inline]
    pub fn is_empty(self) -> bool {
        let [a, b, c, d] = self.0;
        a | b | c | d == 0
    }

    #[inline]
    pub fn has_one(self) -> bool {
        let words = self.0.iter().filter(|&&word| word != 0).count();
        words == 1 && self.0.iter().all(|&word| word & word.wrapping_sub(1) == 0)
    }

    #[inline]
    pub fn meets(self, other: RowSet) -> bool {
        !(self & other).is_empty()
    }

    #[inline]
    pub fn is_within(self, other: RowSet) -> bool {
        (self - other).is_empty()
    }

    /// Ascending, which is document order.
    #[inline]
    pub fn rows(self) -> Rows {
        Rows { set: self, word: 0, bits: self.0[0] }
    }

    /// Descending, which is exit order.
    #[inline]
    pub fn rows_backwards(self) -> RowsBackwards {
        RowsBackwards { set: self, word: WORDS - 1, bits: self.0[WORDS - 1] }
    }

    /// The first row that is not below the given one, for a walk along a set that grows ahead.
    #[inline]
    pub fn first_from(self, row: usize) -> Option<usize> {
        let mut place = row / BITS;
        if place >= WORDS {
            return None;
        }
        let mut word = self.0[place] & (u64::MAX << (row % BITS));
        while word == 0 {
            place += 1;
            word = *self.0.get(place)?;
        }
        Some(place * BITS + word.trailing_zeros() as usize)
    }

    #[inline]
    pub fn last(self) -> Option<usize> {
        let word = self.0.iter().rposition(|&word| word != 0)?;
        Some(word * BITS + last_bit(self.0[word]))
    }

    #[inline]
    fn joined(self, other: RowSet, join: impl Fn(u64, u64) -> u64) -> RowSet {
        RowSet(std::array::from_fn(|place| join(self.0[place], other.0[place])))
    }
}

/// Whether a row is in a set, where that lies.
#[inline]
pub fn has(words: &[u64; WORDS], row: usize) -> bool {
    words[row / BITS % WORDS] >> (row % BITS) & 1 != 0
}

impl BitOr for RowSet {
    type Output = RowSet;

    #[inline]
    fn bitor(self, other: RowSet) -> RowSet {
        self.joined(other, |a, b| a | b)
    }
}

impl BitOrAssign for RowSet {
    #[inline]
    fn bitor_assign(&mut self, other: RowSet) {
        *self = *self | other;
    }
}

impl BitAnd for RowSet {
    type Output = RowSet;

    #[inline]
    fn bitand(self, other: RowSet) -> RowSet {
        self.joined(other, |a, b| a & b)
    }
}

impl Sub for RowSet {
    type Output = RowSet;

    #[inline]
    fn sub(self, other: RowSet) -> RowSet {
        self.joined(other, |a, b| a & !b)
    }
}

/// The bits of the word that are still to come are kept apart from the set.
pub struct Rows {
    set: RowSet,
    word: usize,
    bits: u64,
}

impl Iterator for Rows {
    type Item = usize;

    #[inline]
    fn next(&mut self) -> Option<usize> {
        while self.bits == 0 {
            self.word += 1;
            self.bits = *self.set.0.get(self.word)?;
        }
        let bit = self.bits.trailing_zeros() as usize;
        self.bits &= self.bits - 1;
        Some(self.word * BITS + bit)
    }
}

pub struct RowsBackwards {
    set: RowSet,
    word: usize,
    bits: u64,
}

impl Iterator for RowsBackwards {
    type Item = usize;

    #[inline]
    fn next(&mut self) -> Option<usize> {
        while self.bits == 0 {
            self.word = self.word.checked_sub(1)?;
            self.bits = self.set.0[self.word % WORDS];
        }
        let bit = last_bit(self.bits);
        self.bits ^= 1 << bit;
        Some(self.word * BITS + bit)
    }
}

#[inline]
fn last_bit(word: u64) -> usize {
    BITS - 1 - word.leading_zeros() as usize
}

impl FromIterator<usize> for RowSet {
    #[inline]
    fn from_iter<I: IntoIterator<Item = usize>>(rows: I) -> RowSet {
        let mut set = RowSet::EMPTY;
        for row in rows {
            set.insert(row);
        }
        set
    }
}
