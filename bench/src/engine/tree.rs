//! Rule 3, and the sets of rows that the tree makes.

use super::chart::Sets;
use super::limits::*;
use super::row_set::{has, RowSet};
use super::tables::*;

/// Which kinds may stand under a row, by its kind: a bit for each.
const MAY_STAND: [u8; 6] = [
    under(&[STATE, PARALLEL, FINAL]),
    under(&[STATE, PARALLEL, FINAL, SHALLOW, DEEP]),
    under(&[STATE, PARALLEL, SHALLOW, DEEP]),
    under(&[]),
    under(&[]),
    under(&[]),
];

const fn under(kinds: &[u64]) -> u8 {
    let mut bits = 0;
    let mut place = 0;
    while place < kinds.len() {
        bits |= 1 << kinds[place];
        place += 1;
    }
    bits
}

fn root_fits(tables: &Tables) -> bool {
    tables.row(ROOT).kind() == 0 && tables.row(ROOT).parent() == NONE
}

/// Whether a row has a parent that it may stand under, and follows in document order; told are the
/// ancestors of the row before.
#[inline]
fn stands_right(tables: &Tables, number: usize, before: &[u64; WORDS]) -> bool {
    let row = tables.row(number);
    let parent = row.parent() as usize;
    let follows = parent == number - 1 || row.parent() != NONE && has(before, parent);
    follows && MAY_STAND[tables.row(parent).kind() as usize] >> row.kind() & 1 != 0
}

/// Whether a row that needs a child has one; told are the rows that have a history.
#[inline]
fn has_needed_child(kind: u64, row: usize, childless: bool, owners: &RowSet) -> bool {
    let needs = match kind {
        STATE => has(&owners.0, row),
        kind => kind == 0 || kind == PARALLEL,
    };
    !(needs && childless)
}

/// Rule 3, and that these are the sets of the rows. Each is compared with sets of other rows that
/// are compared themselves, those of a parent or of children: nothing is worked out beside them.
pub fn is_tree_of(tables: &Tables, sets: Sets) -> bool {
    if !root_fits(tables) || !sets.ancestors(ROOT).is_empty() {
        return false;
    }
    let mut owners = RowSet::EMPTY;
    let mut histories = 0;
    for number in 1..tables.row_count() {
        if !stands_right(tables, number, &sets.ancestors[number - 1]) {
            return false;
        }
        let row = tables.row(number);
        let parent = row.parent() as usize;
        if sets.ancestors(number) != sets.ancestors(parent) | RowSet::single(parent) {
            return false;
        }
        if row.is_history() {
            owners.note(parent);
            histories += 1;
        }
    }
    // No row is found twice, since it has one parent.
    found_below(tables, sets, &owners).is_some_and(|found| found + histories + 1 == tables.row_count())
}

/// How many rows the sets of children have in all, if all of them are children and the sets of
/// descendants are as they have to be.
fn found_below(tables: &Tables, sets: Sets, owners: &RowSet) -> Option<usize> {
    let mut found = 0;
    for number in 0..tables.row_count() {
        let children = sets.children(number);
        let childless = children.is_empty();
        let mut below = children;
        if !childless {
            for child in children.rows() {
                let row = tables.row_if_any(child)?;
                if row.parent() != number as u64 || row.is_history() {
                    return None;
                }
                below |= sets.descendants(child);
                found += 1;
            }
        }
        let kind = tables.row(number).kind();
        if below != sets.descendants(number) || !has_needed_child(kind, number, childless, owners) {
            return None;
        }
    }
    Some(found)
}

/// Ancestors, descendants and children of every row; histories are no one's children.
pub struct Tree {
    ancestors: [[u64; WORDS]; MOST_ROWS],
    descendants: [[u64; WORDS]; MOST_ROWS],
    children: [[u64; WORDS]; MOST_ROWS],
}

impl Tree {
    pub fn sets(&self) -> Sets<'_> {
        Sets { ancestors: &self.ancestors, descendants: &self.descendants, children: &self.children }
    }

    /// Nothing, if rule 3 is broken.
    pub fn grown(tables: &Tables) -> Option<Tree> {
        let none = [[0; WORDS]; MOST_ROWS];
        let mut tree = Tree { ancestors: none, descendants: none, children: none };
        if !root_fits(tables) {
            return None;
        }
        let mut owners = RowSet::EMPTY;
        for number in 1..tables.row_count() {
            if !stands_right(tables, number, &tree.ancestors[number - 1]) {
                return None;
            }
            let row = tables.row(number);
            let parent = row.parent() as usize;
            tree.ancestors[number] = (tree.sets().ancestors(parent) | RowSet::single(parent)).0;
            if row.is_history() {
                owners.insert(parent);
            } else {
                tree.children[parent] = (tree.sets().children(parent) | RowSet::single(number)).0;
            }
        }
        for number in (1..tables.row_count()).rev() {
            if !tables.row(number).is_history() {
                let parent = tables.row(number).parent() as usize;
                let below = tree.sets().descendants(number) | RowSet::single(number);
                tree.descendants[parent] = (tree.sets().descendants(parent) | below).0;
            }
        }
        let fits = |row: usize| {
            has_needed_child(tables.row(row).kind(), row, tree.sets().children(row).is_empty(), &owners)
        };
        (0..tables.row_count()).all(fits).then_some(tree)
    }
}
