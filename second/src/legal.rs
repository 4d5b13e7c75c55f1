//! Legal configurations (section 3.11) and the sets that a history may store.

use crate::numbers::{RowNumber, ROOT};
use crate::row_set::RowSet;
use crate::tables::Kind;
use crate::tree::Tree;

/// A legal configuration lists states, parallels and finals alone, exactly one child of the root
/// and of each listed compound state, all children of each listed parallel, and with each row its
/// parent.
pub fn is_legal(tree: &Tree, configuration: &RowSet) -> bool {
    let listed_well = configuration.rows().all(|row| row.0 < tree.row_count() && tree.is_real_state(row));
    listed_well
        && configuration.rows().all(|row| parent_is_listed(tree, configuration, row))
        && holds_right_children(tree, configuration, ROOT)
        && configuration.rows().all(|row| holds_right_children(tree, configuration, row))
}

fn parent_is_listed(tree: &Tree, configuration: &RowSet, row: RowNumber) -> bool {
    tree.parent(row).is_some_and(|parent| parent == ROOT || configuration.contains(parent))
}

fn holds_right_children(tree: &Tree, configuration: &RowSet, row: RowNumber) -> bool {
    let children = tree.children(row);
    let listed = children.intersection(configuration);
    if tree.is_parallel(row) {
        return listed == children;
    }
    !tree.is_compound_or_root(row) || listed.len() == 1
}

/// "shallow, its active children; deep, its active atomic descendants."
pub fn set_to_store(tree: &Tree, configuration: &RowSet, history: RowNumber) -> RowSet {
    let Some(parent) = tree.parent(history) else { return RowSet::EMPTY };
    if tree.kind(history) == Kind::ShallowHistory {
        return tree.children(parent).intersection(configuration);
    }
    let below = tree.descendants(parent).intersection(configuration);
    below.rows().filter(|&row| tree.is_atomic(row)).collect()
}

/// "each stored history is the set that its parent would store from some legal configuration that
/// holds it." Worked out without looking at any configuration.
pub fn can_be_stored(tree: &Tree, history: RowNumber, set: &RowSet) -> bool {
    let Some(parent) = tree.parent(history) else { return false };
    match tree.kind(history) {
        Kind::ShallowHistory => {
            let children = tree.children(parent);
            if tree.is_parallel(parent) {
                return *set == children;
            }
            set.len() == 1 && set.is_subset_of(&children)
        }
        Kind::DeepHistory => deep_set_can_be_stored(tree, parent, set),
        _ => false,
    }
}

/// The atomic rows, with their ancestors below the parent, must be just what a legal
/// configuration has below the parent.
fn deep_set_can_be_stored(tree: &Tree, parent: RowNumber, set: &RowSet) -> bool {
    let below = tree.descendants(parent);
    if !set.is_subset_of(&below) || !set.rows().all(|row| tree.is_atomic(row)) {
        return false;
    }
    let mut filled = *set;
    for row in set.rows() {
        filled = filled.union(&tree.ancestors(row).intersection(&below));
    }
    holds_right_children(tree, &filled, parent)
        && filled.rows().all(|row| holds_right_children(tree, &filled, row))
}
