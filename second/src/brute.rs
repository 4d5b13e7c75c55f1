//! Slow and plain answers to compare the quick ones with: all legal configurations of a small
//! chart, one by one.

use crate::compiled::CompiledChart;
use crate::legal::set_to_store;
use crate::numbers::{RowNumber, ROOT};
use crate::row_set::RowSet;
use crate::tree::Tree;

/// All legal configurations, or nothing if there are more than the limit.
pub fn legal_configurations(tree: &Tree, limit: usize) -> Option<Vec<RowSet>> {
    ways_below(tree, ROOT, limit)
}

/// All ways to fill what is below an active row.
fn ways_below(tree: &Tree, row: RowNumber, limit: usize) -> Option<Vec<RowSet>> {
    let mut one_of = Vec::new();
    let mut all_of = vec![RowSet::EMPTY];
    for child in tree.children(row).rows() {
        let ways: Vec<RowSet> = ways_below(tree, child, limit)?
            .into_iter()
            .map(|below| below.union(&RowSet::single(child)))
            .collect();
        if tree.is_parallel(row) {
            all_of = pairs(&all_of, &ways, limit)?;
        } else {
            one_of.extend(ways);
        }
    }
    let ways = if one_of.is_empty() { all_of } else { one_of };
    (ways.len() <= limit).then_some(ways)
}

fn pairs(left: &[RowSet], right: &[RowSet], limit: usize) -> Option<Vec<RowSet>> {
    if left.len().saturating_mul(right.len()) > limit {
        return None;
    }
    Some(left.iter().flat_map(|one| right.iter().map(|other| one.union(other))).collect())
}

/// "each stored history is the set that its parent would store from some legal configuration that
/// holds it", by trying them all.
pub fn can_be_stored(compiled: &CompiledChart, legal: &[RowSet], history: RowNumber, set: &RowSet) -> bool {
    let tree = &compiled.tree;
    let Some(parent) = tree.parent(history) else { return false };
    tree.is_history(history)
        && legal
            .iter()
            .filter(|configuration| configuration.contains(parent))
            .any(|configuration| set_to_store(tree, configuration, history) == *set)
}
