//! Initial lists that name a history, and lists next to them.

use super::*;

/// A history of a row that is below this one.
fn history_below(tree: &Tree, owner: RowNumber) -> Option<RowNumber> {
    tree.descendants(owner).rows().find_map(|row| tree.histories(row).first().copied())
}

/// A history of a row that is neither this one nor below it.
fn history_outside(tree: &Tree, owner: RowNumber) -> Option<RowNumber> {
    let outside = tree.descendants(ROOT).minus(&tree.descendants(owner));
    outside.rows().filter(|&row| row != owner).find_map(|row| tree.histories(row).first().copied())
}

/// A row in another region of the same parallel as this one.
fn row_in_another_region(tree: &Tree, region: RowNumber) -> Option<RowNumber> {
    let parent = tree.parent(region).filter(|&parent| tree.is_parallel(parent))?;
    tree.children(parent).rows().find(|&other| other != region)
}

/// Lists that name a history and may not.
pub fn refused() -> Vec<NearMiss> {
    [beside_other_rows(), elsewhere()].concat()
}

fn beside_other_rows() -> Vec<NearMiss> {
    vec![
        chart!("initial list holds its owner's history and a child", 4, |chart, tree, random| {
            set_list(chart, tree, random, owns_initial_list, |tree, row| {
                Some(vec![*tree.histories(row).first()?, tree.first_child(row)?])
            })
        }),
        chart!("initial list holds a history and a row below its parent", 4, |chart, tree, random| {
            set_list(chart, tree, random, owns_initial_list, |tree, row| {
                let history = history_below(tree, row)?;
                Some(vec![tree.first_child(tree.anchor(history))?, history])
            })
        }),
        chart!("initial list holds a history and its parent", 4, |chart, tree, random| {
            set_list(chart, tree, random, owns_initial_list, |tree, row| {
                let history = history_below(tree, row)?;
                Some(vec![history, tree.anchor(history)])
            })
        }),
        chart!("initial list holds two histories of its owner", 4, |chart, tree, random| {
            set_list(chart, tree, random, owns_initial_list, |tree, row| {
                (tree.histories(row).len() >= 2).then(|| tree.histories(row)[..2].to_vec())
            })
        }),
        chart!("initial list holds two histories of a row below", 4, |chart, tree, random| {
            set_list(chart, tree, random, owns_initial_list, |tree, row| {
                let owner = tree.descendants(row).rows().find(|&below| tree.histories(below).len() >= 2)?;
                Some(tree.histories(owner)[..2].to_vec())
            })
        }),
        chart!("initial list holds a history twice", 4, |chart, tree, random| {
            set_list(chart, tree, random, owns_initial_list, |tree, row| {
                Some(vec![*tree.histories(row).first()?; 2])
            })
        }),
    ]
}

fn elsewhere() -> Vec<NearMiss> {
    vec![
        chart!("initial list holds a history outside", 4, |chart, tree, random| {
            set_list(chart, tree, random, owns_initial_list, |tree, row| {
                Some(vec![history_outside(tree, row)?])
            })
        }),
        chart!("initial list holds a history of its owner's parent", 4, |chart, tree, random| {
            set_list(chart, tree, random, owns_initial_list, |tree, row| {
                Some(vec![*tree.histories(tree.parent(row)?).first()?])
            })
        }),
        chart!("default list holds a history of a row below", 4, |chart, tree, random| {
            set_list(chart, tree, random, is_history, |tree, row| {
                Some(vec![history_below(tree, tree.anchor(row))?])
            })
        }),
        chart!("default list holds itself", 4, |chart, tree, random| {
            set_list(chart, tree, random, is_history, |_, row| Some(vec![row]))
        }),
    ]
}

/// Lists that name a history and may.
pub fn accepted() -> Vec<NearMiss> {
    vec![
        chart!("initial list holds its owner's history", 0, |chart, tree, random| {
            set_list(chart, tree, random, owns_initial_list, |tree, row| {
                Some(vec![*tree.histories(row).first()?])
            })
        }),
        chart!("initial list holds its owner's other history", 0, |chart, tree, random| {
            set_list(chart, tree, random, owns_initial_list, |tree, row| {
                Some(vec![*tree.histories(row).get(1)?])
            })
        }),
        chart!("initial list holds a history of a row below", 0, |chart, tree, random| {
            set_list(chart, tree, random, owns_initial_list, |tree, row| {
                Some(vec![history_below(tree, row)?])
            })
        }),
        chart!("initial list of the root holds a history", 0, |chart, tree, random| {
            set_list(
                chart,
                tree,
                random,
                |_, row| row == ROOT,
                |tree, row| Some(vec![history_below(tree, row)?]),
            )
        }),
        chart!("initial list holds a history and a row of another region", 0, |chart, tree, random| {
            set_list(chart, tree, random, owns_initial_list, |tree, row| {
                let mut regions = tree.descendants(row).rows().filter(|&one| !tree.histories(one).is_empty());
                let (region, other) =
                    regions.find_map(|one| Some((one, row_in_another_region(tree, one)?)))?;
                Some(vec![other, tree.histories(region)[0]])
            })
        }),
    ]
}
