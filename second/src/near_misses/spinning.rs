//! Transitions that spin, and such next to them that do not. "Rule 5 shall also refuse an eventless
//! transition that has no targets, and an eventless one without condition whose target list holds its
//! own source. [..] Longer loops stay legal." (R-7)

use super::*;

/// Adds an eventless transition of a row that fits, to targets that are found for it.
fn push_eventless(
    chart: &mut Chart,
    tree: &Tree,
    random: &mut Random,
    fits: impl Fn(&Tree, RowNumber) -> bool,
    targets: impl Fn(&Tree, RowNumber) -> Option<Vec<RowNumber>>,
) -> Option<()> {
    let source = some_row(chart, tree, random, |tree, row| fits(tree, row) && targets(tree, row).is_some())?;
    push_transition(chart, source, targets(tree, source)?)
}

fn is_source(tree: &Tree, row: RowNumber) -> bool {
    matches!(tree.kind(row), Kind::State | Kind::Parallel)
}

fn itself(_: &Tree, row: RowNumber) -> Option<Vec<RowNumber>> {
    Some(vec![row])
}

fn nowhere(_: &Tree, _: RowNumber) -> Option<Vec<RowNumber>> {
    Some(Vec::new())
}

/// Another child of the parallel that the row is a child of.
fn other_region(tree: &Tree, row: RowNumber) -> Option<RowNumber> {
    let parent = tree.parent(row).filter(|&parent| tree.is_parallel(parent))?;
    tree.children(parent).rows().find(|&other| other != row)
}

/// Gives the transition just added a condition.
fn guard(chart: &mut Chart, row: impl Fn(RowNumber) -> RowNumber) -> Option<()> {
    let added = chart.transitions.last_mut()?;
    added.condition = Some(row(added.source));
    Some(())
}

fn make_internal(chart: &mut Chart) -> Option<()> {
    chart.transitions.last_mut()?.kind = TransitionType::Internal;
    Some(())
}

/// Gives the transition just added an event: the id of row 1, which is a name.
fn give_event(chart: &mut Chart) -> Option<()> {
    chart.transitions.last_mut()?.descriptors = vec![chart.rows[1].id?];
    Some(())
}

pub fn refused() -> Vec<NearMiss> {
    [without_targets(), to_themselves()].concat()
}

fn without_targets() -> Vec<NearMiss> {
    vec![
        chart!("eventless without targets, in itself", 5, |chart, tree, random| {
            push_eventless(chart, tree, random, is_source, nowhere)?;
            guard(chart, |source| source)
        }),
        chart!("eventless without targets, in another row", 5, |chart, tree, random| {
            let other = some_row(chart, tree, random, |tree, row| tree.is_real_state(row))?;
            push_eventless(chart, tree, random, is_source, nowhere)?;
            guard(chart, |_| other)
        }),
        chart!("eventless without targets, with condition and block", 5, |chart, tree, random| {
            push_eventless(chart, tree, random, is_source, nowhere)?;
            chart.transitions.last_mut()?.block = host_block();
            guard(chart, |source| source)
        }),
        chart!("eventless without targets, internal", 5, |chart, tree, random| {
            push_eventless(chart, tree, random, is_source, nowhere)?;
            guard(chart, |source| source)?;
            make_internal(chart)
        }),
    ]
}

fn to_themselves() -> Vec<NearMiss> {
    vec![
        chart!("eventless to itself", 5, |chart, tree, random| {
            push_eventless(chart, tree, random, has_kind(Kind::State), itself)
        }),
        chart!("eventless to itself, a parallel", 5, |chart, tree, random| {
            push_eventless(chart, tree, random, has_kind(Kind::Parallel), itself)
        }),
        chart!("eventless to itself, internal", 5, |chart, tree, random| {
            push_eventless(chart, tree, random, is_source, itself)?;
            make_internal(chart)
        }),
        chart!("eventless to itself, a compound state, internal", 5, |chart, tree, random| {
            push_eventless(chart, tree, random, Tree::is_compound, itself)?;
            make_internal(chart)
        }),
        chart!("eventless to itself and another row", 5, |chart, tree, random| {
            push_eventless(chart, tree, random, is_source, |tree, row| {
                Some(vec![row, other_region(tree, row)?])
            })
        }),
        chart!("eventless to another row and itself", 5, |chart, tree, random| {
            push_eventless(chart, tree, random, is_source, |tree, row| {
                Some(vec![other_region(tree, row)?, row])
            })
        }),
        chart!("eventless to another row and itself, internal", 5, |chart, tree, random| {
            push_eventless(chart, tree, random, is_source, |tree, row| {
                Some(vec![other_region(tree, row)?, row])
            })?;
            make_internal(chart)
        }),
    ]
}

/// Transitions next to those that spin: a chart with one of them stays well formed.
pub fn accepted() -> Vec<NearMiss> {
    [guarded_or_with_event(), longer_loops()].concat()
}

fn guarded_or_with_event() -> Vec<NearMiss> {
    vec![
        chart!("eventless to itself, in itself", 0, |chart, tree, random| {
            push_eventless(chart, tree, random, is_source, itself)?;
            guard(chart, |source| source)
        }),
        chart!("eventless to itself, in another row", 0, |chart, tree, random| {
            let other = some_row(chart, tree, random, |tree, row| tree.is_real_state(row))?;
            push_eventless(chart, tree, random, |_, row| row != other && is_source(tree, row), itself)?;
            guard(chart, |_| other)
        }),
        chart!("eventless to itself and another row, in itself", 0, |chart, tree, random| {
            push_eventless(chart, tree, random, is_source, |tree, row| {
                Some(vec![row, other_region(tree, row)?])
            })?;
            guard(chart, |source| source)
        }),
        chart!("an event and no targets", 0, |chart, tree, random| {
            push_eventless(chart, tree, random, is_source, nowhere)?;
            give_event(chart)
        }),
        chart!("an event, to itself", 0, |chart, tree, random| {
            push_eventless(chart, tree, random, is_source, itself)?;
            give_event(chart)
        }),
        chart!("an event, to itself, internal", 0, |chart, tree, random| {
            push_eventless(chart, tree, random, is_source, itself)?;
            make_internal(chart)?;
            give_event(chart)
        }),
    ]
}

fn longer_loops() -> Vec<NearMiss> {
    vec![
        chart!("eventless to its parent", 0, |chart, tree, random| {
            push_eventless(chart, tree, random, is_source, |tree, row| {
                Some(vec![tree.parent(row).filter(|&parent| parent != ROOT)?])
            })
        }),
        chart!("eventless to a history of itself", 0, |chart, tree, random| {
            push_eventless(chart, tree, random, is_source, |tree, row| {
                Some(vec![*tree.histories(row).first()?])
            })
        }),
        chart!("eventless to its child", 0, |chart, tree, random| {
            push_eventless(chart, tree, random, is_source, |tree, row| Some(vec![tree.first_child(row)?]))
        }),
        chart!("eventless to its child, internal", 0, |chart, tree, random| {
            push_eventless(chart, tree, random, is_source, |tree, row| Some(vec![tree.first_child(row)?]))?;
            make_internal(chart)
        }),
        chart!("two that lead to each other", 0, |chart, tree, random| {
            let next = |tree: &Tree, row: RowNumber| {
                let mut beside = tree.children(tree.parent(row)?).rows();
                beside.find(|&other| other > row && is_source(tree, other))
            };
            let first =
                some_row(chart, tree, random, |tree, row| is_source(tree, row) && next(tree, row).is_some())?;
            let second = next(tree, first)?;
            push_transition(chart, first, vec![second])?;
            push_transition(chart, second, vec![first])
        }),
    ]
}
