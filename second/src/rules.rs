//! "Which charts are well formed": rules 1 to 5, "checked in that order over the whole chart; the
//! first rule broken gives the number."

use crate::branches::{conditions, parse};
use crate::limits::*;
use crate::names::{slot_holds_descriptor, slot_holds_id, slot_holds_name};
use crate::numbers::{NameNumber, RowNumber, ROOT};
use crate::tables::{Action, Chart, Kind, RawAction, RawRow, RawTransition, Span, Tables};
use crate::tree::Tree;
use std::collections::HashSet;

/// The number of the first rule broken.
pub type BrokenRule = u64;

/// The lengths of the two places lent for a compiled chart.
#[derive(Clone, Copy, PartialEq, Eq, Debug)]
pub struct Place {
    pub numbers: usize,
    pub names: usize,
}

/// The chart and its tree, if the tables keep all five rules.
pub fn judge(numbers: &[u64], names: &[u8], place: Place) -> Result<(Chart, Tree), BrokenRule> {
    let tables = size(numbers, names, place).ok_or(1u64)?;
    let chart = tables.decode();
    if !names_are_good(&tables, &chart) {
        return Err(2);
    }
    if !is_tree(&chart) {
        return Err(3);
    }
    let tree = Tree::of(&chart);
    if !lists_are_good(&chart, &tree) {
        return Err(4);
    }
    if !transitions_are_good(&chart, &tree) || !blocks_are_good(&chart, &tree) {
        return Err(5);
    }
    Ok((chart, tree))
}

/// The answer of compiling: 0, or the first rule broken.
pub fn verdict(numbers: &[u64], names: &[u8], place: Place) -> u64 {
    judge(numbers, names, place).err().unwrap_or(0)
}

// Rule 1

/// "counts as above, every list inside its table, every number within its table or range, the
/// place lent for the compiled chart of the size stated".
fn size<'a>(numbers: &'a [u64], names: &'a [u8], place: Place) -> Option<Tables<'a>> {
    let tables = Tables::read(numbers, names)?;
    let counts = tables.counts;
    let good = place.numbers == counts.compiled_length()
        && place.names == counts.names_length()
        && (0..counts.rows).all(|row| row_is_sized(&tables, tables.row(row)))
        && (0..counts.transitions)
            .all(|transition| transition_is_sized(&tables, tables.transition(transition)))
        && tables.references().iter().all(|&row| row < counts.rows as u64)
        && tables.descriptors().iter().all(|&name| name < counts.slots as u64)
        && (0..counts.actions).all(|action| action_is_sized(&tables, tables.action(action)));
    good.then_some(tables)
}

fn is_none_or_below(number: u64, count: usize) -> bool {
    number == NONE || number < count as u64
}

fn block_is_sized(tables: &Tables, block: Span) -> bool {
    block.is_inside(tables.counts.actions) && block.count <= MAX_ACTIONS_OF_BLOCK
}

/// A row's list has no limit of its own: "0 to 8 targets" is said of transitions.
fn row_is_sized(tables: &Tables, row: RawRow) -> bool {
    Kind::from_number(row.kind).is_some()
        && is_none_or_below(row.parent, tables.counts.rows)
        && is_none_or_below(row.id, tables.counts.slots)
        && block_is_sized(tables, row.entry)
        && block_is_sized(tables, row.exit)
        && row.list.is_inside(tables.counts.references)
        && block_is_sized(tables, row.block)
}

fn transition_is_sized(tables: &Tables, transition: RawTransition) -> bool {
    transition.source < tables.counts.rows as u64
        && transition.descriptors.is_inside(tables.counts.descriptors)
        && transition.descriptors.count <= MAX_DESCRIPTORS_OF_TRANSITION
        && is_none_or_below(transition.condition, tables.counts.rows)
        && transition.kind <= 1
        && transition.targets.is_inside(tables.counts.references)
        && transition.targets.count <= MAX_TARGETS_OF_TRANSITION
        && block_is_sized(tables, transition.block)
}

/// The delay and the send id are 0 but in a send, which may have no send id.
fn action_is_sized(tables: &Tables, action: RawAction) -> bool {
    let argument_fits = match action.what {
        0 => action.argument < tables.counts.slots as u64,
        1 => action.argument <= MAX_HOST_ACTION,
        2 | 3 => action.argument < tables.counts.rows as u64,
        4 | 5 => action.argument == 0,
        6 | 7 => action.argument < tables.counts.slots as u64,
        _ => false,
    };
    let others_fit = match action.what {
        6 => action.delay <= MAX_DELAY && is_none_or_below(action.send_id, tables.counts.slots),
        _ => action.delay == 0 && action.send_id == 0,
    };
    argument_fits && others_fit
}

// Rule 2

/// "every slot, used or not, a name or descriptor, ids and raises names." Of sends and cancels "their
/// events and send ids are names, as raises are" (R-9). An action counts whether a block holds it or not.
fn names_are_good(tables: &Tables, chart: &Chart) -> bool {
    chart.names.iter().all(|slot| slot_holds_descriptor(slot))
        && (0..tables.counts.actions).all(|action| action_is_named(chart, tables.decode_action(action)))
        && ids_are_good(chart)
}

fn action_is_named(chart: &Chart, action: Action) -> bool {
    let is_named = |name: NameNumber| slot_holds_name(&chart.names[name.0]);
    match action {
        Action::Raise(name) | Action::Cancel(name) => is_named(name),
        Action::Send { event, id, .. } => is_named(event) && id.is_none_or(is_named),
        _ => true,
    }
}

/// "The root has neither id nor parent", "all ids differ". For this rule the root is row 0.
fn ids_are_good(chart: &Chart) -> bool {
    let mut seen = HashSet::new();
    chart.row_numbers().all(|row| match chart.row(row).id {
        None => row == ROOT,
        Some(name) => {
            let slot = &chart.names[name.0];
            row != ROOT && slot_holds_id(slot) && seen.insert(*slot)
        }
    })
}

// Rule 3

/// "Which kind may stand under which kind is a fixed table of six by six": read by the parent's
/// kind, then by the child's.
#[rustfmt::skip]
const MAY_STAND_UNDER: [[bool; 6]; 6] = [
    // root   state  parallel final  shallow deep
    [  false, true,  true,    true,  false,  false ], // under root
    [  false, true,  true,    true,  true,   true  ], // under state
    [  false, true,  true,    false, true,   true  ], // under parallel
    [  false, false, false,   false, false,  false ], // under final
    [  false, false, false,   false, false,  false ], // under shallow history
    [  false, false, false,   false, false,  false ], // under deep history
];

fn may_stand_under(child: Kind, parent: Kind) -> bool {
    MAY_STAND_UNDER[parent as usize][child as usize]
}

fn is_tree(chart: &Chart) -> bool {
    let root_is_good = chart.kind(ROOT) == Kind::Root && chart.row(ROOT).parent.is_none();
    root_is_good
        && chart.row_numbers().skip(1).all(|row| stands_well(chart, row))
        && chart.row_numbers().all(|row| has_needed_child(chart, row))
}

/// "the parent of row i+1 is row i or an ancestor of it". Called in document order, so that the
/// rows before this one already stand well and the climb ends at the root.
fn stands_well(chart: &Chart, row: RowNumber) -> bool {
    let Some(parent) = chart.row(row).parent else { return false };
    let mut climb = Some(RowNumber(row.0 - 1));
    while let Some(reached) = climb {
        if reached == parent {
            return may_stand_under(chart.kind(row), chart.kind(parent));
        }
        climb = chart.row(reached).parent;
    }
    false
}

/// "Root, each parallel, and each state that has a history has at least one child that is no
/// history."
fn has_needed_child(chart: &Chart, row: RowNumber) -> bool {
    let has_child = |history: bool| {
        chart.rows.iter().any(|child| child.parent == Some(row) && child.kind.is_history() == history)
    };
    let needs_child = match chart.kind(row) {
        Kind::Root | Kind::Parallel => true,
        Kind::State => has_child(true),
        _ => false,
    };
    !needs_child || has_child(false)
}

// Rule 4

fn lists_are_good(chart: &Chart, tree: &Tree) -> bool {
    chart.row_numbers().all(|row| row_list_is_good(chart, tree, row))
        && chart.transitions.iter().all(|transition| {
            can_hold_together(tree, &transition.targets) && !transition.targets.contains(&ROOT)
        })
}

/// "the anchors are pairwise different, none is an ancestor of another, and the nearest common
/// ancestor of each two is parallel".
pub fn can_hold_together(tree: &Tree, list: &[RowNumber]) -> bool {
    list.iter().enumerate().all(|(place, &one)| {
        list[..place].iter().all(|&other| fits_beside(tree, tree.anchor(one), tree.anchor(other)))
    })
}

fn fits_beside(tree: &Tree, one: RowNumber, other: RowNumber) -> bool {
    one != other
        && !tree.is_ancestor(one, other)
        && !tree.is_ancestor(other, one)
        && tree.nearest_common_ancestor(one, other).is_some_and(|row| tree.is_parallel(row))
}

fn row_list_is_good(chart: &Chart, tree: &Tree, number: RowNumber) -> bool {
    let row = chart.row(number);
    match row.kind {
        Kind::Root => {
            initial_list_is_good(chart, tree, number)
                && row.entry.is_empty()
                && row.exit.is_empty()
                && row.block.is_empty()
        }
        Kind::State if tree.is_compound(number) => initial_list_is_good(chart, tree, number),
        Kind::State | Kind::Parallel | Kind::Final => row.list.is_empty() && row.block.is_empty(),
        Kind::ShallowHistory | Kind::DeepHistory => {
            default_list_is_good(chart, tree, number) && row.entry.is_empty() && row.exit.is_empty()
        }
    }
}

/// "Initial lists hold proper descendants of their owner", and each "may name a history whose parent is
/// the owner or a descendant of it". "An empty initial list means the first non-history child and
/// its block must be empty".
fn initial_list_is_good(chart: &Chart, tree: &Tree, owner: RowNumber) -> bool {
    let row = chart.row(owner);
    let below = tree.descendants(owner);
    let is_good = |&target: &RowNumber| match tree.is_history(target) {
        true => tree.anchor(target) == owner || below.contains(tree.anchor(target)),
        false => below.contains(target),
    };
    row.list.iter().all(is_good)
        && can_hold_together(tree, &row.list)
        && (!row.list.is_empty() || row.block.is_empty())
}

/// "A default list is not empty, holds no history, and holds children (shallow) or proper
/// descendants (deep) of the history's parent."
fn default_list_is_good(chart: &Chart, tree: &Tree, history: RowNumber) -> bool {
    let row = chart.row(history);
    let Some(parent) = row.parent else { return false };
    let allowed = match row.kind {
        Kind::ShallowHistory => tree.children(parent),
        _ => tree.descendants(parent),
    };
    !row.list.is_empty()
        && row.list.iter().all(|&target| allowed.contains(target))
        && can_hold_together(tree, &row.list)
}

// Rule 5

/// "an eventless transition that has no targets, and an eventless one without condition whose
/// target list holds its own source" (R-7).
fn spins(transition: &crate::tables::Transition) -> bool {
    transition.descriptors.is_empty()
        && (transition.targets.is_empty()
            || (transition.condition.is_none() && transition.targets.contains(&transition.source)))
}

/// Each block by itself, with the structure of R-5; "In names a state, parallel or final" of its
/// conditions too.
fn blocks_are_good(chart: &Chart, tree: &Tree) -> bool {
    let rows = chart.rows.iter().flat_map(|row| [&row.entry, &row.exit, &row.block]);
    let mut blocks = rows.chain(chart.transitions.iter().map(|transition| &transition.block));
    blocks.all(|block| parse(block).is_some() && conditions(block).all(|row| tree.is_real_state(row)))
}

/// "no source number is below the one before it; the source is a state or parallel; at least one
/// of descriptor, condition, target is there; In names a state, parallel or final."
fn transitions_are_good(chart: &Chart, tree: &Tree) -> bool {
    let sorted = chart.transitions.windows(2).all(|pair| pair[0].source <= pair[1].source);
    sorted
        && chart.transitions.iter().all(|transition| {
            matches!(chart.kind(transition.source), Kind::State | Kind::Parallel)
                && !(transition.descriptors.is_empty()
                    && transition.condition.is_none()
                    && transition.targets.is_empty())
                && !spins(transition)
                && transition.condition.is_none_or(|row| tree.is_real_state(row))
        })
}
