//! The five rules that a chart keeps, checked in their order over the whole chart.

use super::chart::{Kinds, Sets, Spellings, NO_SPELLINGS};
use super::limits::*;
use super::names::Spelling;
use super::row_set::{has, RowSet};
use super::tables::*;
use super::tree::Tree;

/// The answer of compiling: 0, or the first rule broken.
pub fn verdict(numbers: &[u64], names: &[u8], place: usize, name_place: usize) -> u32 {
    let Some(counts) = Counts::read(numbers) else { return 1 };
    let places_fit = place == counts.compiled_cells() && name_place == counts.name_bytes();
    match Tables::cut(&counts, numbers, names) {
        Some(tables) if places_fit => broken_rule(&tables),
        _ => 1,
    }
}

/// Nothing but the lengths of the tables is known before.
fn broken_rule(tables: &Tables) -> u32 {
    if !is_sized(tables) {
        return 1;
    }
    if !is_named(tables, &mut { NO_SPELLINGS }) {
        return 2;
    }
    let Some(tree) = Tree::grown(tables) else { return 3 };
    if !lists_fit(tables, tree.sets(), &Kinds::of(tables, tree.sets())) {
        return 4;
    }
    if !transitions_fit(tables) || (has_branches(tables) && !blocks_fit(tables)) {
        return 5;
    }
    0
}

// Rule 1

pub fn is_sized(tables: &Tables) -> bool {
    let rows = tables.row_count() as u64;
    let names = tables.names.len() as u64;
    let is_row_or_none = |number: u64| number < rows || number == NONE;
    let is_inside =
        |part: Part, count: usize| part.start <= count as u64 && part.count <= count as u64 - part.start;
    let is_block = |part: Part| part.count <= MOST_ACTIONS_EACH && is_inside(part, tables.actions.len());
    let parts_fit = |row: Row| {
        is_block(row.entry())
            && is_block(row.exit())
            && is_inside(row.list(), tables.references.len())
            && is_block(row.block())
    };
    let row_fits = |row: Row| {
        row.kind() <= 5
            && is_row_or_none(row.parent())
            && (row.id() < names || row.id() == NONE)
            && (row.has_no_parts() || parts_fit(row))
    };
    let transition_fits = |transition: Transition| {
        (transition.source() as u64) < rows
            && transition.descriptors().count <= MOST_DESCRIPTORS_EACH
            && is_inside(transition.descriptors(), tables.descriptors.len())
            && is_row_or_none(transition.condition())
            && transition.kind() <= 1
            && transition.targets().count <= MOST_TARGETS_EACH
            && is_inside(transition.targets(), tables.references.len())
            && is_block(transition.block())
    };
    let arguments = [names, 65_536, rows, rows, 1, 1, names, names];
    let action_fits = |&[what, argument, third, fourth]: &[u64; 4]| {
        what <= CANCEL
            && argument < arguments[what as usize]
            && match what {
                SEND => third <= MOST_DELAY && (fourth < names || fourth == NONE),
                _ => third == 0 && fourth == 0,
            }
    };
    (0..tables.row_count()).all(|row| row_fits(tables.row(row)))
        && tables.all_transitions().all(transition_fits)
        && tables.references.iter().all(|&row| row < rows)
        && tables.descriptors.iter().all(|&name| name < names)
        && tables.actions.iter().all(action_fits)
}

// Rule 2

/// Notes how the names are spelt.
pub fn is_named(tables: &Tables, spellings: &mut Spellings) -> bool {
    for (slot, place) in tables.names.iter().zip(&mut *spellings) {
        let Some(spelling) = Spelling::of(slot) else { return false };
        *place = spelling;
    }
    let is_name = |name: u64| spellings[name as usize].is_name();
    let action_fits = |&[what, name, _, id]: &[u64; 4]| match what {
        RAISE | CANCEL => is_name(name),
        SEND => is_name(name) && (id == NONE || is_name(id)),
        _ => true,
    };
    tables.actions.iter().all(action_fits) && ids_fit(tables, spellings)
}

/// Every row but the root has an id, and they all differ: each goes to a place that its bytes tell,
/// or to the next free one.
fn ids_fit(tables: &Tables, spellings: &Spellings) -> bool {
    const PLACES: usize = 2 * MOST_ROWS;
    let mut taken = [ROOT as u8; PLACES];
    if tables.row(ROOT).id() != NONE {
        return false;
    }
    for row in 1..tables.row_count() {
        let name = tables.row(row).id();
        if name == NONE {
            return false;
        }
        let (slot, spelling) = (&tables.names[name as usize], spellings[name as usize]);
        if !spelling.is_id(slot) {
            return false;
        }
        let mut place = spelling.key(slot) % PLACES;
        while taken[place] != ROOT as u8 {
            if tables.id(taken[place].into()) == slot {
                return false;
            }
            place = (place + 1) % PLACES;
        }
        taken[place] = row as u8;
    }
    true
}

// Rule 4

pub fn lists_fit(tables: &Tables, sets: Sets, kinds: &Kinds) -> bool {
    (0..tables.row_count()).all(|row| row_fits(tables, sets, kinds, row))
        && tables.all_transitions().all(|transition| {
            tables.listed(transition.targets()).all(|target| target != ROOT)
                && are_apart(tables, sets, transition.targets())
        })
}

#[inline]
fn row_fits(tables: &Tables, sets: Sets, kinds: &Kinds, number: usize) -> bool {
    let row = tables.row(number);
    let (list, block) = (row.list(), row.block());
    let holds_list = has(&kinds.compound.0, number);
    if !holds_list && !row.is_history() {
        return list.count == 0 && block.count == 0;
    }
    let may_act = number != ROOT && !row.is_history();
    if !may_act && (row.entry().count > 0 || row.exit().count > 0) {
        return false;
    }
    if holds_list {
        // A history stands below its owner too.
        let may_have_block = list.count > 0 && number != ROOT;
        return (may_have_block || block.count == 0)
            && tables.listed(list).all(|row| sets.ancestors(row).contains(number))
            && are_apart(tables, sets, list);
    }
    let parent = row.parent() as usize;
    let allowed = match row.kind() {
        SHALLOW => sets.children(parent),
        _ => sets.descendants(parent),
    };
    list.count > 0 && tables.listed(list).all(|row| allowed.contains(row)) && are_apart(tables, sets, list)
}

/// The anchors differ, none is an ancestor of another, and the nearest common ancestor of each
/// two is parallel.
#[inline]
fn are_apart(tables: &Tables, sets: Sets, list: Part) -> bool {
    if list.count < 2 {
        return true;
    }
    let anchors = tables.listed(list).map(|row| anchor(tables, row));
    anchors.clone().enumerate().all(|(place, one)| {
        anchors.clone().take(place).all(|other| {
            let (above_one, above_other) = (sets.ancestors(one), sets.ancestors(other));
            one != other
                && !above_one.contains(other)
                && !above_other.contains(one)
                && (above_one & above_other).last().is_some_and(|row| tables.row(row).kind() == PARALLEL)
        })
    })
}

/// The initial list of the root or a compound state, histories as they stand there, or its first child;
/// nothing for the others.
#[inline]
pub fn defaults(tables: &Tables, sets: Sets, kinds: &Kinds, row: usize) -> RowSet {
    if !has(&kinds.compound.0, row) {
        return RowSet::EMPTY;
    }
    match tables.row(row).list() {
        Part { count: 0, .. } => sets.children(row).first_from(0).map_or(RowSet::EMPTY, RowSet::single),
        list => tables.listed(list).collect(),
    }
}

/// The anchors of a transition's targets.
#[inline]
pub fn anchors(tables: &Tables, transition: usize) -> RowSet {
    let targets = tables.transition(transition).targets();
    tables.listed(targets).map(|target| anchor(tables, target)).collect()
}

#[inline]
fn anchor(tables: &Tables, row: usize) -> usize {
    match tables.row(row) {
        history if history.is_history() => history.parent() as usize,
        _ => row,
    }
}

// Rule 5

#[inline]
fn is_real(tables: &Tables, row: u64) -> bool {
    matches!(tables.row(row as usize).kind(), STATE | PARALLEL | FINAL)
}

/// Whether there is an if, elseif, else or end at all, in a block or not.
pub fn has_branches(tables: &Tables) -> bool {
    tables.actions.iter().any(|&[what, ..]| (IF..=END).contains(&what))
}

pub fn blocks_fit(tables: &Tables) -> bool {
    let fits = |block: Part| block.count == 0 || block_fits(tables, block);
    tables.all_rows().all(|row| fits(row.entry()) && fits(row.exit()) && fits(row.block()))
        && tables.all_transitions().all(|transition| fits(transition.block()))
}

/// Every elseif, else and end has its open if, no elseif or else comes after its else, and every if ends.
fn block_fits(tables: &Tables, block: Part) -> bool {
    let mut open = 0;
    // A bit for each open if whose else has come.
    let mut past_else = 0_u32;
    let fits = tables.block(block).iter().all(|&[what, row, ..]| {
        let innermost = 1_u32 << open >> 1;
        let takes_branch = open > 0 && past_else & innermost == 0;
        match what {
            IF => {
                open += 1;
                open <= MOST_OPEN_IFS && is_real(tables, row)
            }
            ELSE_IF => takes_branch && is_real(tables, row),
            ELSE => {
                past_else |= innermost;
                takes_branch
            }
            END if open == 0 => false,
            END => {
                past_else &= !innermost;
                open -= 1;
                true
            }
            _ => true,
        }
    });
    fits && open == 0
}

pub fn transitions_fit(tables: &Tables) -> bool {
    let mut least = 0;
    tables.all_transitions().all(|transition| {
        let source = transition.source();
        let in_order = least <= source;
        least = source;
        let condition = transition.condition();
        let to_itself = || tables.listed(transition.targets()).any(|target| target == source);
        let spins = transition.descriptors().count == 0
            && (transition.targets().count == 0 || (condition == NONE && to_itself()));
        in_order
            && matches!(tables.row(source).kind(), STATE | PARALLEL)
            && !spins
            && (condition == NONE || is_real(tables, condition))
    })
}
