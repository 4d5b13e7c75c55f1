//! Blocks with if, elseif, else and end that break a rule, and blocks next to them. Row 1 stands under
//! the root, so that it is no history.

use super::*;

const IF: Action = Action::If(RowNumber(1));
const ELSEIF: Action = Action::ElseIf(RowNumber(1));
const HOST: Action = Action::Host(7);

/// Gives some row or transition this block, in any place where it may have one.
pub(super) fn put(chart: &mut Chart, tree: &Tree, random: &mut Random, block: &[Action]) -> Option<()> {
    let acts = rows_where(chart, tree, Tree::is_real_state);
    let lists: Vec<RowNumber> =
        chart.row_numbers().filter(|&row| row != ROOT && !chart.row(row).list.is_empty()).collect();
    let transitions: Vec<usize> = (0..chart.transitions.len()).collect();
    match (random.below(4), random.pick(&lists), random.pick(&transitions)) {
        (0, Some(row), _) => chart.rows[row.0].block = block.to_vec(),
        (1, _, Some(transition)) => chart.transitions[transition].block = block.to_vec(),
        (2, _, _) => chart.rows[random.pick(&acts)?.0].exit = block.to_vec(),
        _ => chart.rows[random.pick(&acts)?.0].entry = block.to_vec(),
    }
    Some(())
}

/// Adds an action that no block uses.
pub(super) fn unused(lent: &mut Lent, action: [u64; ACTION_CELLS]) -> Option<()> {
    let lines = lent.counts().actions as u64 + 1;
    (lines <= MAX_ACTIONS).then_some(())?;
    lent.lengthen(Table::Actions, lines, &action)
}

macro_rules! block {
    ($name:literal, $rule:literal, $block:expr) => {
        chart!($name, $rule, |chart, tree, random| put(chart, tree, random, &$block))
    };
}

pub fn refused() -> Vec<NearMiss> {
    [without_an_open_if(), after_its_else(), unclosed_or_deep(), conditions(), cells()].concat()
}

fn without_an_open_if() -> Vec<NearMiss> {
    vec![
        block!("elseif without an open if", 5, [ELSEIF, HOST]),
        block!("else without an open if", 5, [Action::Else, HOST]),
        block!("end without an open if", 5, [HOST, Action::End]),
        block!("elseif behind an end", 5, [IF, HOST, Action::End, ELSEIF, HOST, Action::End]),
        block!("else behind an end", 5, [IF, HOST, Action::End, Action::Else, HOST, Action::End]),
        block!("an end too many", 5, [IF, IF, Action::End, Action::End, Action::End]),
        block!("an end before its if", 5, [Action::End, IF]),
    ]
}

fn after_its_else() -> Vec<NearMiss> {
    vec![
        block!("elseif after else", 5, [IF, Action::Else, ELSEIF, Action::End]),
        block!("else twice", 5, [IF, Action::Else, HOST, Action::Else, Action::End]),
        block!(
            "elseif after else, inside",
            5,
            [IF, IF, Action::Else, HOST, ELSEIF, Action::End, Action::End]
        ),
        block!(
            "elseif after else, behind a whole if",
            5,
            [IF, Action::Else, IF, Action::End, ELSEIF, Action::End]
        ),
        block!(
            "else twice, inside an else",
            5,
            [IF, Action::Else, IF, Action::Else, Action::Else, Action::End, Action::End]
        ),
    ]
}

fn unclosed_or_deep() -> Vec<NearMiss> {
    vec![
        block!("unclosed if", 5, [IF, HOST]),
        block!("unclosed if with an else", 5, [IF, HOST, Action::Else, HOST]),
        block!("unclosed if around a closed one", 5, [IF, IF, HOST, Action::End]),
        block!("unclosed if behind a closed one", 5, [IF, Action::End, IF]),
        block!("a fifth level", 5, [[IF; 5], [Action::End; 5]].concat()),
        block!(
            "a fifth level in an else",
            5,
            [&[IF, Action::Else, IF, IF, IF, IF][..], &[Action::End; 5]].concat()
        ),
        block!("six levels", 5, [[IF; 6], [Action::End; 6]].concat()),
        block!(
            "thirty-three actions with an if",
            1,
            [&[IF][..], &[HOST; MAX_ACTIONS_OF_BLOCK as usize - 1], &[Action::End]].concat()
        ),
    ]
}

fn conditions() -> Vec<NearMiss> {
    vec![
        block!("if In names the root", 5, [Action::If(ROOT), Action::End]),
        block!("elseif In names the root", 5, [IF, Action::ElseIf(ROOT), Action::End]),
        chart!("if In names a history", 5, |chart, tree, random| {
            let history = some_row(chart, tree, random, is_history)?;
            put(chart, tree, random, &[Action::If(history), HOST, Action::End])
        }),
        chart!("elseif In names a history", 5, |chart, tree, random| {
            let history = some_row(chart, tree, random, is_history)?;
            put(chart, tree, random, &[IF, HOST, Action::ElseIf(history), Action::End])
        }),
    ]
}

fn cells() -> Vec<NearMiss> {
    vec![
        tables!("if of a row past the rows", 1, |lent, _| {
            let rows = lent.counts().rows as u64;
            unused(lent, [2, rows, 0, 0])
        }),
        tables!("elseif of a row past the rows", 1, |lent, _| {
            let rows = lent.counts().rows as u64;
            unused(lent, [3, rows, 0, 0])
        }),
        tables!("if of none", 1, |lent, _| unused(lent, [2, NONE, 0, 0])),
        tables!("elseif of a huge row", 1, |lent, _| unused(lent, [3, HUGE, 0, 0])),
        tables!("else of a row", 1, |lent, _| unused(lent, [4, 1, 0, 0])),
        tables!("else of none", 1, |lent, _| unused(lent, [4, NONE, 0, 0])),
        tables!("end of a row", 1, |lent, _| unused(lent, [5, 1, 0, 0])),
        tables!("if with a delay", 1, |lent, _| unused(lent, [2, 1, 1, 0])),
        tables!("elseif with a send id", 1, |lent, _| unused(lent, [3, 1, 0, 1])),
        tables!("else with a delay", 1, |lent, _| unused(lent, [4, 0, 1, 0])),
        tables!("end with a send id", 1, |lent, _| unused(lent, [5, 0, 0, NONE])),
    ]
}

/// Blocks and cells that break no rule.
pub fn accepted() -> Vec<NearMiss> {
    vec![
        block!("an if with nothing inside", 0, [IF, Action::End]),
        block!("an else with nothing inside", 0, [IF, ELSEIF, ELSEIF, Action::Else, Action::End]),
        block!("four levels", 0, [[IF; 4], [Action::End; 4]].concat()),
        block!(
            "a fourth level twice",
            0,
            [&[IF, IF, IF, IF, Action::End, IF, Action::Else, HOST][..], &[Action::End; 4]].concat()
        ),
        block!(
            "a fourth level in an else",
            0,
            [&[IF, ELSEIF, Action::Else, IF, IF, IF, HOST][..], &[Action::End; 4]].concat()
        ),
        block!("an if behind an if", 0, [IF, HOST, Action::End, IF, Action::Else, HOST, Action::End]),
        block!(
            "thirty-two actions with an if",
            0,
            [&[IF][..], &[HOST; MAX_ACTIONS_OF_BLOCK as usize - 2], &[Action::End]].concat()
        ),
        chart!("if In names a final", 0, |chart, tree, random| {
            let row = some_row(chart, tree, random, has_kind(Kind::Final))?;
            put(chart, tree, random, &[Action::If(row), HOST, Action::End])
        }),
        chart!("elseif In names a parallel", 0, |chart, tree, random| {
            let row = some_row(chart, tree, random, has_kind(Kind::Parallel))?;
            put(chart, tree, random, &[IF, Action::ElseIf(row), HOST, Action::End])
        }),
        tables!("unused end", 0, |lent, _| unused(lent, [5, 0, 0, 0])),
        tables!("unused else", 0, |lent, _| unused(lent, [4, 0, 0, 0])),
        tables!("unused if of the root", 0, |lent, _| unused(lent, [2, 0, 0, 0])),
    ]
}
