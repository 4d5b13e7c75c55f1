//! Sends and cancels that break a rule, and such as come next to them.

use super::branches::{put, unused};
use super::*;

/// The first slot holds the id of the first row.
const NAME: NameNumber = NameNumber(0);
const SEND: Action = Action::Send { event: NAME, delay: 1, id: None };
const CANCEL: Action = Action::Cancel(NAME);

/// An action of a new name, in any block.
fn of_name(
    chart: &mut Chart,
    tree: &Tree,
    random: &mut Random,
    text: &[u8],
    action: fn(NameNumber) -> Action,
) -> Option<()> {
    let name = push_slot(chart, text)?;
    put(chart, tree, random, &[action(name)])
}

fn send(event: NameNumber) -> Action {
    Action::Send { event, delay: 5, id: None }
}

fn send_as(id: NameNumber) -> Action {
    Action::Send { event: NAME, delay: 5, id: Some(id) }
}

/// The first slot that holds a star.
fn star(lent: &Lent) -> Option<u64> {
    let mut slots = lent.spelt.names.chunks(SLOT_BYTES);
    slots.position(|slot| slot == slot_of(b"*")).map(|place| place as u64)
}

macro_rules! name {
    ($name:literal, $rule:literal, $text:expr, $action:expr) => {
        chart!($name, $rule, |chart, tree, random| of_name(chart, tree, random, $text, $action))
    };
}

pub fn refused() -> Vec<NearMiss> {
    [numbers(), names(), others_with_columns()].concat()
}

fn numbers() -> Vec<NearMiss> {
    vec![
        tables!("send of an event past the slots", 1, |lent, _| {
            let slots = lent.counts().slots as u64;
            unused(lent, [6, slots, 0, NONE])
        }),
        tables!("send of no event", 1, |lent, _| unused(lent, [6, NONE, 0, NONE])),
        tables!("delay 4,294,967,296", 1, |lent, _| unused(lent, [6, 0, MAX_DELAY + 1, NONE])),
        tables!("a huge delay", 1, |lent, _| unused(lent, [6, 0, HUGE, 0])),
        tables!("send id past the slots", 1, |lent, _| {
            let slots = lent.counts().slots as u64;
            unused(lent, [6, 0, 0, slots])
        }),
        tables!("send id 65,536", 1, |lent, _| unused(lent, [6, 0, 0, NONE + 1])),
        tables!("cancel of an id past the slots", 1, |lent, _| {
            let slots = lent.counts().slots as u64;
            unused(lent, [7, slots, 0, 0])
        }),
        tables!("cancel of none", 1, |lent, _| unused(lent, [7, NONE, 0, 0])),
        tables!("cancel with a delay", 1, |lent, _| unused(lent, [7, 0, 1, 0])),
        tables!("cancel with a send id", 1, |lent, _| unused(lent, [7, 0, 0, 1])),
        tables!("cancel with no send id", 1, |lent, _| unused(lent, [7, 0, 0, NONE])),
        chart!("thirty-three sends in a block", 1, |chart, tree, random| {
            put(chart, tree, random, &[SEND; MAX_ACTIONS_OF_BLOCK as usize + 1])
        }),
    ]
}

fn names() -> Vec<NearMiss> {
    vec![
        name!("send of a star", 2, b"*", send),
        name!("send of a descriptor", 2, b"a.*", send),
        name!("send id a star", 2, b"*", send_as),
        name!("send id a descriptor", 2, b"t.*", send_as),
        name!("cancel of a star", 2, b"*", Action::Cancel),
        name!("cancel of a descriptor", 2, b"t.*", Action::Cancel),
        tables!("unused send of a star", 2, |lent, _| {
            let star = star(lent)?;
            unused(lent, [6, star, 0, NONE])
        }),
        tables!("unused send id a star", 2, |lent, _| {
            let star = star(lent)?;
            unused(lent, [6, 0, 0, star])
        }),
        tables!("unused cancel of a star", 2, |lent, _| {
            let star = star(lent)?;
            unused(lent, [7, star, 0, 0])
        }),
    ]
}

fn others_with_columns() -> Vec<NearMiss> {
    vec![
        tables!("action 8", 1, |lent, random| lent.set_in_some(random, Table::Actions, 0, 8)),
        tables!("raise with a delay", 1, |lent, _| unused(lent, [0, 0, 1, 0])),
        tables!("raise with a send id", 1, |lent, _| unused(lent, [0, 0, 0, 1])),
        tables!("raise with no send id", 1, |lent, _| unused(lent, [0, 0, 0, NONE])),
        tables!("host action with a delay", 1, |lent, _| unused(lent, [1, 0, 1, 0])),
        tables!("host action with a send id", 1, |lent, _| unused(lent, [1, 0, 0, 1])),
    ]
}

pub fn accepted() -> Vec<NearMiss> {
    vec![
        tables!("unused send with the longest delay", 0, |lent, _| { unused(lent, [6, 0, MAX_DELAY, NONE]) }),
        tables!("unused send as the first slot", 0, |lent, _| unused(lent, [6, 0, 0, 0])),
        tables!("unused cancel", 0, |lent, _| unused(lent, [7, 0, 0, 0])),
        name!("send id of 63 bytes", 0, &[b't'; MAX_NAME_BYTES], send_as),
        name!("send id that begins with a digit", 0, b"9.t", send_as),
        name!("cancel of an id that no send has", 0, b"-none-", Action::Cancel),
        chart!("send id that a row has, twice", 0, |chart, tree, random| {
            put(chart, tree, random, &[send_as(NAME), send_as(NAME), CANCEL])
        }),
        chart!("thirty-two sends in a block", 0, |chart, tree, random| {
            put(chart, tree, random, &[SEND; MAX_ACTIONS_OF_BLOCK as usize])
        }),
        chart!("a send and a cancel in branches", 0, |chart, tree, random| {
            let row = some_row(chart, tree, random, Tree::is_real_state)?;
            put(chart, tree, random, &[Action::If(row), SEND, Action::Else, CANCEL, Action::End])
        }),
    ]
}
