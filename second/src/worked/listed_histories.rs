//! "An initial list may name a history whose parent is the owner or a descendant of it."

use super::{accepted, refused, Worked};
use crate::builder::{Builder, Do};
use crate::readings::{post, run, start};
use crate::tables::Chart;

/// 1 s, 2 a, 3 b, 4 h, 5 o: s names its own history, which falls to b. Entry, initial and default block
/// are the host actions 1, 2 and 3. On "out" s leads to this target.
fn own_history(target: &str) -> Chart {
    let mut b = Builder::new();
    b.state("", "s").state("s", "a").state("s", "b").shallow("s", "h").state("", "o");
    b.on_entry("s", &[Do::Host(1)]).list("s", "h", &[Do::Host(2)]).list("h", "b", &[Do::Host(3)]);
    b.on("s", "out", target).on("b", "g", "a").on("o", "back", "s");
    b.chart()
}

/// 1 s, 2 a, 3 q, 4 q1, 5 q2, 6 h: s names the history of q, which falls to q2. q has an initial list and
/// block of its own.
fn history_below(root_too: bool) -> Chart {
    let mut b = Builder::new();
    b.state("", "s").state("s", "a").state("s", "q").state("q", "q1").state("q", "q2").shallow("q", "h");
    b.on_entry("s", &[Do::Host(1)]).list("s", "h", &[Do::Host(2)]).list("h", "q2", &[Do::Host(3)]);
    b.on_entry("q", &[Do::Host(4)]).list("q", "q1", &[Do::Host(9)]);
    if root_too {
        b.list("", "h", &[]);
    }
    b.chart()
}

/// 1 s, 2 p, 3 c, 4 c1, 5 c2, 6 hc, 7 d, 8 d1, 9 d2, 10 h: s names the history of the parallel p, which
/// falls to d2; c names its own history, which falls to c2.
fn history_of_a_parallel() -> Chart {
    let mut b = Builder::new();
    b.state("", "s").parallel("s", "p").state("p", "c").state("c", "c1").state("c", "c2").shallow("c", "hc");
    b.state("p", "d").state("d", "d1").state("d", "d2").deep("p", "h");
    b.on_entry("p", &[Do::Host(4)]).list("s", "h", &[]).list("h", "d2", &[Do::Host(3)]);
    b.list("c", "hc", &[Do::Host(5)]).list("hc", "c2", &[Do::Host(6)]);
    b.chart()
}

const FALLEN: &str = "[0, 0] (3,1) (4,1) (4,2) (4,3) (3,3) conf [1, 3]";

fn of_the_owner() -> Vec<Worked> {
    vec![
        accepted(
            "own_history_fallen",
            "R-3: own history, nothing stored: entry, initial, default block, then the default list",
            &own_history("o"),
            vec![start()],
            &[FALLEN],
        ),
        accepted(
            "own_history_stored",
            "R-3: own history, stored: the initial block runs, the default block does not",
            &own_history("o"),
            vec![start(), post("g"), post("out"), post("back"), run(9)],
            &[
                FALLEN,
                "[101, 3] (1,3) (2,1) (7,3) (3,2) (1,2) (1,1) (2,0) (7,2) (3,5) (1,5) (2,2) (7,5) (3,1) (4,1) (4,2) (3,2) conf [1, 2]",
            ],
        ),
        accepted(
            "own_history_of_this_round",
            "R-3: the history as this round's exits left it: an external self transition restores what it exits",
            &own_history("s"),
            vec![start(), post("g"), post("out"), run(9)],
            &[
                FALLEN,
                "[101, 2] (1,3) (2,1) (7,3) (3,2) (1,2) (1,1) (2,0) (7,2) (3,1) (4,1) (4,2) (3,2) conf [1, 2]",
            ],
        ),
    ]
}

fn of_rows_below() -> Vec<Worked> {
    vec![
        accepted(
            "history_below",
            "R-3: a history of a descendant: the default block in that row's entry, its own initial block not",
            &history_below(false),
            vec![start()],
            &["[0, 0] (3,1) (4,1) (4,2) (3,3) (4,4) (4,3) (3,5) conf [1, 3, 5]"],
        ),
        accepted(
            "history_of_a_parallel",
            "R-3: a history of a parallel below; the other region comes by its own initial list, which names its own history",
            &history_of_a_parallel(),
            vec![start()],
            &["[0, 0] (3,1) (3,2) (4,4) (4,3) (3,3) (4,5) (4,6) (3,5) (3,7) (3,9) conf [1, 2, 3, 5, 7, 9]"],
        ),
        accepted(
            "history_of_the_root_list",
            "R-3: the root's initial list names a history: default block in the parent's entry, no initial block above it",
            &history_below(true),
            vec![start()],
            &["[0, 0] (3,1) (4,1) (3,3) (4,4) (4,3) (3,5) conf [1, 3, 5]"],
        ),
    ]
}

/// 1 s, 2 a, 3 q, 4 q1, 5 q2, 6 h, 7 g, 8 hs, 9 z: two histories of q and one of s, with these lists.
fn listed(owner: &str, list: &str) -> Chart {
    let mut b = Builder::new();
    b.state("", "s").state("s", "a").state("s", "q").state("q", "q1").state("q", "q2");
    b.shallow("q", "h").deep("q", "g").shallow("s", "hs").state("", "z").state("z", "z1");
    b.list("h", "q1", &[]).list("g", "q2", &[]).list("hs", "a", &[]).list(owner, list, &[]);
    b.chart()
}

pub fn all() -> Vec<Worked> {
    let mut all = of_the_owner();
    all.extend(of_rows_below());
    let refusals = [
        ("own_history_and_a_child", "the owner's own history stands alone in the list", "s", "hs a"),
        ("history_and_a_row_below", "a history and a row below its parent", "s", "h q1"),
        ("two_histories_of_one_row", "two histories of one row", "s", "h g"),
        ("history_outside", "a history that stands outside the owner", "z", "h"),
        ("default_list_with_history", "a default list still holds no history", "hs", "h"),
    ];
    all.extend(
        refusals.map(|(name, about, owner, list)| {
            refused(name, &format!("R-3: {about}"), &listed(owner, list), 4)
        }),
    );
    all
}
