//! "Rule 5 shall also refuse an eventless transition that has no targets, and an eventless one without
//! condition whose target list holds its own source." (R-7)

use super::{accepted, refused, Worked};
use crate::builder::Builder;
use crate::readings::{post, run, start};
use crate::tables::Chart;

/// 1 s, 2 z, and one eventless transition of s.
fn with(add: fn(&mut Builder) -> &mut Builder) -> Chart {
    let mut b = Builder::new();
    b.state("", "s").state("", "z");
    add(&mut b);
    b.chart()
}

/// 1 p, 2 a, 3 b: two regions.
fn to_itself_and_another() -> Chart {
    let mut b = Builder::new();
    b.parallel("", "p").state("p", "a").state("p", "b").on("a", "", "b a");
    b.chart()
}

/// 1 s, 2 a, 3 b.
fn with_children(add: fn(&mut Builder) -> &mut Builder) -> Chart {
    let mut b = Builder::new();
    b.state("", "s").state("s", "a").state("s", "b");
    add(&mut b);
    b.chart()
}

fn to_itself() -> Vec<Worked> {
    let no_targets = with(|b| b.on("s", "", "").when_in("s"));
    let itself = with(|b| b.on("s", "", "s"));
    let internally = with(|b| b.on_internally("s", "", "s"));
    vec![
        refused("spins_without_targets", "R-7: eventless, no targets, a condition", &no_targets, 5),
        refused("spins_to_itself", "R-7: eventless, no condition, its own source", &itself, 5),
        refused("spins_internally", "R-7: internal, its own source", &internally, 5),
        refused(
            "spins_among_several",
            "R-7: its own source among several targets",
            &to_itself_and_another(),
            5,
        ),
    ]
}

pub fn all() -> Vec<Worked> {
    let mut all = to_itself();
    all.extend([
        accepted(
            "loop_with_condition",
            "R-7: to its own source with a condition",
            &with(|b| b.on("s", "", "s").when_in("z")),
            vec![start(), run(3)],
            &["[0, 0] (3,1) conf [1]", "[101, 0]  conf [1]"],
        ),
        accepted(
            "loop_with_event",
            "R-7: to its own source with an event",
            &with(|b| b.on("s", "e", "s")),
            vec![start(), post("e")],
            &["[0, 0] (3,1) conf [1]"],
        ),
        accepted(
            "loop_to_each_other",
            "R-7: a longer loop",
            &with_children(|b| b.on("a", "", "b").on("b", "", "a")),
            vec![start(), run(3)],
            &[
                "[0, 0] (3,1) (3,2) conf [1, 2]",
                "[100, 3] (1,2) (2,0) (7,2) (3,3) (1,3) (2,1) (7,3) (3,2) (1,2) (2,0) (7,2) (3,3) conf [1, 3]",
            ],
        ),
        accepted(
            "loop_to_an_ancestor",
            "R-7: to an ancestor, a longer loop",
            &with_children(|b| b.on("a", "", "s")),
            vec![start(), run(2)],
            &[
                "[0, 0] (3,1) (3,2) conf [1, 2]",
                "[100, 2] (1,2) (1,1) (2,0) (7,2) (3,1) (3,2) (1,2) (1,1) (2,0) (7,2) (3,1) (3,2) conf [1, 2]",
            ],
        ),
    ]);
    all
}
