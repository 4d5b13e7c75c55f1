//! "Selecting must answer with each transition the first active atomic state that chose it".

use super::{accepted, Worked};
use crate::builder::{Builder, Do};
use crate::readings::{post, run, run_in, start};
use crate::tables::Chart;

const STARTED: &str = "[0, 0] (3,1) (3,2) (3,3) (3,5) (3,6) conf [1, 2, 3, 5, 6]";

/// 1 p, 2 a, 3 a1, 4 a2, 5 c, 6 c1: p is parallel. Transitions 0 to 2 are p's, 3 is a1's, 4 c's, 5 c1's.
fn two_regions() -> Chart {
    let mut b = Builder::new();
    b.parallel("", "p").state("p", "a").state("a", "a1").state("a", "a2").state("p", "c").state("c", "c1");
    b.on("p", "e", "").doing(&[Do::Host(1)]).on("p", "g", "p").on("p", "k", "p");
    b.on("a1", "k", "a2").on("c", "g", "p").on("c1", "k", "");
    b.chart()
}

pub fn all() -> Vec<Worked> {
    let chart = two_regions();
    vec![
        accepted(
            "chosen_by_two",
            "R-6: chosen twice counts once, by the first in document order; kind 7 ahead of the block",
            &chart,
            vec![start(), post("e"), run(1)],
            &[STARTED, "[101, 1] (2,0) (7,3) (4,1) conf [1, 2, 3, 5, 6]"],
        ),
        accepted(
            "chosen_and_removed",
            "R-6: p's transition, chosen by a1, is removed by c's, chosen by c1",
            &chart,
            vec![start(), post("g"), run(1)],
            &[
                STARTED,
                "[101, 1] (1,6) (1,5) (1,3) (1,2) (1,1) (2,4) (7,6) (3,1) (3,2) (3,3) (3,5) (3,6) conf [1, 2, 3, 5, 6]",
            ],
        ),
        accepted(
            "two_choosers",
            "R-6: two transitions, each with its own chooser, one without targets",
            &chart,
            vec![start(), post("k"), run(1)],
            &[STARTED, "[101, 1] (1,3) (2,3) (7,3) (2,5) (7,6) (3,4) conf [1, 2, 4, 5, 6]"],
        ),
        accepted(
            "chooser_without_room",
            "R-6: kind 7 entries count towards 10",
            &chart,
            vec![start(), post("e"), run_in(1, 2), run_in(1, 3)],
            &[
                STARTED,
                "[10, 0]  conf [1, 2, 3, 5, 6]",
                "[101, 1] (2,0) (7,3) (4,1) conf [1, 2, 3, 5, 6]",
            ],
        ),
    ]
}
