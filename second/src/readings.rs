//! One small chart for each numbered reading of document 01, chosen so that another reading gives
//! another result wherever a chart can tell them apart.

use crate::builder::{Builder, Do};
use crate::calls::Call;
use crate::encode::{encode_plainly, Spelt};
use crate::examples::Example;
use crate::limits::{NONE, SLOT_BYTES};
use crate::names::slot_of;
use crate::numbers::NameNumber;
use crate::tables::{Action, Chart};

const ROOM: usize = 200;

pub fn start() -> Call {
    Call::Start { room: ROOM }
}

pub fn post(name: &str) -> Call {
    Call::Post { name: name.as_bytes().to_vec() }
}

pub fn clock(ticks: u64) -> Call {
    Call::Clock { ticks }
}

pub fn run(rounds: u32) -> Call {
    Call::Run { rounds, room: ROOM }
}

pub fn run_in(rounds: u32, room: usize) -> Call {
    Call::Run { rounds, room }
}

fn raises(name: &str) -> [Do<'_>; 8] {
    [Do::Raise(name); 8]
}

pub fn all() -> Vec<Vec<Example>> {
    vec![
        reading_01(),
        reading_02(),
        reading_03(),
        reading_04(),
        reading_05(),
        reading_06(),
        reading_07(),
        reading_08(),
        reading_09(),
        reading_10(),
        reading_11(),
        reading_12(),
        reading_13(),
        reading_14(),
        reading_15(),
        reading_16(),
        reading_17(),
        reading_18(),
        reading_19(),
        reading_20(),
        reading_21(),
    ]
}

/// Reading 1: Ancestors are entered below the domain alone. Event e leads from x to the deep history of
/// s, which falls to y: the domain is d. Entering up to s as well would enter the parallel q
/// again and give region r a second active child beside v.
pub fn reading_01() -> Vec<Example> {
    let mut b = Builder::new();
    b.state("", "s").parallel("s", "q").state("q", "d").state("d", "x").state("d", "y");
    b.state("q", "r").state("r", "u").state("r", "v").deep("s", "h");
    b.list("h", "y", &[]).on("u", "f", "v").on("x", "e", "h");
    let calls = vec![start(), post("f"), post("e"), run(5)];
    vec![Example::of_chart("reading_01", "entry stays below the domain", &b.chart(), calls)]
}

/// Reading 2: The domain of the selection is kept. Before the exits the deep history of p falls to s, so
/// the domain is the root; the exits store a, whose own domain would be s, and p would be left
/// out.
pub fn reading_02() -> Vec<Example> {
    let mut b = Builder::new();
    b.parallel("", "p").state("p", "s").state("s", "a").state("s", "b").deep("p", "h");
    b.list("h", "s", &[]).on("a", "e", "h");
    let calls = vec![start(), post("e"), run(2), post("e"), run(1)];
    vec![Example::of_chart("reading_02", "the domain of the selection is kept", &b.chart(), calls)]
}

/// Reading 3: A dropped candidate removes nothing. The third candidate outranks the one of a but not the
/// one of b1; it is dropped, and the one of a stays.
pub fn reading_03() -> Vec<Example> {
    let mut b = Builder::new();
    b.parallel("", "p").state("p", "b").state("b", "b1").state("b", "b2");
    b.state("p", "a").parallel("a", "q").state("q", "q1").state("q", "q2").state("a", "a2");
    b.state("", "z");
    b.on("b1", "e", "b2").on_internally("a", "e", "a2").on("q2", "e", "z");
    let calls = vec![start(), post("e"), run(3)];
    vec![Example::of_chart("reading_03", "a dropped candidate removes nothing", &b.chart(), calls)]
}

/// Reading 4: Blocks of transitions run in selection order: the one of region a first, then the one of p,
/// which region b climbs to, though p's has the lower number.
pub fn reading_04() -> Vec<Example> {
    let mut b = Builder::new();
    b.parallel("", "p").state("p", "a").state("p", "b");
    b.on("p", "e", "").doing(&[Do::Host(10), Do::Raise("g")]);
    b.on("a", "e", "").doing(&[Do::Host(11), Do::Raise("f")]);
    let calls = vec![start(), post("e"), run(1), run(4)];
    vec![Example::of_chart("reading_04", "selection order, not number order", &b.chart(), calls)]
}

/// Reading 5: The done event of a parallel is judged when a final is entered. Both regions end in one
/// round; judged at the round's end, p's done event would come twice.
pub fn reading_05() -> Vec<Example> {
    let mut b = Builder::new();
    b.parallel("", "p").state("p", "a").state("a", "a1").final_("a", "af");
    b.state("p", "b").state("b", "b1").final_("b", "bf").state("", "z");
    b.on("p", "done.state.p", "z").on("a1", "e", "af").on("b1", "e", "bf");
    let calls = vec![start(), post("e"), run(1), run(9)];
    vec![Example::of_chart("reading_05", "done is judged at the final's entry", &b.chart(), calls)]
}

/// Reading 6: A default block runs only where the history's parent is entered: on the first f it is, on
/// the second it is not.
pub fn reading_06() -> Vec<Example> {
    let mut b = Builder::new();
    b.state("", "s").state("", "p").state("p", "x").state("p", "y").shallow("p", "h");
    b.list("h", "y", &[Do::Host(5)]).on("s", "f", "h").on("y", "f", "h");
    let calls = vec![start(), post("f"), post("f"), run(1), run(1)];
    vec![Example::of_chart("reading_06", "no default block without entry", &b.chart(), calls)]
}

/// Reading 7: The domain comes from effective targets: it is p. From the anchor, which is p itself, it
/// would be the root, and p would be exited and entered.
pub fn reading_07() -> Vec<Example> {
    let mut b = Builder::new();
    b.state("", "p").state("p", "x").state("p", "y").deep("p", "h");
    b.on_entry("p", &[Do::Host(1)]).on_exit("p", &[Do::Host(2)]);
    b.list("h", "y", &[]).on("x", "e", "h");
    let calls = vec![start(), post("e"), run(2)];
    vec![Example::of_chart("reading_07", "the domain comes from effective targets", &b.chart(), calls)]
}

/// Reading 8: A row's list has no limit of its own: the root's has nine rows.
pub fn reading_08() -> Vec<Example> {
    let mut b = Builder::new();
    b.parallel("", "p");
    for region in 1..=9 {
        b.state("p", &format!("r{region}"));
    }
    b.state("r9", "x").state("r9", "y");
    b.list("", "r1 r2 r3 r4 r5 r6 r7 r8 y", &[]);
    vec![Example::of_chart("reading_08", "a list of nine rows", &b.chart(), vec![start(), run(1)])]
}

fn two_rows() -> Spelt {
    let mut b = Builder::new();
    b.state("", "s").on("s", "e", "s");
    encode_plainly(&b.chart())
}

/// Reading 9: "None" is within range for rule 1; where it is wrong, or missing, the number is 2 for ids
/// and 3 for parents.
pub fn reading_09() -> Vec<Example> {
    let row = |row: usize, column: usize| 6 + 11 * row + column;
    let cases = [
        ("reading_09_root_with_id", row(0, 2), 0),
        ("reading_09_row_without_id", row(1, 2), NONE),
        ("reading_09_root_with_parent", row(0, 1), 0),
        ("reading_09_row_without_parent", row(1, 1), NONE),
        ("reading_09_parent_out_of_table", row(1, 1), 2),
        ("reading_09_parent_past_none", row(1, 1), 65_536),
        ("reading_09_condition_stated", 6 + 22 + 3, 1),
    ];
    let calls = vec![start(), post("e"), run(2)];
    let example = |(name, cell, value): (&str, usize, u64)| {
        let mut spelt = two_rows();
        spelt.numbers[cell] = value;
        Example::of_tables(name, "none in the columns parent, id and condition", spelt, calls.clone())
    };
    cases.into_iter().map(example).collect()
}

/// Reading 10: Neither the root nor a history is ever listed in a configuration.
pub fn reading_10() -> Vec<Example> {
    let mut b = Builder::new();
    b.parallel("", "p").shallow("p", "h").state("p", "a").deep("a", "g").state("a", "a1");
    b.state("p", "c").state("", "z");
    b.list("h", "a c", &[]).list("g", "a1", &[]).on("p", "e", "z").on("z", "e", "h");
    let calls = vec![start(), post("e"), post("e"), run(1), run(1)];
    vec![Example::of_chart("reading_10", "no root and no history is listed", &b.chart(), calls)]
}

/// Reading 11: What was stored stays stored in the ended session.
pub fn reading_11() -> Vec<Example> {
    let mut b = Builder::new();
    b.state("", "p").state("p", "x").state("p", "y").shallow("p", "h").state("", "s");
    b.final_("", "f").list("h", "x", &[]).on_exit("f", &[Do::Raise("late"), Do::Host(3)]);
    b.on("x", "e", "y").on("p", "g", "s").on("s", "g", "f");
    let calls = vec![start(), post("e"), post("g"), post("g"), post("g"), run(3), run(3)];
    vec![Example::of_chart("reading_11", "history stays in the ended session", &b.chart(), calls)]
}

/// Event e raises forty names on its way from s into three states.
fn forty_raises() -> Chart {
    let mut b = Builder::new();
    b.state("", "s").state("", "a").state("a", "b").state("b", "c");
    b.on_exit("s", &raises("x")).on_entry("a", &raises("x")).on_entry("b", &raises("x"));
    b.on_entry("c", &raises("x")).on("s", "e", "a").doing(&raises("x"));
    b.chart()
}

/// Reading 12: A full queue is told before a full trace, also where no entry fits at all.
pub fn reading_12() -> Vec<Example> {
    let calls = vec![start(), post("e"), run_in(1, 0), run(1), Call::Start { room: 0 }];
    vec![Example::of_chart("reading_12", "7 before 10", &forty_raises(), calls)]
}

/// Reading 13: A round that enters a final under root can still get 7.
pub fn reading_13() -> Vec<Example> {
    let mut b = Builder::new();
    b.state("", "a").state("a", "b").final_("", "f");
    b.on_entry("a", &raises("x")).on_exit("a", &raises("x")).on_exit("b", &raises("x"));
    b.on_entry("f", &raises("x")).on("b", "", "f").doing(&raises("x"));
    let calls = vec![start(), run(1), run(1)];
    vec![Example::of_chart("reading_13", "7 on the way to closing", &b.chart(), calls)]
}

/// Reading 14: Idle is asked in a run of 0 and after the last round; a closing session is never idle.
pub fn reading_14() -> Vec<Example> {
    let mut b = Builder::new();
    b.state("", "s").final_("", "f").on("s", "e", "f");
    let calls =
        vec![run(0), start(), run(0), post("x"), run(0), run(1), post("e"), run(1), run(0), run(1), run(0)];
    vec![Example::of_chart("reading_14", "the status of a run", &b.chart(), calls)]
}

/// Reading 15: A stored set is never empty; each history of a row stores its own.
pub fn reading_15() -> Vec<Example> {
    let mut b = Builder::new();
    b.parallel("", "p").state("p", "a").state("a", "a1").state("a", "a2").state("p", "c");
    b.shallow("p", "h").deep("p", "g").state("", "z");
    b.list("h", "c", &[]).list("g", "a2", &[]);
    b.on("p", "e", "z").on("z", "g", "g").on("z", "h", "h");
    let calls = vec![start(), post("e"), run(1), post("h"), run(1)];
    vec![Example::of_chart("reading_15", "both histories store", &b.chart(), calls)]
}

/// Reading 16: Posted names are names, no descriptors.
pub fn reading_16() -> Vec<Example> {
    let mut b = Builder::new();
    b.state("", "s").on("s", "*", "").doing(&[Do::Host(1)]);
    let calls = vec![start(), post("*"), post("a.*"), post("a.b"), post("a."), run(3)];
    vec![Example::of_chart("reading_16", "a star is no event name", &b.chart(), calls)]
}

/// Reading 17: A history is no one's child: the default entry of p is x, and q is done when its one
/// region is.
pub fn reading_17() -> Vec<Example> {
    let mut b = Builder::new();
    b.state("", "p").deep("p", "h").state("p", "x").parallel("", "q").shallow("q", "g");
    b.state("q", "a").shallow("a", "k").state("a", "a1").final_("a", "af");
    b.list("h", "x", &[]).list("g", "a", &[]).list("k", "a1", &[]);
    b.on("x", "e", "q").on("a1", "e", "af");
    let calls = vec![start(), post("e"), post("e"), run(2), run(3)];
    vec![Example::of_chart("reading_17", "a history is no child", &b.chart(), calls)]
}

/// Reading 18: Ids differ by bytes; "done.state.p" matches the done event of "p.q"; the trace shows the
/// slot number that the table gives, here the second slot that holds "e".
pub fn reading_18() -> Vec<Example> {
    let mut b = Builder::new();
    b.state("", "p.q").state("p.q", "x").final_("p.q", "xf").state("", "z").state("", "y");
    b.on("x", "f", "xf").on("p.q", "done.state.p", "z").on("z", "e", "y");
    let mut chart = b.chart();
    chart.names.push(slot_of(b"e"));
    chart.rows[4].entry = vec![Action::Raise(NameNumber(chart.names.len() - 1))];
    let calls = vec![start(), post("f"), run(1), run(1), run(2)];
    let dotted = Example::of_chart("reading_18", "done.state.p matches p.q", &chart, calls);
    let mut doubled = two_rows_more();
    let slot = doubled.names[..SLOT_BYTES].to_vec();
    doubled.names[SLOT_BYTES..2 * SLOT_BYTES].copy_from_slice(&slot);
    let doubled = Example::of_tables("reading_18_doubled_id", "equal ids in two slots", doubled, Vec::new());
    vec![dotted, doubled]
}

fn two_rows_more() -> Spelt {
    let mut b = Builder::new();
    b.state("", "s").state("", "t");
    encode_plainly(&b.chart())
}

/// Chart A of the marked runs.
pub fn chart_a() -> Chart {
    let mut b = Builder::new();
    b.parallel("", "p").state("p", "S1").state("S1", "S11").state("S1", "S12").final_("S1", "S1Final");
    b.state("p", "S2").state("S2", "S21").state("S2", "S22").final_("S2", "S2Final");
    b.state("", "someOtherState");
    b.list("S1", "S11", &[]).list("S2", "S21", &[]);
    b.on("p", "done.state.p", "someOtherState").on("S11", "e4", "S12").on("S12", "e1", "S1Final");
    b.on("S21", "e1", "S22").on("S22", "e2", "S2Final");
    b.chart()
}

/// Reading 19: After e1 the done event of S1 is dropped in a round of its own, before e2 is taken.
pub fn reading_19() -> Vec<Example> {
    let singly =
        vec![start(), post("e4"), run(1), post("e1"), run(1), post("e2"), run(1), run(1), run(1), run(1)];
    let at_once = vec![start(), post("e4"), post("e1"), post("e2"), run(10)];
    let cut = vec![start(), post("e4"), post("e1"), post("e2"), run(3)];
    vec![
        Example::of_chart("reading_19", "chart A, round by round", &chart_a(), singly),
        Example::of_chart("reading_19_at_once", "chart A, one run of ten", &chart_a(), at_once),
        Example::of_chart("reading_19_cut", "chart A, one run of three", &chart_a(), cut),
    ]
}

/// Reading 20: A chart of one row keeps rule 1 and gets 3.
pub fn reading_20() -> Vec<Example> {
    let chart = Builder::new().chart();
    vec![Example::of_chart("reading_20", "one row", &chart, Vec::new())]
}

/// Reading 21: An event that selects nothing counts as a round, also with trace room 0.
pub fn reading_21() -> Vec<Example> {
    let mut b = Builder::new();
    b.state("", "s").on("s", "e", "s");
    let calls = vec![start(), post("x"), post("y"), post("e"), run_in(1, 0), run_in(5, 0)];
    vec![Example::of_chart("reading_21", "a dropped event is a round", &b.chart(), calls)]
}
