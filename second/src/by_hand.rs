//! Charts for single sentences of document 01, each chosen so that one wrong reading of its sentence
//! gives another result.

use crate::builder::{Builder, Do};
use crate::calls::Call;
use crate::examples::Example;
use crate::limits::QUEUE_NAMES;
use crate::readings::{post, run, run_in, start};

pub fn all() -> Vec<Example> {
    vec![
        parallel_of_parallels(),
        final_two_levels_down(),
        initial_list_of_two(),
        default_list_of_two(),
        three_targets(),
        started_again(),
        chosen_twice(),
        star_posted_last(),
        run_of_none(),
        raised_done_name(),
        posted_bytes(),
        longest_descriptor(),
        letter_case(),
        targets_by_the_exits(),
        default_blocks_by_the_exits(),
        internal_of_a_parallel(),
        most_internal_names(),
        guarded_loops(),
        loop_of_two(),
        loop_to_the_parent(),
        loop_to_own_history(),
    ]
}

/// "a parallel if all its children are": q, a child of g, is one.
pub fn parallel_of_parallels() -> Example {
    let mut b = Builder::new();
    b.parallel("", "g").parallel("g", "q").state("q", "r1").final_("r1", "f1");
    b.state("q", "r2").final_("r2", "f2").state("g", "s").state("s", "s1").final_("s", "sf");
    b.on("s1", "e", "sf");
    let calls = vec![start(), post("e"), run(9)];
    Example::of_chart(
        "parallel_of_parallels",
        "a parallel in a parallel is in a final state",
        &b.chart(),
        calls,
    )
}

/// "no other row ever": c's active child is in a final state, and c is not.
pub fn final_two_levels_down() -> Example {
    let mut b = Builder::new();
    b.parallel("", "g").state("g", "c").state("c", "d").final_("d", "f");
    b.state("g", "s").state("s", "s1").final_("s", "sf").on("s1", "e", "sf");
    let calls = vec![start(), post("e"), run(9)];
    Example::of_chart("final_two_levels_down", "a final two levels down ends no region", &b.chart(), calls)
}

/// Three regions of two states each.
fn add_regions(b: &mut Builder, parallel: &str) {
    for region in 0..3 {
        let id = format!("r{region}");
        b.state(parallel, &id).state(&id, &format!("u{region}")).state(&id, &format!("v{region}"));
    }
}

pub fn initial_list_of_two() -> Example {
    let mut b = Builder::new();
    b.state("", "z").state("", "c").parallel("c", "p");
    add_regions(&mut b, "p");
    b.list("c", "v1 v0", &[Do::Host(1)]).on("z", "e", "c");
    let calls = vec![start(), post("e"), run(1)];
    Example::of_chart("initial_list_of_two", "an initial list of two targets", &b.chart(), calls)
}

pub fn default_list_of_two() -> Example {
    let mut b = Builder::new();
    b.state("", "z").parallel("", "p");
    add_regions(&mut b, "p");
    b.deep("p", "h").list("h", "v2 v0", &[Do::Host(2)]);
    b.on("z", "e", "h").on("p", "f", "z").on("u1", "g", "v1");
    let calls = vec![start(), post("e"), run(1), post("g"), post("f"), run(2), post("e"), run(1)];
    Example::of_chart(
        "default_list_of_two",
        "a default list of two targets, then stored states",
        &b.chart(),
        calls,
    )
}

pub fn three_targets() -> Example {
    let mut b = Builder::new();
    b.state("", "z").parallel("", "p");
    add_regions(&mut b, "p");
    b.on("z", "e", "v2 v0 v1");
    Example::of_chart("three_targets", "three targets", &b.chart(), vec![start(), post("e"), run(1)])
}

/// "Start empties all of these"; a refused start hands back "no stored history".
pub fn started_again() -> Example {
    let mut b = Builder::new();
    b.state("", "a").state("a", "x").state("a", "y").shallow("a", "h").state("", "o");
    b.list("h", "x", &[]).on("x", "e", "y").on("a", "f", "o").on("o", "g", "h");
    let store = [post("e"), post("f"), run(2)];
    let calls = [&[start()], &store[..], &[start()], &store[..], &[Call::Start { room: 0 }]].concat();
    Example::of_chart(
        "started_again",
        "a start forgets what was stored, a refused one too",
        &b.chart(),
        calls,
    )
}

/// "counts once, at its first place": a and c both climb to p's transition, b has its own.
pub fn chosen_twice() -> Example {
    let mut b = Builder::new();
    b.parallel("", "p").state("p", "a").state("p", "b").state("p", "c");
    b.on("p", "e", "").doing(&[Do::Host(1)]).on("b", "e", "").doing(&[Do::Host(2)]);
    let calls = vec![start(), post("e"), run(1)];
    Example::of_chart(
        "chosen_twice",
        "a transition chosen twice counts at its first place",
        &b.chart(),
        calls,
    )
}

/// "Order: 8, 9, 6, 11, 7, 10."
pub fn star_posted_last() -> Example {
    let mut b = Builder::new();
    b.state("", "s");
    let mut calls = vec![start()];
    calls.extend(vec![post("e"); QUEUE_NAMES]);
    calls.extend([post("*"), post("e")]);
    Example::of_chart("star_posted_last", "6 before 7", &b.chart(), calls)
}

/// "else the refusal, if fewer were done than asked; else more".
pub fn run_of_none() -> Example {
    let mut b = Builder::new();
    b.state("", "s").on("s", "e", "s");
    let calls = vec![start(), post("e"), run_in(0, 0), run_in(1, 0)];
    Example::of_chart("run_of_none", "a run of 0 with room 0 says more, one of 1 says 10", &b.chart(), calls)
}

/// "ids and raises names": a done event's name is a name as any other.
pub fn raised_done_name() -> Example {
    let mut b = Builder::new();
    b.state("", "x").state("", "z").on_entry("x", &[Do::Raise("done.state.x")]).on("x", "done.state.x", "z");
    Example::of_chart("raised_done_name", "a raise of a done event's name", &b.chart(), vec![start(), run(2)])
}

/// The bytes next to those that a name may have, and one more.
pub const NO_NAME_BYTES: [(u8, &str); 8] = [
    (b'@', "an at sign"),
    (b'[', "a bracket"),
    (b'^', "a caret"),
    (b'`', "a backquote"),
    (b'{', "a brace"),
    (b':', "a colon"),
    (b',', "a comma"),
    (b'+', "a plus"),
];

pub fn posted_bytes() -> Example {
    let mut b = Builder::new();
    b.state("", "s");
    let posted = |&(byte, _): &(u8, &str)| Call::Post { name: vec![b'a', byte] };
    let mut calls = vec![start()];
    calls.extend(NO_NAME_BYTES.iter().map(posted));
    calls.push(post("AZ-az_09.0"));
    Example::of_chart("posted_bytes", "bytes next to those that a name may have", &b.chart(), calls)
}

/// "a name with '.*' after it (63 bytes in all)".
pub fn longest_descriptor() -> Example {
    let long = "d".repeat(61);
    let mut b = Builder::new();
    b.state("", "s").on("s", &format!("{long}.*"), "").doing(&[Do::Host(1)]);
    let calls = vec![start(), post(&long), post(&format!("{long}.d")), post(&long[1..]), run(3)];
    Example::of_chart("longest_descriptor", "a descriptor of 63 bytes", &b.chart(), calls)
}

pub fn letter_case() -> Example {
    let mut b = Builder::new();
    b.state("", "s").on("s", "E", "").doing(&[Do::Host(1)]);
    let calls = vec![start(), post("e"), run(1), post("E"), run(1)];
    Example::of_chart("letter_case", "a small letter is no capital one", &b.chart(), calls)
}

/// "effective targets, now by the history as this round's exits left it": s leads to its own deep
/// history. The first e finds nothing stored and would fall to c; its exits store b2. The second finds
/// b2 stored; its exits store c.
pub fn targets_by_the_exits() -> Example {
    let mut b = Builder::new();
    b.state("", "s").state("s", "b").state("b", "b1").state("b", "b2").state("s", "c").deep("s", "h");
    b.list("h", "c", &[]).on("s", "e", "h").on("b1", "g", "b2").on("b2", "k", "c");
    let calls = vec![start(), post("g"), run(1), post("e"), run(1), post("k"), run(1), post("e"), run(1)];
    Example::of_chart(
        "targets_by_the_exits",
        "a history is resolved as this round's exits left it",
        &b.chart(),
        calls,
    )
}

/// "default block, if a history of this row fell to its default list", which is settled by the same
/// history. The first e stores for ha alone, so the block of hd runs and that of ha does not; the
/// second stores for both.
pub fn default_blocks_by_the_exits() -> Example {
    let mut b = Builder::new();
    b.parallel("", "p").state("p", "a").state("a", "x").state("a", "y").shallow("a", "ha");
    b.state("p", "c").state("c", "u").state("c", "d").state("d", "d1").state("d", "d2").shallow("d", "hd");
    b.list("ha", "x", &[Do::Host(1)]).list("hd", "d2", &[Do::Host(2)]);
    b.on("p", "e", "ha hd").on("x", "g", "y");
    let calls = vec![start(), post("g"), run(1), post("e"), run(1), post("e"), run(1)];
    Example::of_chart(
        "default_blocks_by_the_exits",
        "default blocks go by the history as this round's exits left it",
        &b.chart(),
        calls,
    )
}

/// "The domain is the source, if the type is internal, the source is compound": p is parallel, and so
/// is g above it. The domain is s, and g and p are exited and entered.
pub fn internal_of_a_parallel() -> Example {
    let mut b = Builder::new();
    b.state("", "s").parallel("s", "g").parallel("g", "p").state("p", "a").state("a", "a1").state("a", "a2");
    b.state("p", "b").state("g", "c").on_internally("p", "e", "a2");
    let calls = vec![start(), post("e"), run(1)];
    Example::of_chart(
        "internal_of_a_parallel",
        "an internal transition of a parallel leaves it",
        &b.chart(),
        calls,
    )
}

/// "a round or start would hold more than 32 internal names at any moment"; "A taken event leaves the
/// internal queue before new ones join." Of s, f has a thirty-third raise and d a done event in its
/// place; e has 32 names. Of those x is then taken and one raised, y taken and two raised.
pub fn most_internal_names() -> Example {
    let mut b = Builder::new();
    b.state("", "s").state("", "a").state("a", "b").state("a", "c").state("c", "c1").final_("c", "cf");
    let eight = [Do::Raise("n"); 8];
    let mut x_and_y = eight;
    x_and_y[..2].copy_from_slice(&[Do::Raise("x"), Do::Raise("y")]);
    b.on_exit("s", &x_and_y).on_entry("a", &eight).on_entry("b", &eight).on_entry("c", &eight);
    b.on_entry("c1", &[Do::Raise("n")]);
    for (event, target) in [("e", "b"), ("f", "c1"), ("d", "cf")] {
        b.on("s", event, target).doing(&eight);
    }
    b.on("b", "x", "").doing(&eight[..1]).on("b", "y", "").doing(&eight[..2]);
    let refused = |event| [start(), post(event), run(1)];
    let calls = [&refused("f")[..], &refused("d"), &[start(), post("e"), run(1), run(1), run(1)]].concat();
    Example::of_chart("most_internal_names", "32 internal names, and one more", &b.chart(), calls)
}

/// "an eventless one without condition whose target list holds its own source": with a condition
/// it is legal, be it always true, as that of s, or never, as that of q.
pub fn guarded_loops() -> Example {
    let mut b = Builder::new();
    b.state("", "q").state("", "s");
    b.on("q", "", "q").when_in("s").on("q", "e", "s").on("s", "", "s").when_in("s");
    let calls = vec![start(), run(2), post("e"), run(3)];
    Example::of_chart("guarded_loops", "loops with a condition", &b.chart(), calls)
}

/// "Longer loops stay legal."
pub fn loop_of_two() -> Example {
    let mut b = Builder::new();
    b.state("", "s").state("s", "a").state("s", "b").on("a", "", "b").on("b", "", "a");
    Example::of_chart("loop_of_two", "a loop of two states", &b.chart(), vec![start(), run(3)])
}

/// The target list holds the source's parent, not the source.
pub fn loop_to_the_parent() -> Example {
    let mut b = Builder::new();
    b.state("", "s").state("s", "a").on("a", "", "s");
    Example::of_chart("loop_to_the_parent", "a loop to the parent", &b.chart(), vec![start(), run(2)])
}

/// The target list holds a history of the source, not the source. The exits store a, so b, the
/// default, is never entered.
pub fn loop_to_own_history() -> Example {
    let mut b = Builder::new();
    b.state("", "s").state("s", "a").state("s", "b").shallow("s", "h").list("h", "b", &[]).on("s", "", "h");
    Example::of_chart("loop_to_own_history", "a loop to an own history", &b.chart(), vec![start(), run(2)])
}
