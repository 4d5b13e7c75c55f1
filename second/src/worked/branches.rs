//! "Add these three with In as the condition".

use super::{accepted, refused, Worked};
use crate::builder::{Builder, Do};
use crate::encode::encode_plainly;
use crate::examples::Example;
use crate::limits::MAX_ACTIONS_OF_BLOCK;
use crate::readings::{post, run, run_in, start};
use crate::tables::Chart;

/// For each of these rows an if of its own, with a host action inside.
fn asked<'a>(rows: &[(&'a str, u16)]) -> Vec<Do<'a>> {
    rows.iter().flat_map(|&(id, number)| [Do::If(id), Do::Host(number), Do::End]).collect()
}

/// 1 p, 2 a, 3 b, 4 q, 5 c: every block asks of rows that come and go in the same round.
fn moments() -> Chart {
    let mut b = Builder::new();
    b.parallel("", "p").state("p", "a").state("p", "b").state("", "q").state("q", "c");
    b.on_exit("b", &asked(&[("p", 31), ("a", 32), ("b", 33), ("q", 34)]));
    b.on_exit("a", &asked(&[("p", 21), ("a", 22), ("b", 23)]));
    b.on_exit("p", &asked(&[("p", 11), ("a", 12), ("b", 13)]));
    b.on("p", "e", "q");
    b.doing(&[Do::If("p"), Do::Host(61), Do::ElseIf("q"), Do::Host(62), Do::Else, Do::Host(63), Do::End]);
    b.on_entry("q", &asked(&[("q", 41), ("c", 42), ("p", 43)]));
    b.on_entry("c", &asked(&[("q", 51), ("c", 52), ("p", 53)]));
    b.chart()
}

/// 1 s, 2 a.
fn nested() -> Chart {
    let mut b = Builder::new();
    b.state("", "s").state("s", "a");
    let inner = [Do::If("a"), Do::Host(3), Do::ElseIf("s"), Do::Host(4), Do::Else, Do::Host(5), Do::End];
    let entry = [&[Do::If("a"), Do::Host(1), Do::Else, Do::Host(2)][..], &inner, &[Do::End, Do::Host(6)]];
    b.on_entry("s", &entry.concat());
    b.list(
        "s",
        "a",
        &[Do::If("a"), Do::Host(7), Do::ElseIf("s"), Do::Host(8), Do::Else, Do::Host(9), Do::End],
    );
    b.chart()
}

/// 1 s, 2 f; slot 3 is late.
fn closing() -> Chart {
    let mut b = Builder::new();
    b.state("", "s").final_("", "f").on("s", "e", "f");
    b.on_exit("f", &[Do::If("s"), Do::Host(1), Do::ElseIf("f"), Do::Raise("late"), Do::End]);
    b.chart()
}

/// 1 s, 2 t: sixty raises in branches that are not taken.
fn not_taken() -> Chart {
    let mut b = Builder::new();
    b.state("", "s").state("", "t").on("s", "e", "t");
    let raises = [&[Do::If("t")][..], &[Do::Raise("x"); 30], &[Do::End]].concat();
    b.doing(&raises).on_exit("s", &raises);
    b.chart()
}

fn played() -> Vec<Worked> {
    vec![
        accepted(
            "branches_by_the_moment",
            "R-5: exit blocks: those exited before are not active, the row itself is; transition: neither; entry: those entered so far",
            &moments(),
            vec![start(), post("e"), run(1)],
            &[
                "[0, 0] (3,1) (3,2) (3,3) conf [1, 2, 3]",
                "[101, 1] (1,3) (4,31) (4,32) (4,33) (1,2) (4,21) (4,22) (1,1) (4,11) (2,0) (7,2) (4,63) (3,4) (4,41) (3,5) (4,51) (4,52) conf [4, 5]",
            ],
        ),
        accepted(
            "branches_nested",
            "R-5: nested branches; an initial block sees its row and not yet the child",
            &nested(),
            vec![start()],
            &["[0, 0] (3,1) (4,2) (4,4) (4,6) (4,8) (3,2) conf [1, 2]"],
        ),
        accepted(
            "branches_of_the_closing_round",
            "R-5: the closing round: the final is active in its own exit block, its raise is shown",
            &closing(),
            vec![start(), post("e"), run(9)],
            &["[0, 0] (3,1) conf [1]", "[102, 2] (1,1) (2,0) (7,1) (3,2) (1,2) (5,3) conf []"],
        ),
        accepted(
            "branches_not_taken",
            "R-5: 7 and 10 count only the branch taken: no branch here, room 4 suffices",
            &not_taken(),
            vec![start(), post("e"), run_in(1, 4)],
            &["[0, 0] (3,1) conf [1]", "[101, 1] (1,1) (2,0) (7,1) (3,2) conf [2]"],
        ),
    ]
}

/// 1 s, with this block on entry.
fn on_entry(block: &[Do]) -> Chart {
    let mut b = Builder::new();
    b.state("", "s").on_entry("s", block);
    b.chart()
}

fn levels(count: usize) -> Vec<Do<'static>> {
    [vec![Do::If("s"); count], vec![Do::End; count]].concat()
}

fn malformed() -> Vec<Worked> {
    const IF: Do = Do::If("s");
    let blocks: [(&str, &str, &[Do]); 8] = [
        ("elseif_alone", "elseif without an open if", &[Do::ElseIf("s"), Do::End]),
        ("else_alone", "else without an open if", &[Do::Else, Do::End]),
        ("end_alone", "end without an open if", &[Do::End]),
        ("elseif_after_else", "elseif after else", &[IF, Do::Else, Do::ElseIf("s"), Do::End]),
        ("else_after_else", "else after else", &[IF, Do::Else, Do::Else, Do::End]),
        ("unclosed_if", "unclosed if", &[IF, Do::Host(1)]),
        ("fifth_level", "a fifth level", &levels(5)),
        ("in_of_the_root", "In names the root", &[Do::If(""), Do::End]),
    ];
    blocks.map(|(name, about, block)| refused(name, &format!("R-5: {about}"), &on_entry(block), 5)).into()
}

fn hosts(count: u64) -> Vec<Do<'static>> {
    (0..count as u16).map(Do::Host).collect()
}

/// The if of a row behind the last.
fn past_the_table() -> Worked {
    let mut spelt = encode_plainly(&on_entry(&[Do::If("s"), Do::End]));
    let actions = spelt.numbers.len() - 2 * 4;
    spelt.numbers[actions + 1] = 2;
    let about = "R-5: In of a row past the table";
    let example = Example::of_tables("in_past_the_table", about, spelt, Vec::new());
    Worked { example, verdict: 1, lines: Vec::new(), shows_clock: false }
}

pub fn all() -> Vec<Worked> {
    let most = MAX_ACTIONS_OF_BLOCK;
    let mut all = played();
    all.extend(malformed());
    all.extend([
        accepted(
            "four_levels",
            "R-5: four levels",
            &on_entry(&levels(4)),
            vec![start()],
            &["[0, 0] (3,1) conf [1]"],
        ),
        accepted(
            "most_actions",
            "R-5: 32 actions",
            &on_entry(&hosts(most)),
            vec![start()],
            &["[0, 0] (3,1) (4,0) (4,1) (4,2) (4,3) (4,4) (4,5) (4,6) (4,7) (4,8) (4,9) (4,10) (4,11) (4,12) (4,13) (4,14) (4,15) (4,16) (4,17) (4,18) (4,19) (4,20) (4,21) (4,22) (4,23) (4,24) (4,25) (4,26) (4,27) (4,28) (4,29) (4,30) (4,31) conf [1]"],
        ),
        refused("too_many_actions", "R-5: 33 actions", &on_entry(&hosts(most + 1)), 1),
        past_the_table(),
    ]);
    all
}
