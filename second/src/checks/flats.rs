//! Flat tables (R-11): what was worked out by hand, and every refusal in its order.

use super::answers::compiled;
use super::desk::no_start;
use super::Check;
use crate::builder::{Builder, Do};
use crate::compiled::CompiledChart;
use crate::flat::{flat_cells, flatten, BAD_PLACE};
use crate::generate::bad_names;
use crate::invariants::{ensure, Found};
use crate::limits::MAX_CONFIGURATIONS;
use crate::readings::chart_a;
use crate::session::*;
use crate::tables::Chart;

pub fn checks() -> Vec<Check> {
    vec![
        Check::new("R-11: chart A has nine configurations", nine_of_chart_a),
        Check::new("R-11: a configuration with a final under root has no onward entry", final_under_root),
        Check::new("R-11: an eventless ring", eventless_ring),
        Check::new("R-11: where an eventless transition is selected, names still count", names_still_count),
        Check::new("R-11: equal names have equal columns, and an empty list none", equal_names),
        Check::new("R-11: a name that selects nothing keeps the configuration", keeps),
        Check::new("R-11: conditions and conflicts as in a round", as_in_a_round),
        Check::new("R-11: blocks, sends and queues are no part of the table", no_blocks),
        Check::new("R-11: exactly 256 configurations, and 257", most_configurations),
        Check::new("R-11: 17 exactly when the chart has a history", histories),
        Check::new("R-11: 1 for a place of another size", sizes),
        Check::new("R-11: 6 for a bad or thirty-third name", names),
        Check::new("R-11: 8, 1, 6, 17, 16, the place untouched", order),
    ]
}

const NO: u64 = 65_535;
/// What stands in a place before.
const BEFORE: u64 = 7;

fn flat(chart: &CompiledChart, names: &[&str]) -> (u64, Vec<u64>) {
    let names: Vec<Option<&[u8]>> = names.iter().map(|name| Some(name.as_bytes())).collect();
    let mut place = vec![BEFORE; flat_cells(names.len())];
    (flatten(Some(chart), &names, &mut place), place)
}

/// Each line is the rows of a configuration, then where no event and the names lead.
fn lines(chart: &Chart, names: &[&str], expected: &[(&[u32], &[u64])]) -> Found {
    let (answer, place) = flat(&compiled(chart), names);
    ensure(answer == ACCEPTED, &format!("answer {answer}"))?;
    let mut cells = vec![expected.len() as u64, names.len() as u64];
    for (rows, next) in expected {
        cells.push(rows.iter().map(|row| 1 << row).sum());
        cells.extend([0; 3]);
        cells.extend(*next);
    }
    let used = cells.len();
    ensure(place[..used] == cells, &format!("{:?}", &place[..used]))?;
    ensure(place[used..].iter().all(|&cell| cell == 0), "zeros in the lines that are not used")
}

/// S1 is in S11, S12 or its final, S2 in S21, S22 or its final; e1 moves both at once, so that the final of S1
/// and S21 are never active together.
fn nine_of_chart_a() -> Found {
    let names = ["e4", "e1", "e2", "done.state.p"];
    lines(
        &chart_a(),
        &names,
        &[
            (&[1, 2, 3, 6, 7], &[NO, 1, 2, 0, 3]),
            (&[1, 2, 4, 6, 7], &[NO, 1, 4, 1, 3]),
            (&[1, 2, 3, 6, 8], &[NO, 5, 2, 6, 3]),
            (&[10], &[NO, 3, 3, 3, 3]),
            (&[1, 2, 5, 6, 8], &[NO, 4, 4, 7, 3]),
            (&[1, 2, 4, 6, 8], &[NO, 5, 4, 8, 3]),
            (&[1, 2, 3, 6, 9], &[NO, 8, 6, 6, 3]),
            (&[1, 2, 5, 6, 9], &[NO, 7, 7, 7, 3]),
            (&[1, 2, 4, 6, 9], &[NO, 8, 7, 8, 3]),
        ],
    )
}

/// 1 s, 2 f (final), 3 t: at f neither e nor the eventless transition of t leads on; a start at a final.
fn final_under_root() -> Found {
    let mut b = Builder::new();
    b.state("", "s").final_("", "f").state("", "t").on("s", "e", "f").on("s", "g", "t").on("t", "", "f");
    lines(&b.chart(), &["e", "g"], &[(&[1], &[NO, 1, 2]), (&[2], &[NO, NO, NO]), (&[3], &[1, 2, 2])])?;
    let mut b = Builder::new();
    b.final_("", "f").state("", "s").on("s", "e", "s");
    lines(&b.chart(), &["e"], &[(&[1], &[NO, NO])])
}

fn eventless_ring() -> Found {
    let mut b = Builder::new();
    b.state("", "a").state("", "b").state("", "c").on("a", "", "b").on("b", "", "c").on("c", "", "a");
    lines(&b.chart(), &[], &[(&[1], &[1]), (&[2], &[2]), (&[3], &[0])])?;
    b.on("b", "e", "a");
    lines(&b.chart(), &["e"], &[(&[1], &[1, 0]), (&[2], &[2, 0]), (&[3], &[0, 2])])
}

/// The engine never rests in a, and yet e leads from it to c.
fn names_still_count() -> Found {
    let mut b = Builder::new();
    b.state("", "a").state("", "b").state("", "c").on("a", "", "b").on("a", "e", "c");
    lines(&b.chart(), &["e"], &[(&[1], &[1, 2]), (&[2], &[NO, 1]), (&[3], &[NO, 2])])
}

fn equal_names() -> Found {
    let mut b = Builder::new();
    b.state("", "a").state("", "b").on("a", "e", "b").on("b", "e.x", "a");
    let all = [(&[1][..], &[NO, 1, 1, 0, 1][..]), (&[2], &[NO, 1, 1, 1, 0])];
    lines(&b.chart(), &["e", "e", "f", "e.x"], &all)?;
    lines(&b.chart(), &[], &[(&[1], &[NO])])
}

/// 1 s: e has no targets, f leads to where it is, In(s) lets an eventless transition do so.
fn keeps() -> Found {
    let mut b = Builder::new();
    b.state("", "s").on("s", "e", "").on("s", "f", "s");
    lines(&b.chart(), &["e", "f", "g"], &[(&[1], &[NO, 0, 0, 0])])?;
    b.on("s", "", "s").when_in("s");
    lines(&b.chart(), &["g"], &[(&[1], &[0, 0])])
}

/// 1 p, 2 a (3 a1, 4 a2), 5 b (6 b1, 7 b2), 8 z. On e each region asks In of the other before the round, so that both
/// move. On f both climb to p, whose transition has no targets; from a2 and b2 it is a2's that is kept, which
/// exits all and enters a by default, and b2's to z is dropped.
fn as_in_a_round() -> Found {
    let mut b = Builder::new();
    b.parallel("", "p").state("p", "a").state("a", "a1").state("a", "a2");
    b.state("p", "b").state("b", "b1").state("b", "b2").state("", "z");
    b.on("a1", "e", "a2").when_in("b1").on("b1", "e", "b2").when_in("a1");
    b.on("p", "f", "").on("a2", "f", "b1").on("b2", "f", "z");
    let expected: [(&[u32], &[u64]); 2] = [(&[1, 2, 3, 5, 6], &[NO, 1, 0]), (&[1, 2, 4, 5, 7], &[NO, 1, 0])];
    lines(&b.chart(), &["e", "f"], &expected)
}

/// A chart whose start the engine refuses with 7 has a table; a done event counts only where it is listed.
fn no_blocks() -> Found {
    lines(&no_start(), &["r"], &[(&[1, 2], &[NO, 0])])?;
    let mut b = Builder::new();
    b.state("", "s")
        .final_("s", "t")
        .state("", "z")
        .on("s", "done.state.s", "z")
        .on_entry("s", &[Do::Raise("e")]);
    b.on("s", "e", "z").on_exit("s", &[Do::Send("e", 0, "i"); 32]);
    lines(&b.chart(), &["g"], &[(&[1, 2], &[NO, 0])])?;
    lines(&b.chart(), &["done.state.s"], &[(&[1, 2], &[NO, 1]), (&[3], &[NO, 1])])
}

/// Eight regions of two states, each moved by a name of its own: 256 configurations.
fn regions() -> Builder {
    let mut b = Builder::new();
    b.parallel("", "p");
    for region in 0..8 {
        let (r, a, c) = (format!("r{region}"), format!("a{region}"), format!("c{region}"));
        b.state("p", &r).state(&r, &a).state(&r, &c).on(&a, &format!("e{region}"), &c);
    }
    b.state("", "z").state("", "y").on("p", "out", "z").on("y", "out", "p");
    b
}

const EIGHT: [&str; 8] = ["e0", "e1", "e2", "e3", "e4", "e5", "e6", "e7"];

/// z is one configuration more, where out is listed. 32 names are the most.
fn most_configurations() -> Found {
    let chart = compiled(&regions().chart());
    let (answer, place) = flat(&chart, &EIGHT);
    ensure(
        answer == ACCEPTED && place[0] == MAX_CONFIGURATIONS as u64 && place[1] == 8,
        "256 are flattened",
    )?;
    let line = &place[2 + 13 * 255..];
    let last: u64 = [1]
        .into_iter()
        .chain((0..8).flat_map(|region| [2 + 3 * region, 4 + 3 * region]))
        .map(|row| 1 << row)
        .sum();
    ensure(line[..4] == [last, 0, 0, 0], "the last is that of all names")?;
    ensure(line[4] == NO && line[5..] == [255; 8], "and every name keeps it")?;
    let second: u64 = place[2 + 13];
    ensure(second == (place[2] ^ (1 << 3 | 1 << 4)), "the second is that of the first name")?;
    let with_out: Vec<&str> = EIGHT.into_iter().chain(["out"]).collect();
    let (answer, place) = flat(&chart, &with_out);
    let untouched = place.iter().all(|&cell| cell == BEFORE);
    ensure(answer == TOO_MANY_CONFIGURATIONS && untouched, "257 are too many")?;
    let many: Vec<&str> = EIGHT.repeat(4);
    ensure(flat(&chart, &many).0 == ACCEPTED, "32 names")
}

/// Shallow or deep, entered or not.
fn histories() -> Found {
    for deep in [false, true] {
        let mut b = Builder::new();
        b.state("", "s").state("", "t").state("t", "x");
        if deep {
            b.deep("t", "h")
        } else {
            b.shallow("t", "h")
        };
        b.list("h", "x", &[]).on("s", "e", "s");
        let (answer, place) = flat(&compiled(&b.chart()), &["e"]);
        ensure(answer == HAS_HISTORY && place.iter().all(|&cell| cell == BEFORE), "17, the place untouched")?;
    }
    Ok(())
}

/// 2 + 256 * (5 + n) cells; of more than 32 names as of 32.
fn sizes() -> Found {
    for (count, cells) in [(0, 1_282), (1, 1_538), (2, 1_794), (32, 9_474), (33, 9_474), (1_000, 9_474)] {
        ensure(flat_cells(count) == cells, &format!("the size for {count} names"))?;
    }
    let chart = compiled(&chart_a());
    let names = [Some(&b"e4"[..]), Some(&b"e1"[..])];
    for cells in [0, 1, 2, 1_538, 1_793, 1_795, 2_050, 9_474] {
        let mut place = vec![BEFORE; cells];
        ensure(flatten(Some(&chart), &names, &mut place) == BAD_PLACE, &format!("a place of {cells} cells"))?;
        ensure(place.iter().all(|&cell| cell == BEFORE), "the place is untouched")?;
    }
    Ok(())
}

fn names() -> Found {
    let chart = compiled(&chart_a());
    let refused = |names: &[Option<&[u8]>]| {
        let mut place = vec![BEFORE; flat_cells(names.len())];
        let answer = flatten(Some(&chart), names, &mut place);
        ensure(answer == BAD_NAME && place.iter().all(|&cell| cell == BEFORE), &format!("answer {answer}"))
    };
    for bad in bad_names() {
        refused(&[Some(&bad)])?;
        refused(&[Some(b"e"), Some(&bad), Some(b"f")])?;
    }
    refused(&[None])?;
    refused(&[Some(b"e"), None])?;
    let long = [b'n'; 63];
    let most = vec![Some(&long[..]); 32];
    let mut place = vec![BEFORE; flat_cells(32)];
    ensure(flatten(Some(&chart), &most, &mut place) == ACCEPTED, "32 names of 63 bytes")?;
    refused(&[Some(&long[..]); 33])?;
    refused(&[Some(&long[..]); 100])
}

/// What has all faults, then all but the first, and so on. A place of the size for 33 names is 1.
fn order() -> Found {
    let mut b = regions();
    b.state("", "w").state("w", "x").shallow("w", "h").list("h", "x", &[]);
    let chart = compiled(&b.chart());
    let without_history = compiled(&regions().chart());
    let bad: Vec<Option<&[u8]>> =
        EIGHT.iter().map(|name| Some(name.as_bytes())).chain([Some(&b"*"[..])]).collect();
    let good: Vec<Option<&[u8]>> =
        EIGHT.iter().map(|name| Some(name.as_bytes())).chain([Some(&b"out"[..])]).collect();
    let answer = |lent: Option<&CompiledChart>, names: &[Option<&[u8]>], cells: usize| {
        let mut place = vec![BEFORE; cells];
        let answer = flatten(lent, names, &mut place);
        (answer, place.iter().all(|&cell| cell == BEFORE))
    };
    let size = flat_cells(9);
    ensure(answer(None, &bad, 3) == (BAD_COMPILED_CHART, true), "8 before all")?;
    ensure(answer(Some(&chart), &bad, 3) == (BAD_PLACE, true), "1 before 6, 17 and 16")?;
    ensure(answer(Some(&chart), &bad, size) == (BAD_NAME, true), "6 before 17 and 16")?;
    ensure(answer(Some(&chart), &good, size) == (HAS_HISTORY, true), "17 before 16")?;
    ensure(answer(Some(&without_history), &good, size) == (TOO_MANY_CONFIGURATIONS, true), "16")?;
    let many = vec![Some(&b"e"[..]); 33];
    ensure(answer(Some(&chart), &many, 2 + 256 * 38) == (BAD_PLACE, true), "no place is of a size for 33")?;
    ensure(answer(Some(&chart), &many, 9_474) == (BAD_NAME, true), "the thirty-third name")
}
