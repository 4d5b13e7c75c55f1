//! matches [repetitions]: whether any of four descriptors matches an event, by one pass over the event's
//! name and one descriptor after the other, as it was before: both proved, both in libmatch_bench.a, in one
//! run by turns. Prints a table in Markdown, the ratio first; fails where the one pass takes longer on
//! descriptors of 63 bytes that differ from the name in the last byte alone.

use bench::clock;
use std::hint::black_box;

#[link(name = "match_bench", kind = "static")]
unsafe extern "C" {
    safe fn match_bench_one_pass(
        slots: &[u8; 256],
        slots_count: usize,
        event: &u8,
        event_count: usize,
    ) -> u32;
    safe fn match_bench_one_by_one(
        slots: &[u8; 256],
        slots_count: usize,
        event: &u8,
        event_count: usize,
    ) -> u32;
}

const MATCHES: u32 = 20_000;

type Way = extern "C" fn(&[u8; 256], usize, &u8, usize) -> u32;

struct Case {
    name: String,
    /// R-2's own: here the one pass has to take no longer.
    bounded: bool,
    descriptors: [String; 4],
    event: String,
}

fn case(name: &str, descriptors: [&str; 4], event: &str) -> Case {
    Case {
        name: name.to_string(),
        bounded: false,
        descriptors: descriptors.map(str::to_string),
        event: event.to_string(),
    }
}

/// Descriptors of 63 bytes that differ from the event in the byte at a place alone.
fn long(name: &str, unit: &str, place: usize) -> Case {
    let event: String = unit.chars().cycle().take(62).chain(['e']).collect();
    let differing = |letter: &str| {
        let mut other = event.clone();
        other.replace_range(place..=place, letter);
        other
    };
    let descriptors = ["q", "r", "s", "t"].map(differing);
    Case { name: name.to_string(), bounded: place == 62, descriptors, event }
}

/// Of four such descriptors the one at a place ends in ".*" and matches; the others differ in the last byte.
fn starred(name: &str, place: usize) -> Case {
    let beginning = "a".repeat(61);
    let mut descriptors = ["q", "r", "s", "t"].map(|letter| format!("{beginning}.{letter}"));
    descriptors[place] = format!("{beginning}.*");
    Case { name: name.to_string(), bounded: false, descriptors, event: format!("{beginning}.e") }
}

fn cases() -> Vec<Case> {
    vec![
        long("63 bytes, the last differs, no dot", "a", 62),
        long("63 bytes, the last differs, 10 dots", "aaaaa.", 62),
        long("63 bytes, the last differs, 31 dots", "a.", 62),
        long("63 bytes, the first differs", "a", 0),
        starred("63 bytes, the first of four ends in `.*` and matches", 0),
        starred("63 bytes, the last of four ends in `.*` and matches", 3),
        case("`all`, the last of four matches", ["b", "c", "d", "all"], "all"),
        case("`all`, the first of four matches", ["all", "b", "c", "d"], "all"),
        case("`open.door`, `open.*` matches", ["close", "lock", "open.*", "halt"], "open.door"),
        case(
            "`done.state.p`, none matches",
            ["done.state.q", "done.state.r", "done.state.s", "done.state.t"],
            "done.state.p",
        ),
    ]
}

fn slots(case: &Case) -> [u8; 256] {
    let mut slots = [0; 256];
    for (slot, descriptor) in slots.chunks_mut(64).zip(&case.descriptors) {
        slot[..descriptor.len()].copy_from_slice(descriptor.as_bytes());
    }
    slots
}

/// Nanoseconds for one match.
fn time(way: Way, slots: &[u8; 256], event: &str) -> f64 {
    let begin = clock::now();
    for _ in 0..MATCHES {
        black_box(way(black_box(slots), 256, black_box(&event.as_bytes()[0]), event.len()));
    }
    (clock::now() - begin) / f64::from(MATCHES)
}

fn median(mut numbers: Vec<f64>) -> f64 {
    numbers.sort_by(f64::total_cmp);
    numbers[numbers.len() / 2]
}

fn main() {
    let repetitions: usize =
        std::env::args().nth(1).map_or(101, |n| n.parse().expect("a count of repetitions"));
    let (pass, each): (Way, Way) = (match_bench_one_pass, match_bench_one_by_one);
    println!("| four descriptors | ratio | one pass ns | one after the other ns |\n|---|---|---|---|");
    let mut longer = 0;
    for case in cases() {
        let slots = slots(&case);
        let first = &case.event.as_bytes()[0];
        assert_eq!(
            pass(&slots, 256, first, case.event.len()),
            each(&slots, 256, first, case.event.len()),
            "{}",
            case.name
        );
        let turns: Vec<(f64, f64)> = (0..repetitions)
            .map(|_| (time(pass, &slots, &case.event), time(each, &slots, &case.event)))
            .collect();
        let ratio = median(turns.iter().map(|turn| turn.0 / turn.1).collect());
        let passed = median(turns.iter().map(|turn| turn.0).collect());
        let one_by_one = median(turns.iter().map(|turn| turn.1).collect());
        println!("| {} | {ratio:.2} | {passed:.1} | {one_by_one:.1} |", case.name);
        longer += u32::from(case.bounded && ratio > 1.0);
    }
    assert_eq!(longer, 0, "the one pass takes longer where the last byte alone differs");
}
