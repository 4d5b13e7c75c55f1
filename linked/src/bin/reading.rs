//! reading: how long the library and the second program take to read texts of 1 to 32 KB, in one run. Prints
//! the table of docs/bench.md, and which of R-1's wanted times are missed; with --strict it fails then.

use linked::library::{self, Scratch};
use second::generate::{self, Flavour};
use second::limits::MAX_TRANSITIONS;
use second::random::Random;
use second::text::read::read;
use second::text::recogniser::MAX_TEXT;
use second::text::spell::spell;
use std::hint::black_box;
use std::process::ExitCode;
use std::time::{Duration, Instant};

const KILOBYTES: [usize; 6] = [1, 2, 4, 8, 16, 32];
/// The shortest of so many turns is taken of each text and reader; in each turn all are measured.
const TURNS: usize = 40;
/// Of so many random charts the one is taken whose text comes nearest to the size.
const CHARTS: u64 = 300;

/// What is wanted: the longest text in so much time, and at most so many times the second program's.
const MOST_TIME: Duration = Duration::from_millis(5);
const MOST_RATIO: f64 = 3.0;

/// Kinds of texts, each with what makes one of at most so many bytes.
const KINDS: [(&str, fn(usize) -> Vec<u8>); 9] = [
    ("random spelling", random_spelling),
    ("references to ids that begin alike", references),
    ("references to ids that differ in the middle", middles),
    ("names that begin alike", names),
    ("the last of many names again and again", last_name),
    ("the last of many names of one key", one_key),
    ("the lowest of names in one tree", one_way),
    ("actions", actions),
    ("a comment", comment),
];

fn random_spelling(size: usize) -> Vec<u8> {
    let mut best = Vec::new();
    for seed in 0..CHARTS {
        let random = &mut Random::seeded(seed);
        let rows = random.between(2, (size / 60).clamp(3, 250));
        let flavour = Flavour { blocks: 60, ..Flavour::with_rows(random, rows) };
        let text = spell(&generate::chart(random, flavour), random);
        if text.len() <= size && text.len() > best.len() {
            best = text;
        }
    }
    best
}

/// At most so many units one after the other between a beginning and an end, as many as fit.
fn repeated(begin: &str, most: usize, unit: impl Fn(usize) -> String, end: &str, size: usize) -> Vec<u8> {
    let mut text = begin.to_string();
    for k in 0..most {
        let unit = unit(k);
        if text.len() + unit.len() + end.len() > size {
            break;
        }
        text += &unit;
    }
    (text + end).into_bytes()
}

fn references(size: usize) -> Vec<u8> {
    references_to(|k| format!("s{k:03}"), size)
}

fn middles(size: usize) -> Vec<u8> {
    references_to(|k| format!("the.row.{k:03}.of.all"), size)
}

/// A part of the text is states, the rest transitions that name two of them.
fn references_to(id: impl Fn(usize) -> String, size: usize) -> Vec<u8> {
    let states = (size / 130).clamp(1, 250);
    let state = |k: usize| format!("<state id='{}'/>", id(k));
    let rows: String = (0..states).map(state).collect();
    let unit = |k: usize| {
        let (one, other) = (id(k % states), id(states - 1 - k % states));
        format!("<transition cond=\"In('{one}')\" target='{other}'/>")
    };
    repeated(
        &format!("<scxml>{rows}<state id='s'>"),
        MAX_TRANSITIONS as usize,
        unit,
        "</state></scxml>",
        size,
    )
}

/// Events, each another until there are nearly as many as a chart may have, and then those again.
fn names(size: usize) -> Vec<u8> {
    let name = |k: usize| format!("event.{:03}", k % 760);
    let unit = |k: usize| {
        let k = 4 * k;
        format!("<transition event='{} {} {} {}'/>", name(k), name(k + 1), name(k + 2), name(k + 3))
    };
    repeated("<scxml><state id='s'>", MAX_TRANSITIONS as usize, unit, "</state></scxml>", size)
}

/// Half of the text is events, each another, the rest the last of them in one list: more than a transition may have, which is known at the list's end.
fn last_name(size: usize) -> Vec<u8> {
    let most = (size / 43).min(760);
    let name = |k: usize| format!("e{k:03}");
    let unit = |k: usize| {
        let k = 4 * k;
        format!("<transition event='{} {} {} {}'/>", name(k), name(k + 1), name(k + 2), name(k + 3))
    };
    let names: String = (0..most / 4).map(unit).collect();
    let begin = format!("<scxml><state id='s'>{names}<transition event='");
    repeated(&begin, size, |_| name(most / 4 * 4 - 1) + " ", "'/></state></scxml>", size)
}

/// The library's hash of a name (`values::noted`), by which it looks names up: ten bits are the key, the others lead through the key's tree.
fn hash(name: &[u8]) -> u64 {
    name.iter().fold(0, |hash, &byte| (hash * 40_503 + u64::from(byte)) % (1 << 48))
}

/// The same with events that all have one key, length and last byte.
fn one_key(size: usize) -> Vec<u8> {
    let most = (size / 43).min(760);
    let spelled = |k: usize| format!("n{:05x}e", k);
    let all = (0..1 << 20).map(spelled).filter(|name| hash(name.as_bytes()) % 1_024 == 7).take(most).collect();
    repeating(all, size)
}

/// The same with events of one key and length, each of which stands below the one before it: their hashes agree in one bit more.
fn one_way(size: usize) -> Vec<u8> {
    let half = |k: usize| [15, 10, 5, 0].map(|shift| b"abcdefghijklmnopqrstuvwxyz234567"[(k >> shift) % 32]);
    let shift = (0..4).fold(1u64, |power, _| power.wrapping_mul(40_503));
    let mut ends = vec![None; 1 << 20];
    (0..1 << 20).for_each(|k| ends[hash(&half(k)) as usize % (1 << 20)] = Some(k));
    let lowest = hash(b"thelast7");
    // A beginning, and the end that makes the hash agree with the lowest one's in 20 bits or more.
    let agreeing = |k: usize| {
        let begin = half(k);
        let left = lowest.wrapping_sub(hash(&begin).wrapping_mul(shift));
        let name = [begin, half(ends[left as usize % (1 << 20)]?)].concat();
        Some(((hash(&name) ^ lowest).trailing_zeros(), name))
    };
    let mut all: Vec<_> = (0..1 << 20).filter_map(agreeing).filter(|(_, name)| name != b"thelast7").collect();
    all.sort();
    let mut way: Vec<String> = Vec::new();
    for (bits, name) in all {
        if bits as usize >= 10 + way.len() {
            way.push(String::from_utf8(name).unwrap());
        }
    }
    way.push("thelast7".to_string());
    repeating(way, size)
}

/// The names, four a transition, and then the last of them again and again in one list.
fn repeating(mut all: Vec<String>, size: usize) -> Vec<u8> {
    all.truncate((size / 43).max(4));
    let names: String = all.chunks(4).map(|four| format!("<transition event='{}'/>", four.join(" "))).collect();
    let begin = format!("<scxml><state id='s'>{names}<transition event='");
    repeated(&begin, size, |_| all[all.len() - 1].clone() + " ", "'/></state></scxml>", size)
}

/// States with full blocks.
fn actions(size: usize) -> Vec<u8> {
    let block = "<if cond=\"In('s')\"><log label='65535'/><else/><raise event='e'/></if>".repeat(6);
    let unit = |k: usize| format!("<state id='s{k}'><onentry>{block}</onentry></state>");
    repeated("<scxml><state id='s'/>", 250, unit, "</scxml>", size)
}

fn comment(size: usize) -> Vec<u8> {
    repeated("<!--", size, |_| " word".to_string(), "--><scxml><state id='s'/></scxml>", size)
}

struct Times {
    read: Duration,
    read_with: Duration,
    second: Duration,
}

fn time(call: impl FnOnce()) -> Duration {
    let began = Instant::now();
    call();
    began.elapsed()
}

fn measure(text: &[u8]) -> Times {
    let (mut numbers, mut names) = (vec![0; 27_756], vec![0; 49_152]);
    let mut scratch = Scratch::filled(0);
    let mut times = Times { read: Duration::MAX, read_with: Duration::MAX, second: Duration::MAX };
    for _ in 0..TURNS {
        let text = black_box(text);
        let library = time(|| _ = black_box(library::read(text, &mut numbers, &mut names)));
        let lent = time(|| _ = black_box(scratch.read(text, &mut numbers, &mut names)));
        let second = time(|| _ = black_box(read(text)));
        times.read = times.read.min(library);
        times.read_with = times.read_with.min(lent);
        times.second = times.second.min(second);
    }
    times
}

/// Prints a line of the table; what is wanted and missed.
fn measured(kind: &str, text: &[u8]) -> Vec<String> {
    let Times { read, read_with, second } = measure(text);
    let answer = library::read(text, &mut [0; 27_756], &mut [0; 49_152]).answer;
    let micros = |time: Duration| time.as_nanos() as f64 / 1_000.0;
    let ratio = micros(read) / micros(second);
    println!(
        "| {kind} | {} | {answer} | {:.1} µs | {:.1} µs | {:.1} µs | {ratio:.2} |",
        text.len(),
        micros(read),
        micros(read_with),
        micros(second)
    );
    let mut missed = Vec::new();
    if read > MOST_TIME || read_with > MOST_TIME {
        missed.push(format!("{kind}, {} bytes: more than {MOST_TIME:?}", text.len()));
    }
    if ratio > MOST_RATIO {
        missed.push(format!("{kind}, {} bytes: {ratio:.2} times the second program's", text.len()));
    }
    missed
}

fn main() -> ExitCode {
    println!("| text | bytes | answer | read | read_with | second | ratio |");
    println!("|---|---|---|---|---|---|---|");
    let mut missed = Vec::new();
    for (kind, make) in KINDS {
        for size in KILOBYTES {
            let text = make((size * 1_024).min(MAX_TEXT));
            missed.extend(measured(kind, &text));
        }
    }
    println!("\nwanted and missed: {}", if missed.is_empty() { "nothing" } else { "" });
    missed.iter().for_each(|what| println!("  {what}"));
    let strict = std::env::args().any(|argument| argument == "--strict");
    match strict && !missed.is_empty() {
        true => ExitCode::FAILURE,
        false => ExitCode::SUCCESS,
    }
}
