//! Charts exactly at the limits, one limit each, and headers at them and one past them.

use crate::builder::{Builder, Do};
use crate::calls::Call;
use crate::encode::{encode_plainly, Spelt};
use crate::examples::Example;
use crate::limits::*;
use crate::names::slot_of;
use crate::numbers::NameNumber;
use crate::readings::{post, run, run_in, start};
use crate::tables::{Action, Chart, Counts};
use std::iter;

/// What the prover can compute; headers show the other limits there.
pub fn small() -> Vec<Example> {
    vec![most_of_a_transition(), long_list(LONG_LIST)]
}

/// Charts as large as may be, for the programs.
pub fn large() -> Vec<Example> {
    vec![
        most_rows(),
        most_transitions(),
        most_slots(),
        most_descriptors(),
        most_regions(),
        deepest(),
        long_list(MAX_ROWS as usize - 2),
    ]
}

/// So many rows a list has that the prover computes.
const LONG_LIST: usize = 20;

/// The six counts, and whether "counts as above" holds of them.
pub struct Header {
    pub about: String,
    pub counts: [u64; HEADER_CELLS],
    pub fits: bool,
}

impl Header {
    fn of(about: String, counts: [u64; HEADER_CELLS]) -> Header {
        Header { about, counts, fits: Counts::read(&counts).is_some() }
    }
}

const GREATEST: [u64; HEADER_CELLS] =
    [MAX_ROWS, MAX_TRANSITIONS, MAX_REFERENCES, MAX_DESCRIPTORS, MAX_ACTIONS, MAX_SLOTS];

pub fn headers() -> Vec<Header> {
    let mut headers = vec![
        Header::of("every count at its limit".to_string(), GREATEST),
        Header::of("one row and nothing else".to_string(), [1, 0, 0, 0, 0, 0]),
        Header::of("no row".to_string(), [0; HEADER_CELLS]),
    ];
    let what = ["row", "transition", "reference", "descriptor", "action", "slot"];
    for (place, what) in what.into_iter().enumerate() {
        let mut counts = GREATEST;
        counts[place] += 1;
        headers.push(Header::of(format!("one {what} too many"), counts));
    }
    headers
}

fn one_state() -> Chart {
    let mut b = Builder::new();
    b.state("", "s");
    b.chart()
}

/// "Raise rows to 256": one beside the other, each leading to the next and the last to the first.
fn most_rows() -> Example {
    let mut b = Builder::new();
    for row in 1..MAX_ROWS {
        b.state("", &format!("s{row}"));
    }
    let last = MAX_ROWS - 1;
    for row in 1..last {
        b.on(&format!("s{row}"), "e", &format!("s{}", row + 1));
    }
    b.on(&format!("s{last}"), "e", "s1");
    b.list("", &format!("s{last}"), &[]);
    let calls = vec![start(), post("e"), run(1), post("e"), run(1)];
    Example::of_chart("most_rows", &format!("{MAX_ROWS} rows"), &b.chart(), calls)
}

/// "transitions to 512". All but the last want another event.
fn most_transitions() -> Example {
    let mut b = Builder::new();
    b.state("", "s").state("", "z");
    for _ in 1..MAX_TRANSITIONS {
        b.on("s", "other", "z");
    }
    b.on("s", "e", "z").doing(&[Do::Host(1)]);
    let calls = vec![start(), post("e"), run(1)];
    Example::of_chart("most_transitions", &format!("{MAX_TRANSITIONS} transitions"), &b.chart(), calls)
}

/// "name slots to 768". The last one is raised.
fn most_slots() -> Example {
    let mut chart = one_state();
    chart.names.resize(MAX_SLOTS as usize, slot_of(b"u"));
    chart.rows[1].entry = vec![Action::Raise(NameNumber(MAX_SLOTS as usize - 1))];
    let about = format!("{MAX_SLOTS} slots");
    Example::of_chart("most_slots", &about, &chart, vec![start(), run(1)])
}

/// A start, and a round for each event, with room for all rows.
fn in_turn(events: &[&str]) -> Vec<Call> {
    let room = 4 * MAX_ROWS as usize;
    let rounds = events.iter().flat_map(|event| [post(event), run_in(1, room)]);
    iter::once(Call::Start { room }).chain(rounds).collect()
}

/// A parallel with as many regions as there is room for: all are entered, taken and left together.
fn most_regions() -> Example {
    let mut b = Builder::new();
    b.parallel("", "p");
    let count = MAX_ROWS - 3;
    regions(&mut b, "p", count);
    b.state("", "z");
    for region in 0..count {
        b.on(&format!("r{region}"), "all", "").doing(&[Do::Host(region as u16)]);
    }
    b.on("p", "out", "z").on("z", "in", "p");
    let calls = in_turn(&["all", "out", "in"]);
    Example::of_chart("most_regions", &format!("{count} regions"), &b.chart(), calls)
}

/// Each row below the one before it, a deep history at the top, which remembers the last row.
fn deepest() -> Example {
    let last = MAX_ROWS as usize - 3;
    let mut b = Builder::new();
    b.state("", "s1").deep("s1", "h");
    for row in 2..=last {
        b.state(&format!("s{}", row - 1), &format!("s{row}"));
    }
    b.state("", "z");
    b.list("h", &format!("s{last}"), &[Do::Host(1)]);
    b.on("s1", "out", "z").on(&format!("s{last}"), "again", "h").on("z", "in", "h");
    let calls = in_turn(&["again", "out", "in"]);
    Example::of_chart("deepest", &format!("{last} rows below each other"), &b.chart(), calls)
}

/// The table at its limit, with cells that no list uses.
fn most_descriptors() -> Example {
    let Spelt { mut numbers, names } = encode_plainly(&one_state());
    numbers[3] = MAX_DESCRIPTORS;
    numbers.extend(vec![0; MAX_DESCRIPTORS as usize]);
    let about = format!("{MAX_DESCRIPTORS} descriptors");
    Example::of_tables("most_descriptors", &about, Spelt { numbers, names }, Vec::new())
}

fn regions(b: &mut Builder, parallel: &str, count: u64) -> String {
    let ids: Vec<String> = (0..count).map(|region| format!("r{region}")).collect();
    for id in &ids {
        b.state(parallel, id);
    }
    ids.join(" ")
}

/// "0 to 4 descriptors", "0 to 8 targets", "at most 32 actions in a block".
fn most_of_a_transition() -> Example {
    let mut b = Builder::new();
    b.state("", "z").parallel("", "p");
    let targets = regions(&mut b, "p", MAX_TARGETS_OF_TRANSITION);
    let block: Vec<Do> = (1..=MAX_ACTIONS_OF_BLOCK as u16).map(Do::Host).collect();
    b.on("z", "a b c d", &targets).doing(&block);
    let calls = vec![start(), post("d"), run(1)];
    Example::of_chart("most_of_a_transition", "4 descriptors, 8 targets, 32 actions", &b.chart(), calls)
}

/// A list has no limit but the rows.
fn long_list(count: usize) -> Example {
    let mut b = Builder::new();
    b.parallel("", "p");
    let list = regions(&mut b, "p", count as u64);
    b.list("", &list, &[]);
    Example::of_chart("long_list", &format!("a list of {count} rows"), &b.chart(), Vec::new())
}

/// So many rows. The last is a descendant, a child, a default entry target and a target, so that
/// those sets have its bit; no row stands below the last.
pub fn last_row_everywhere(rows: usize) -> Chart {
    let before = rows - 5;
    let mut b = Builder::new();
    for row in 1..=before {
        b.state("", &format!("s{row}"));
    }
    b.state("", "a").parallel("a", "p").state("p", "b").state("p", "c");
    b.list("", "c", &[]).list("a", "b c", &[]).on("s1", "e", "c b").on("c", "e", &format!("s{before}"));
    b.chart()
}
