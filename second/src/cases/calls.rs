//! The cases of the program `calls_run`: posts to sessions of every kind, and charts with lists of
//! calls.

use super::lists::lists;
use super::script::{making, texts as texts_of, Line};
use crate::at_limits;
use crate::builder::{Builder, Do};
use crate::calls::Call;
use crate::cells::{EXTERNAL_COUNT, INTERNAL_COUNT, MODE};
use crate::compiled::{compile, needed_place, CompiledChart};
use crate::encode::Layout;
use crate::follower::{session_examples, ListedSession};
use crate::generate::bad_names;
use crate::limits::{HEADER_CELLS, HISTORY_PLACES, MAX_ROWS, QUEUE_NAMES, SLOT_BYTES};
use crate::names::slot_of;
use crate::near_misses::Lent;
use crate::numbers::RowNumber;
use crate::places::small_chart;
use crate::readings::{chart_a, post, run, start};
use crate::row_set::RowSet;
use crate::rules::Place;
use crate::session::{Queue, Session, ENDED};
use crate::tables::Chart;
use crate::timed::{watch_nothing, Timed};

/// How many charts have calls behind them.
pub fn charts_with_calls() -> usize {
    let lines = lists();
    let charts = lines.split(|line| matches!(line, Line::Chart(_))).skip(1);
    charts.filter(|lines| lines.iter().any(|line| matches!(line, Line::Call(_)))).count()
}

/// The program's standard input, and what it has to print.
pub fn texts() -> (String, String) {
    texts_of(&[posts(), lists()].concat())
}

fn about(text: impl Into<String>) -> Line {
    Line::About(text.into())
}

fn named(name: impl AsRef<[u8]>) -> Line {
    Line::Call(Call::Post { name: name.as_ref().to_vec() })
}

fn chart_line(chart: &Chart) -> Line {
    Line::Chart(Lent::of(chart, Layout::Plain))
}

/// The session that these calls leave.
fn after(chart: &Chart, calls: &[Call]) -> Session {
    let Lent { spelt, .. } = Lent::of(chart, Layout::Plain);
    let compiled = CompiledChart::from_tables(&spelt.numbers, &spelt.names).expect("the chart is accepted");
    let mut timed = Timed::ended();
    for call in calls {
        timed = call.done_on(timed, Some(&compiled), &mut watch_nothing).timed();
    }
    timed.session
}

// Posts

fn posts() -> Vec<Line> {
    let mut lines = Vec::new();
    lines.extend(listed_sessions());
    lines.extend(each_cell_changed());
    lines.extend(made_sessions());
    lines.extend(names_posted());
    lines.extend(full_queues());
    lines.extend(orders());
    lines.extend(charts_changed());
    lines
}

/// The sessions that the definition is compared on, as far as words and slots can spell them.
fn listed_sessions() -> Vec<Line> {
    let mut lines = Vec::new();
    for (chart, examples) in session_examples() {
        lines.extend([about("a chart with sessions"), chart_line(&chart)]);
        for example in &examples {
            if let Some(session) = spelt(&example.session, chart.rows.len()) {
                lines.push(about(&example.about));
                lines.extend(making(&session));
                lines.push(named("e"));
                if !example.fits {
                    lines.push(Line::Call(run(1)));
                }
            }
        }
    }
    lines
}

fn spelt(listed: &ListedSession, rows: usize) -> Option<Session> {
    let set = |rows: &[u64]| -> Option<RowSet> {
        let ascending = rows.windows(2).all(|pair| pair[0] < pair[1]);
        ascending.then(|| rows.iter().map(|&row| RowNumber(row as usize)).collect())
    };
    let queue = |names: &[Vec<u8>]| {
        let fits = names.len() <= QUEUE_NAMES && names.iter().all(|name| name.len() <= SLOT_BYTES);
        fits.then(|| Queue::of(names)).flatten()
    };
    if listed.history.len() != rows {
        return None;
    }
    let mut stored = vec![RowSet::EMPTY; HISTORY_PLACES];
    for (row, rows) in listed.history.iter().enumerate() {
        stored[row] = set(rows)?;
    }
    Some(Session {
        configuration: set(&listed.configuration)?,
        stored,
        internal: queue(&listed.internal)?,
        external: queue(&listed.external)?,
        mode: listed.mode,
    })
}

/// Two histories of a state with a parallel in it, and finals under the root.
fn histories() -> Chart {
    let mut b = Builder::new();
    b.state("", "s").state("s", "x").parallel("s", "q").state("q", "a").state("a", "a1").state("a", "a2");
    b.state("q", "c").deep("s", "d").shallow("s", "h").state("", "z").final_("", "f");
    b.list("d", "x", &[]).list("h", "x", &[]).on("x", "e", "q").on("s", "f", "z").on("z", "g", "f");
    b.on_entry("f", &[Do::Raise("late")]).on("z", "b", "s");
    b.chart()
}

/// Well-formed sessions, and a name for each.
fn bases() -> Vec<(&'static str, Chart, Session, &'static str)> {
    let stored = [start(), post("e"), post("f"), run(2)];
    let with = |more: &[Call]| after(&histories(), &[&stored[..], more].concat());
    let queued = [post("b"), run(1), post("e1"), post("e2.x")];
    let full: Vec<Call> = [start()].into_iter().chain((0..QUEUE_NAMES).map(|_| post("e"))).collect();
    let last = at_limits::last_row_everywhere(MAX_ROWS as usize);
    let last_session = after(&last, &[start(), post("e")]);
    vec![
        (
            "chart A",
            chart_a(),
            after(&chart_a(), &[start(), post("e4"), post("e1"), run(2), post("e2")]),
            "e9",
        ),
        ("histories that have stored", histories(), with(&queued), "e"),
        ("a name that is none", histories(), with(&queued), "e."),
        ("a closing session", histories(), with(&[post("g"), post("x"), run(1)]), "e"),
        ("an ended session", histories(), with(&[post("g"), run(2)]), "e"),
        ("a full queue", chart_a(), after(&chart_a(), &full), "e"),
        ("the last row there may be", last, last_session, "e"),
    ]
}

fn each_cell_changed() -> Vec<Line> {
    let mut lines = Vec::new();
    for (text, chart, session, name) in bases() {
        lines.extend([about(format!("each cell of a session changed, {text}")), chart_line(&chart)]);
        lines.extend(making(&session));
        lines.push(named(name));
        lines.extend(making(&session));
        lines.push(Line::EachCell(name.as_bytes().to_vec()));
    }
    lines
}

/// Sessions of cells at will: all of them, then with a count and a mode that a session may have, then with empty
/// queues.
fn made_sessions() -> Vec<Line> {
    let mut lines = vec![about("sessions of cells at will"), chart_line(&histories())];
    for from in 1..=24 {
        lines.extend([about(format!("made from {from}")), Line::Made(from), named("e")]);
        lines.extend([Line::Cell(INTERNAL_COUNT, from % 33), Line::Cell(EXTERNAL_COUNT, from / 2)]);
        lines.extend([Line::Cell(MODE, from % 3), about("small counts"), named("e")]);
        lines.extend([Line::Internal(Vec::new()), Line::External(Vec::new()), about("empty queues")]);
        lines.push(named("e"));
    }
    lines
}

/// Names of every length to 70 and of 300, and with every byte value at each place.
fn names_posted() -> Vec<Line> {
    let started = after(&chart_a(), &[start()]);
    let mut lines = vec![about("names of many lengths"), chart_line(&chart_a())];
    for length in (0..=70).chain([127, 128, 255, 256, 300]) {
        lines.push(about(format!("{length} bytes")));
        lines.extend(making(&started));
        lines.push(named(vec![b'n'; length]));
    }
    for name in bad_names() {
        lines.push(about("no event name"));
        lines.extend(making(&started));
        lines.push(named(name));
    }
    for name in ["n", "nm", "a.b", "a..", &"n".repeat(63)] {
        lines.push(about(format!("every byte value at each place of {name}")));
        lines.extend(making(&started));
        lines.extend([named(name), Line::EachByte(name.as_bytes().to_vec())]);
    }
    lines
}

fn full_queues() -> Vec<Line> {
    let mut lines = vec![about("33 posts"), chart_line(&chart_a())];
    lines.extend(making(&after(&chart_a(), &[start()])));
    lines.extend((0..QUEUE_NAMES + 1).map(|place| named(format!("e{place}"))));
    lines.push(about("6 before 7"));
    lines.push(named("*"));
    lines.push(about("32 internal names are none of a post's business"));
    lines.extend(making(&after(&chart_a(), &[start()])));
    lines.extend([Line::Internal(vec![slot_of(b"i"); QUEUE_NAMES]), named("e")]);
    lines
}

/// "Order: 8, 9, 6, 11, 7, 10."
fn orders() -> Vec<Line> {
    let mut lines = vec![about("the order of refusals"), chart_line(&chart_a())];
    let Lent { spelt, place } = Lent::of(&chart_a(), Layout::Plain);
    lines.extend([Line::Zeros, about("11"), named("e"), about("6 before 11"), named("*")]);
    lines.extend([Line::Cell(MODE, 3), about("9 before 6 and 11"), named("*")]);
    lines.extend([Line::Number(HEADER_CELLS, 1), about("8 before 9"), named("*")]);
    lines.extend([Line::Cell(MODE, ENDED), about("8 before 6 and 11"), named("*")]);
    lines.extend([Line::Number(HEADER_CELLS, spelt.numbers[HEADER_CELLS]), about("11 again"), named("e")]);
    lines.extend([Line::Lend(Place { numbers: place.numbers - 1, ..place }), about("8"), named("e")]);
    lines.extend([Line::Lend(Place { numbers: place.numbers + 1, ..place }), about("8"), named("e")]);
    lines.extend([Line::Lend(Place { names: place.names - 1, ..place }), about("8"), named("e")]);
    lines.extend([Line::Lend(Place { names: place.names + 1, ..place }), about("8"), named("e")]);
    lines.extend([Line::Lend(Place { numbers: 0, names: 0 }), about("8, nothing lent"), named("e")]);
    lines
}

/// Each number of a compiled chart, and each byte of its names, changed in one way.
fn charts_changed() -> Vec<Line> {
    let spelt = small_chart();
    let place = needed_place(&spelt.numbers).expect("the counts are within their limits");
    let places = compile(&spelt.numbers, &spelt.names, place).expect("the chart is accepted");
    let title = about("a compiled chart with one number or byte changed");
    let mut lines = vec![title, Line::Chart(Lent { spelt, place })];
    lines.extend([Line::Zeros, Line::Cell(0, 0b110), Line::Cell(MODE, 1), named("e")]);
    for (cell, &number) in places.numbers.iter().enumerate() {
        lines.extend([about(format!("number {cell}")), Line::Number(cell, number ^ 1), named("e")]);
        lines.push(Line::Number(cell, number));
    }
    for (place, &byte) in places.names.iter().enumerate() {
        lines.extend([about(format!("byte {place}")), Line::Byte(place, byte ^ 1), named("e")]);
        lines.push(Line::Byte(place, byte));
    }
    lines
}
