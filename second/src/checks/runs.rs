//! The marked runs on chart A.

use super::answers::compiled;
use super::Check;
use crate::compiled::CompiledChart;
use crate::invariants::{ensure, Found};
use crate::readings::chart_a;
use crate::session::*;

pub fn checks() -> Vec<Check> {
    vec![
        Check::new("marked run 1: start", marked_run_1),
        Check::new("marked run 2: e4", marked_run_2),
        Check::new("marked run 3: then e1", marked_run_3),
        Check::new("marked run 4: then e2", marked_run_4),
        Check::new("marked run 5: all at once", marked_run_5),
        Check::new("marked run 8: a run of 0", marked_run_8),
        Check::new("chart A has the rows of document 01", chart_a_is_right),
    ]
}

const ROOM: usize = 1_000;

fn pairs(trace: &[u32]) -> Vec<(u32, u32)> {
    trace.iter().map(|entry| (entry / 65_536, entry % 65_536)).collect()
}

fn wrote(answer: &Answer, expected: &[(u32, u32)]) -> Found {
    let trace = pairs(&answer.trace);
    ensure(trace == expected, &format!("wrote {trace:?}"))
}

fn event(chart: &CompiledChart, session: Session, name: &[u8]) -> Answer {
    session.post(Some(chart), name).session.run(Some(chart), 1, ROOM)
}

fn start(chart: &CompiledChart) -> Answer {
    Session::ended().start(Some(chart), ROOM)
}

fn marked_run_1() -> Found {
    wrote(&start(&compiled(&chart_a())), &[(3, 1), (3, 2), (3, 3), (3, 6), (3, 7)])
}

fn marked_run_2() -> Found {
    let chart = compiled(&chart_a());
    wrote(&event(&chart, start(&chart).session, b"e4"), &[(1, 3), (2, 1), (7, 3), (3, 4)])
}

fn after_e1(chart: &CompiledChart) -> Answer {
    let after_e4 = event(chart, start(chart).session, b"e4").session;
    event(chart, after_e4, b"e1")
}

fn marked_run_3() -> Found {
    let expected = [(1, 7), (1, 4), (2, 2), (7, 4), (2, 3), (7, 7), (3, 5), (6, 2), (3, 8)];
    wrote(&after_e1(&compiled(&chart_a())), &expected)
}

/// The round of e1 leaves done.state.S1, which is dropped before e2 is taken.
fn marked_run_4() -> Found {
    let chart = compiled(&chart_a());
    let posted = after_e1(&chart).session.post(Some(&chart), b"e2").session;
    let answer = posted.run(Some(&chart), 2, ROOM);
    ensure(answer.rounds == 2, "two rounds")?;
    wrote(&answer, &[(1, 8), (2, 4), (7, 8), (3, 9), (6, 6), (6, 1)])
}

fn marked_run_5() -> Found {
    let chart = compiled(&chart_a());
    let mut session = start(&chart).session;
    for name in [b"e4", b"e1", b"e2"] {
        session = session.post(Some(&chart), name).session;
    }
    let whole = session.clone().run(Some(&chart), 10, ROOM);
    ensure(whole.rounds == 6 && whole.number == STATUS_IDLE, "6 rounds, idle")?;
    let rows: Vec<usize> = whole.session.configuration.rows().map(|row| row.0).collect();
    ensure(rows == [10], "configuration {10}")?;
    let cut = session.run(Some(&chart), 3, ROOM);
    ensure(cut.rounds == 3 && cut.number == STATUS_MORE, "3 rounds, more")
}

fn marked_run_8() -> Found {
    let chart = compiled(&chart_a());
    let answer = start(&chart).session.run(Some(&chart), 0, ROOM);
    ensure(answer.rounds == 0 && answer.number == STATUS_IDLE, "0 rounds, idle")
}

fn chart_a_is_right() -> Found {
    let chart = chart_a();
    let ids: Vec<&[u8]> = chart.row_numbers().skip(1).map(|row| chart.id(row)).collect();
    let expected: Vec<&[u8]> =
        vec![b"p", b"S1", b"S11", b"S12", b"S1Final", b"S2", b"S21", b"S22", b"S2Final", b"someOtherState"];
    ensure(ids == expected, "the ids")?;
    let transitions: Vec<(usize, &[u8], usize)> = chart
        .transitions
        .iter()
        .map(|one| (one.source.0, chart.name(one.descriptors[0]), one.targets[0].0))
        .collect();
    let expected: Vec<(usize, &[u8], usize)> =
        vec![(1, b"done.state.p", 10), (3, b"e4", 4), (4, b"e1", 5), (7, b"e1", 8), (8, b"e2", 9)];
    ensure(transitions == expected, "the transitions")
}
