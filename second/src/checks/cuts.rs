//! "a run of a rounds and then one of b ... gives the session, clock record, joined trace, status and summed
//! count of one run of a+b" (R-13).

use super::answers::compiled;
use super::desk::{timer, Desk};
use super::Check;
use crate::compiled::CompiledChart;
use crate::invariants::{ensure, Found};
use crate::journal::{Entry, Journal};
use crate::readings::{chart_a, clock, post, run, run_in, start};
use crate::recorded::{Recorded, RecordedAnswer};
use crate::session::*;

pub fn checks() -> Vec<Check> {
    vec![
        Check::new("R-13, 1: chart A cut everywhere", chart_a_cut),
        Check::new("R-13, 1: a run with sends, and one that ends, cut everywhere", timers_cut),
        Check::new("R-13, 1: b of 0 is another status", no_rounds_behind),
        Check::new("R-13, 1: where trace room runs out the cut tells", room_runs_out),
        Check::new("R-13, 1: a cut takes two entries, and 15 where one fits", two_entries),
    ]
}

/// Session, clock record, joined trace, status and summed count of two runs.
fn joined(first: &RecordedAnswer, second: &RecordedAnswer) -> Answer {
    let (first, second) = (&first.answer, &second.answer);
    let trace = [&first.trace[..], &second.trace].concat();
    Answer { trace, rounds: first.rounds + second.rounds, ..second.clone() }
}

fn cut(chart: &CompiledChart, from: &Recorded, a: u32, b: u32) -> Answer {
    let first = from.clone().run(Some(chart), a, 100);
    let second = first.clone().recorded().run(Some(chart), b, 100);
    joined(&first, &second)
}

fn cut_everywhere(chart: &CompiledChart, from: &Recorded, most: u32) -> Found {
    for whole in (1..=most).chain([u32::MAX]) {
        let expected = from.clone().run(Some(chart), whole, 100).answer;
        for a in 0..whole.min(most + 1) {
            let given = cut(chart, from, a, whole - a);
            ensure(given == expected, &format!("{a} and then {}", whole - a))?;
        }
    }
    Ok(())
}

/// Six rounds, then idle.
fn chart_a_cut() -> Found {
    let mut desk = Desk::new(&chart_a());
    for call in [start(), post("e4"), post("e1"), post("e2")] {
        desk.call(call);
    }
    let whole = desk.now.clone().run(Some(&desk.chart), 10, 100).answer;
    ensure(whole.rounds == 6 && whole.number == STATUS_IDLE, "6 rounds, idle")?;
    cut_everywhere(&desk.chart, &desk.now, 9)
}

fn timers_cut() -> Found {
    let mut desk = Desk::new(&timer());
    for call in [start(), clock(3), post("e"), post("e"), post("e"), post("x"), post("go"), post("e")] {
        desk.call(call);
    }
    let whole = desk.now.clone().run(Some(&desk.chart), 10, 100).answer;
    ensure(whole.rounds == 6 && whole.number == STATUS_ENDED, "6 rounds, the last of them the closing one")?;
    cut_everywhere(&desk.chart, &desk.now, 8)?;
    let mut desk = Desk::new(&timer());
    for call in [start(), post("no"), post("many"), post("e")] {
        desk.call(call);
    }
    let whole = desk.now.clone().run(Some(&desk.chart), 10, 100).answer;
    ensure(whole.rounds == 1 && whole.number == QUEUE_FULL, "1 round, then 7")?;
    cut_everywhere(&desk.chart, &desk.now, 4)
}

/// A run of 2 says 7 or 10, since fewer were done than asked; one of 0 behind it says more.
fn no_rounds_behind() -> Found {
    let mut desk = Desk::new(&timer());
    for call in [start(), post("no"), post("many")] {
        desk.call(call);
    }
    let whole = desk.now.clone().run(Some(&desk.chart), 2, 100).answer;
    let given = cut(&desk.chart, &desk.now, 2, 0);
    ensure(whole.number == QUEUE_FULL && given.number == STATUS_MORE, "7 and then more")?;
    ensure(Answer { number: QUEUE_FULL, ..given } == whole, "all else is alike")?;
    let mut desk = Desk::new(&timer());
    for call in [start(), post("e"), post("e")] {
        desk.call(call);
    }
    ensure(desk.call(run_in(2, 5)).answer.number == NO_TRACE_ROOM, "10")?;
    ensure(desk.call(run(0)).answer.number == STATUS_MORE, "and then more")
}

/// The rounds of e, e, e write 5, 4 and 5 entries: in a room of 9 the whole run gets 10, the cut one does not.
fn room_runs_out() -> Found {
    let chart = compiled(&timer());
    let mut desk = Desk::new(&timer());
    for call in [start(), post("e"), post("e"), post("e")] {
        desk.call(call);
    }
    let whole = desk.now.clone().run(Some(&chart), 3, 9);
    let first = desk.now.clone().run(Some(&chart), 2, 9);
    let second = first.clone().recorded().run(Some(&chart), 1, 9);
    ensure(whole.answer.number == NO_TRACE_ROOM && whole.answer.rounds == 2, "10 after 2 rounds")?;
    let given = joined(&first, &second);
    ensure(given.number == STATUS_IDLE && given.rounds == 3 && given.trace.len() == 14, "idle after 3")?;
    let rest = first.clone().recorded().run(Some(&chart), 1, 0);
    ensure(joined(&first, &rest) == whole.answer, "with the rest of the first one's room the two are alike")
}

/// One run leaves one entry, two leave two, but one if the first ended the session; with 511 entries the
/// second gets 15.
fn two_entries() -> Found {
    let mut desk = Desk::new(&timer());
    for call in [start(), post("go")] {
        desk.call(call);
    }
    let ends = |journal: Journal, a: u32, b: u32| {
        let from = Recorded { journal, ..desk.now.clone() };
        let first = from.run(Some(&desk.chart), a, 100);
        first.recorded().run(Some(&desk.chart), b, 100)
    };
    let entered = |given: &RecordedAnswer| given.journal.entries();
    let (post, run) = (Entry::Post(b"go".to_vec()), Entry::Run);
    let one = Journal::of(std::slice::from_ref(&post));
    ensure(entered(&ends(one.clone(), 1, 1)) == Some(vec![post.clone(), run(1), run(1)]), "two entries")?;
    ensure(entered(&ends(one, 2, 7)) == Some(vec![post, run(2)]), "one, where the first run ends it")?;
    let nearly = Journal::of(&vec![run(0); 511]);
    let refused = ends(nearly.clone(), 1, 1);
    ensure(refused.answer.number == JOURNAL_FULL && refused.answer.rounds == 0, "15 for the second entry")?;
    let ended = ends(nearly, 2, 1);
    ensure(ended.answer.number == STATUS_ENDED && ended.journal.count() == 512, "ended, and no 15")
}
