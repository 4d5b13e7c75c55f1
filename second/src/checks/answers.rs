//! The table of "Calls and answers": every refusal, their order, and what they leave.

use super::Check;
use crate::builder::{Builder, Do};
use crate::compiled::CompiledChart;
use crate::encode::encode_plainly;
use crate::generate::bad_names;
use crate::invariants::{ensure, Found};
use crate::names::slot_of;
use crate::numbers::RowNumber;
use crate::readings::chart_a;
use crate::session::*;
use crate::tables::Chart;

pub fn checks() -> Vec<Check> {
    vec![
        Check::new("answers: 8 before everything", eight_first),
        Check::new("answers: 9 before 6, 11 and 7", nine_next),
        Check::new("answers: 6 before 11 and 7", six_next),
        Check::new("answers: 11 for a post to an ended session", eleven),
        Check::new("answers: 7 for the thirty-third post", thirty_third_post),
        Check::new("answers: a start ignores its session", start_ignores),
        Check::new("answers: a refused start leaves an ended session", refused_start),
        Check::new("answers: 10 leaves the completed rounds", no_room_keeps_rounds),
        Check::new("answers: a taken event leaves before new ones join", taken_leaves_first),
        Check::new("answers: a run of no rounds", run_of_none),
        Check::new("answers: a closing round needs room", closing_needs_room),
        Check::new("answers: bad names get 6", all_bad_names),
        Check::new("sessions: zeros are a well-formed ended session", zeros),
        Check::new("sessions: modes", modes),
        Check::new("sessions: queues", queues),
        Check::new("sessions: configurations", configurations),
        Check::new("sessions: stored history", stored_history),
    ]
}

pub fn compiled(chart: &Chart) -> CompiledChart {
    let spelt = encode_plainly(chart);
    CompiledChart::from_tables(&spelt.numbers, &spelt.names).expect("a chart of ours is accepted")
}

fn started(compiled: &CompiledChart) -> Session {
    Session::ended().start(Some(compiled), 1_000).session
}

/// A session that is not well formed for any chart.
fn broken() -> Session {
    Session { mode: 3, ..Session::ended() }
}

fn leaves(answer: &Answer, number: u64, session: &Session) -> Found {
    ensure(answer.number == number, &format!("{} is given, not {number}", answer.number))?;
    ensure(answer.session == *session, "the session is as it was")?;
    ensure(answer.trace.is_empty() && answer.rounds == 0, "nothing is written or counted")
}

fn eight_first() -> Found {
    leaves(&broken().post(None, b"*"), 8, &broken())?;
    leaves(&broken().run(None, 5, 100), 8, &broken())?;
    leaves(&broken().run(None, 0, 0), 8, &broken())?;
    leaves(&broken().start(None, 0), 8, &Session::ended())?;
    leaves(&started(&compiled(&chart_a())).start(None, 100), 8, &Session::ended())
}

fn nine_next() -> Found {
    let chart = compiled(&chart_a());
    leaves(&broken().post(Some(&chart), b"*"), 9, &broken())?;
    leaves(&broken().run(Some(&chart), 5, 0), 9, &broken())?;
    leaves(&broken().run(Some(&chart), 0, 0), 9, &broken())
}

fn six_next() -> Found {
    let chart = compiled(&chart_a());
    leaves(&Session::ended().post(Some(&chart), b"*"), 6, &Session::ended())?;
    let full = Session { external: Queue::of(&vec![b"e".to_vec(); 32]).expect("fits"), ..started(&chart) };
    leaves(&full.clone().post(Some(&chart), b""), 6, &full)
}

fn eleven() -> Found {
    let chart = compiled(&chart_a());
    leaves(&Session::ended().post(Some(&chart), b"e"), 11, &Session::ended())
}

fn thirty_third_post() -> Found {
    let chart = compiled(&chart_a());
    let mut session = started(&chart);
    for post in 0..32 {
        let answer = session.post(Some(&chart), format!("e{post}").as_bytes());
        ensure(answer.number == ACCEPTED, "32 posts are accepted")?;
        session = answer.session;
    }
    ensure(session.external.names()[31] == b"e31", "a post joins last")?;
    leaves(&session.clone().post(Some(&chart), b"e"), 7, &session)
}

fn start_ignores() -> Found {
    let chart = compiled(&chart_a());
    let clean = Session::ended().start(Some(&chart), 5);
    ensure(clean.number == ACCEPTED && clean.trace.len() == 5, "room for just five")?;
    ensure(broken().start(Some(&chart), 5) == clean, "a broken session is ignored")?;
    let mut used = started(&chart).post(Some(&chart), b"e4").session;
    used.stored[3].insert(RowNumber(1));
    ensure(used.start(Some(&chart), 5) == clean, "queues and history are emptied")
}

fn refused_start() -> Found {
    let chart = compiled(&chart_a());
    for room in 0..5 {
        leaves(&started(&chart).start(Some(&chart), room), 10, &Session::ended())?;
    }
    let mut b = Builder::new();
    let raises = [Do::Raise("e"); 8];
    b.state("", "a").state("a", "b").state("b", "c").state("c", "d").state("d", "e");
    for id in ["a", "b", "c", "d"] {
        b.on_entry(id, &raises);
    }
    let accepted = started(&compiled(&b.chart()));
    ensure(accepted.internal.count == 32, "32 raises fit")?;
    b.on_entry("e", &[Do::Raise("e")]);
    let full = compiled(&b.chart());
    leaves(&accepted.clone().start(Some(&full), 1_000), 7, &Session::ended())?;
    leaves(&accepted.start(Some(&full), 0), 7, &Session::ended())
}

/// Chart A from its start: e4 writes four entries, e1 nine.
fn no_room_keeps_rounds() -> Found {
    let chart = compiled(&chart_a());
    let mut session = started(&chart);
    for name in [b"e4", b"e1"] {
        session = session.post(Some(&chart), name).session;
    }
    let after_one = session.clone().run(Some(&chart), 1, 4);
    ensure(after_one.rounds == 1 && after_one.number == STATUS_MORE, "one round fits in four places")?;
    for room in 4..13 {
        let answer = session.clone().run(Some(&chart), 5, room);
        ensure(answer.number == NO_TRACE_ROOM && answer.rounds == 1, "the second round does not fit")?;
        ensure(answer.session == after_one.session && answer.trace == after_one.trace, "the first is kept")?;
    }
    let answer = session.clone().run(Some(&chart), 5, 13);
    ensure(answer.rounds == 3 && answer.number == STATUS_IDLE, "thirteen places do")?;
    leaves(&session.clone().run(Some(&chart), 5, 3), 10, &session)
}

/// A full internal queue of 32 names is no hindrance to a round that raises one name.
fn taken_leaves_first() -> Found {
    let mut b = Builder::new();
    b.state("", "s").on("s", "e", "").doing(&[Do::Raise("e")]);
    let chart = compiled(&b.chart());
    let full = Queue::of(&vec![b"e".to_vec(); 32]).expect("fits");
    let session = Session { internal: full, ..started(&chart) };
    let answer = session.run(Some(&chart), 50, 150);
    ensure(answer.rounds == 50 && answer.number == STATUS_MORE, "one leaves, one joins")?;
    b.on("s", "f", "").doing(&[Do::Raise("e"), Do::Raise("e")]);
    let chart = compiled(&b.chart());
    let mut names = vec![b"e".to_vec(); 32];
    names[0] = b"f".to_vec();
    let session = Session { internal: Queue::of(&names).expect("fits"), ..started(&chart) };
    leaves(&session.clone().run(Some(&chart), 1, 100), 7, &session)
}

fn run_of_none() -> Found {
    let chart = compiled(&chart_a());
    leaves(&Session::ended().run(Some(&chart), 0, 0), STATUS_ENDED, &Session::ended())?;
    let session = started(&chart);
    leaves(&session.clone().run(Some(&chart), 0, 0), STATUS_IDLE, &session)?;
    let posted = session.post(Some(&chart), b"e4").session;
    leaves(&posted.clone().run(Some(&chart), 0, 0), STATUS_MORE, &posted)?;
    leaves(&posted.clone().run(Some(&chart), 1, 0), NO_TRACE_ROOM, &posted)
}

fn closing_needs_room() -> Found {
    let mut b = Builder::new();
    b.final_("", "f").on_exit("f", &[Do::Raise("late"), Do::Host(9)]);
    let chart = compiled(&b.chart());
    let session = started(&chart);
    ensure(session.mode == CLOSING, "a start can set closing")?;
    leaves(&session.clone().run(Some(&chart), 1, 2), NO_TRACE_ROOM, &session)?;
    let posted = session.clone().post(Some(&chart), b"x");
    ensure(posted.number == ACCEPTED, "a closing session takes posts")?;
    let answer = posted.session.run(Some(&chart), 4, 3);
    ensure(answer.session == Session::ended() && answer.rounds == 1, "queues are emptied")?;
    let shown = vec![65_536 + 1, 5 * 65_536 + 1, 4 * 65_536 + 9];
    ensure(answer.number == STATUS_ENDED && answer.trace == shown, "raises are shown")
}

fn all_bad_names() -> Found {
    let chart = compiled(&chart_a());
    let session = started(&chart);
    for name in bad_names() {
        leaves(&session.clone().post(Some(&chart), &name), 6, &session)?;
    }
    for byte in 0..=255u8 {
        let answer = session.clone().post(Some(&chart), &[b'a', byte]);
        let good = byte.is_ascii_alphanumeric() || byte == b'-' || byte == b'_';
        ensure((answer.number == ACCEPTED) == good, "each byte behind a letter")?;
    }
    let longest = session.clone().post(Some(&chart), &[b'a'; 63]);
    ensure(longest.number == ACCEPTED, "63 bytes are a name")
}

fn zeros() -> Found {
    ensure(Session::ended().is_well_formed(&compiled(&chart_a())), "zeros are well formed")
}

fn modes() -> Found {
    let mut b = Builder::new();
    b.state("", "s").final_("", "f");
    let chart = compiled(&b.chart());
    let with = |rows: &[usize], mode: u64| Session {
        configuration: rows.iter().map(|&row| RowNumber(row)).collect(),
        mode,
        ..Session::ended()
    };
    for mode in 0..4 {
        ensure(with(&[], mode).is_well_formed(&chart) == (mode == ENDED), "nothing active")?;
        ensure(with(&[1], mode).is_well_formed(&chart) == (mode == RUNNING), "a state active")?;
        ensure(with(&[2], mode).is_well_formed(&chart) == (mode == CLOSING), "a final active")?;
        ensure(!with(&[1, 2], mode).is_well_formed(&chart), "two children of the root")?;
        ensure(!with(&[0, 1], mode).is_well_formed(&chart), "the root listed")?;
        ensure(!with(&[1, 3], mode).is_well_formed(&chart), "a row past the last")?;
        ensure(!with(&[1, 255], mode).is_well_formed(&chart), "a row past the last")?;
    }
    ensure(!with(&[], u64::MAX).is_well_formed(&chart), "a huge mode")
}

fn queues() -> Found {
    let chart = compiled(&chart_a());
    let good = started(&chart).post(Some(&chart), b"e").session;
    let spoil = |change: &dyn Fn(&mut Queue)| {
        let mut external = good.clone();
        change(&mut external.external);
        let mut internal = good.clone();
        internal.internal = good.external.clone();
        change(&mut internal.internal);
        external.is_well_formed(&chart) || internal.is_well_formed(&chart)
    };
    ensure(good.is_well_formed(&chart), "one name posted")?;
    ensure(!spoil(&|queue| queue.count = 0), "a name in an unused place")?;
    ensure(!spoil(&|queue| queue.count = 2), "no name in a used place")?;
    ensure(!spoil(&|queue| queue.count = 33), "33 names")?;
    ensure(!spoil(&|queue| queue.count = u64::MAX), "a huge count")?;
    ensure(!spoil(&|queue| queue.slots[0] = slot_of(b"*")), "a star")?;
    ensure(!spoil(&|queue| queue.slots[0] = [b'a'; 64]), "no zero")?;
    ensure(!spoil(&|queue| queue.slots[0][63] = 1), "no zeros to the slot's end")?;
    ensure(!spoil(&|queue| queue.slots[1][0] = b'a'), "an unused place not zero")?;
    ensure(!spoil(&|queue| queue.slots[31][63] = 1), "an unused place not zero")?;
    let ended = Session { external: good.external.clone(), ..Session::ended() };
    ensure(!ended.is_well_formed(&chart), "an ended session has empty queues")
}

fn configurations() -> Found {
    let chart = compiled(&chart_a());
    let good = started(&chart);
    for row in 0..256 {
        let mut changed = good.clone();
        match changed.configuration.contains(RowNumber(row)) {
            true => changed.configuration.remove(RowNumber(row)),
            false => changed.configuration.insert(RowNumber(row)),
        }
        ensure(!changed.is_well_formed(&chart), "one row more or less is not legal")?;
    }
    Ok(())
}

fn stored_history() -> Found {
    let mut b = Builder::new();
    b.state("", "s").state("s", "x").parallel("s", "q").state("q", "a").state("a", "a1").state("a", "a2");
    b.state("q", "c").deep("s", "d").shallow("s", "h").list("d", "x", &[]).list("h", "x", &[]);
    let chart = compiled(&b.chart());
    let row = |id: &str| b.row(id);
    let storing = |history: RowNumber, ids: &str| {
        let mut session = started(&chart);
        session.stored[history.0] = ids.split_whitespace().map(row).collect();
        session.is_well_formed(&chart)
    };
    for ids in ["", "x", "a1 c", "a2 c"] {
        ensure(storing(row("d"), ids), &format!("deep {ids}"))?;
    }
    for ids in ["q", "a1", "c", "a1 a2 c", "x c", "a c", "s", "d", "x a1 c"] {
        ensure(!storing(row("d"), ids), &format!("deep, wrong: {ids}"))?;
    }
    for ids in ["", "x", "q"] {
        ensure(storing(row("h"), ids), &format!("shallow {ids}"))?;
    }
    for ids in ["x q", "a", "c", "s", "h", "d"] {
        ensure(!storing(row("h"), ids), &format!("shallow, wrong: {ids}"))?;
    }
    for place in 0..256 {
        let fits = place == row("d").0 || place == row("h").0;
        ensure(storing(RowNumber(place), "x") == fits, "only histories store")?;
    }
    Ok(())
}
