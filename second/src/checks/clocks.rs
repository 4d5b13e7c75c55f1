//! Clock records and the calls that take them: every refusal, their order, and what they leave.

use super::answers::compiled;
use super::Check;
use crate::builder::{Builder, Do};
use crate::clock::{Clock, Pending, CLOCK_BYTES};
use crate::clock_damage::is_spelt;
use crate::compiled::CompiledChart;
use crate::invariants::{ensure, Found};
use crate::limits::{MAX_DELAY, MAX_PENDING, MAX_TICKS};
use crate::names::slot_of;
use crate::records;
use crate::session::*;
use crate::timed::{watch_nothing, Timed};

pub fn checks() -> Vec<Check> {
    vec![
        Check::new("clocks: 8, then 9, then 11, then 14", order),
        Check::new("clocks: a record of an ended session has nothing pending", ended_with_pending),
        Check::new("clocks: a post takes no record", post_takes_none),
        Check::new("clocks: a start looks at no record", start_looks_at_none),
        Check::new("clocks: a clock call moves the queue and the record alone", moves_these_alone),
        Check::new("clocks: numbers of a record", numbers),
        Check::new("clocks: places of a record", places),
        Check::new("clocks: each byte of a record", each_byte),
        Check::new("clocks: the place of a record", place),
        Check::new("examples: records", || ensure(records::examples().len() == 25, "25 records")),
    ]
}

/// 1 s, 2 f: each e sends x as i.
fn chart() -> CompiledChart {
    let mut b = Builder::new();
    b.state("", "s").final_("", "f").on("s", "go", "f");
    b.on("s", "e", "").doing(&[Do::Send("x", 5, "i")]);
    compiled(&b.chart())
}

fn sends(dues: &[u64]) -> Vec<Pending> {
    dues.iter().map(|&due| Pending { due, event: b"x".to_vec(), id: Some(b"i".to_vec()) }).collect()
}

fn record(ticks: u64, dues: &[u64]) -> Clock {
    Clock::of(ticks, &sends(dues)).expect("no more than fit")
}

fn started(clock: Clock) -> Timed {
    Timed { session: Session::ended().start(Some(&chart()), 100).session, clock }
}

fn leaves(answer: Answer, number: u64, timed: &Timed) -> Found {
    ensure(answer.number == number, &format!("{} is given, not {number}", answer.number))?;
    ensure(answer.trace.is_empty() && answer.rounds == 0, "nothing is written or counted")?;
    ensure(answer.timed() == *timed, "session and record are as they were")
}

fn both_leave(timed: &Timed, lent: Option<&CompiledChart>, ticks: u64, number: u64) -> Found {
    leaves(timed.clone().clock(lent, ticks), number, timed)?;
    leaves(timed.clone().run(lent, 3, 100, &mut watch_nothing), number, timed)
}

fn order() -> Found {
    let chart = chart();
    let broken = Timed { clock: record(MAX_TICKS + 1, &[]), ..Timed::ended() };
    both_leave(&broken, None, u64::MAX, BAD_COMPILED_CHART)?;
    both_leave(&broken, Some(&chart), u64::MAX, BAD_SESSION)?;
    let no_session = Timed { session: Session { mode: 3, ..Session::ended() }, clock: record(7, &[]) };
    both_leave(&no_session, Some(&chart), 3, BAD_SESSION)?;
    let ended = Timed { clock: record(7, &[]), ..Timed::ended() };
    for ticks in [0, 6, 7, 8, MAX_TICKS + 1] {
        leaves(ended.clone().clock(Some(&chart), ticks), SESSION_ENDED, &ended)?;
    }
    let running = started(record(7, &[3, 9]));
    for ticks in [0, 6, MAX_TICKS + 1, u64::MAX] {
        leaves(running.clone().clock(Some(&chart), ticks), BAD_TICKS, &running)?;
    }
    for ticks in [7, 8, MAX_TICKS] {
        ensure(running.clone().clock(Some(&chart), ticks).number == ACCEPTED, "the last clock and later")?;
    }
    Ok(())
}

fn ended_with_pending() -> Found {
    let timed = Timed { clock: record(7, &[9]), ..Timed::ended() };
    both_leave(&timed, Some(&chart()), 8, BAD_SESSION)?;
    let closing = started(record(7, &[9])).post(Some(&chart()), b"go").timed();
    let closed = closing.run(Some(&chart()), 9, 100, &mut watch_nothing);
    ensure(closed.number == STATUS_ENDED && closed.clock == record(7, &[]), "ending empties the table")
}

fn post_takes_none() -> Found {
    let broken = record(MAX_TICKS + 1, &[]);
    let answer = started(broken.clone()).post(Some(&chart()), b"e");
    ensure(answer.number == ACCEPTED && answer.clock == broken, "a broken record is none of its business")
}

fn start_looks_at_none() -> Found {
    let broken = started(Clock { count: 99, ..record(MAX_TICKS + 1, &[4]) });
    let again = broken.clone().start(Some(&chart()), 100, &mut watch_nothing);
    ensure(again.number == ACCEPTED && again.clock == Clock::NEW, "the record is new")?;
    for (lent, number) in [(None, BAD_COMPILED_CHART), (Some(chart()), NO_TRACE_ROOM)] {
        let answer = broken.clone().start(lent.as_ref(), 0, &mut watch_nothing);
        ensure(answer.number == number && answer.timed() == Timed::ended(), "a refused start leaves zeros")?;
    }
    Ok(())
}

fn moves_these_alone() -> Found {
    let before = started(record(7, &[9, 8, 30])).post(Some(&chart()), b"go").timed();
    let after = before.clone().clock(Some(&chart()), 9);
    ensure(after.clock == record(9, &[30]), "what is not due stays")?;
    ensure(after.session.external.names() == [b"go".to_vec(), b"x".to_vec(), b"x".to_vec()], "joined last")?;
    let moved = Session { external: before.session.external.clone(), ..after.session };
    ensure(moved == before.session, "nothing else moves")
}

fn numbers() -> Found {
    let fits = |clock: &Clock, mode: u64| clock.is_well_formed(mode);
    for (ticks, good) in [(0, true), (MAX_TICKS, true), (MAX_TICKS + 1, false), (u64::MAX, false)] {
        ensure(fits(&record(ticks, &[]), RUNNING) == good, &format!("clock {ticks}"))?;
    }
    for count in [1, 32, 33, 1 << 32, u64::MAX] {
        ensure(!fits(&Clock { count, ..Clock::NEW }, RUNNING), &format!("count {count} and no sends"))?;
    }
    for (due, good) in [(0, true), (100 + MAX_DELAY, true), (101 + MAX_DELAY, false), (u64::MAX, false)] {
        ensure(fits(&record(100, &[due]), RUNNING) == good, &format!("due {due}"))?;
        ensure(!fits(&record(100, &[due]), ENDED), "nothing pending once ended")?;
    }
    ensure(fits(&record(1, &[1; MAX_PENDING]), CLOSING), "32 are pending")
}

fn places() -> Found {
    let good = record(5, &[6, 5]);
    let spoilt = |change: &dyn Fn(&mut Clock)| {
        let mut clock = good.clone();
        change(&mut clock);
        !clock.is_well_formed(RUNNING)
    };
    ensure(good.is_well_formed(RUNNING), "two sends")?;
    ensure(spoilt(&|clock| clock.count = 1), "a send in a free place")?;
    ensure(spoilt(&|clock| clock.count = 3), "no send in a used place")?;
    ensure(spoilt(&|clock| clock.due[2] = 1), "a due time in a free place")?;
    ensure(spoilt(&|clock| clock.due[31] = 1), "a due time in the last place")?;
    ensure(spoilt(&|clock| clock.events[2][0] = b'a'), "an event in a free place")?;
    ensure(spoilt(&|clock| clock.ids[31][63] = 1), "a byte in a free place")?;
    ensure(spoilt(&|clock| clock.events[0] = slot_of(b"*")), "a star for an event")?;
    ensure(spoilt(&|clock| clock.events[1] = [b'a'; 64]), "no zero behind an event")?;
    ensure(spoilt(&|clock| clock.events[1] = [0; 64]), "no event")?;
    ensure(spoilt(&|clock| clock.ids[1] = slot_of(b"a.*")), "a descriptor for an id")?;
    ensure(spoilt(&|clock| clock.ids[0][63] = 1), "no zeros to the slot's end")?;
    ensure(spoilt(&|clock| clock.ids[0][1..3].copy_from_slice(b"\0j")), "a byte behind a zero")?;
    ensure(!spoilt(&|clock| clock.ids[0] = [0; 64]), "a send needs no id")
}

/// Every byte of a full record in several ways, quick against slow.
fn each_byte() -> Found {
    for clock in [Clock::NEW, record(5, &[6, 5, 1]), record(MAX_TICKS, &[MAX_TICKS + MAX_DELAY; MAX_PENDING])]
    {
        let bytes = clock.bytes();
        for place in 0..CLOCK_BYTES {
            for other in [0, 1, bytes[place] ^ 1, bytes[place] ^ 0x80, b'a', b'.', b'*', 255] {
                let mut changed = bytes.clone();
                changed[place] = other;
                let read = Clock::read(&changed).ok_or("so many bytes are a record")?;
                ensure(read.is_well_formed(RUNNING) == is_spelt(&read), &format!("byte {place} is {other}"))?;
            }
        }
    }
    Ok(())
}

/// 4,368 bytes, numbers with their lowest byte first.
fn place() -> Found {
    ensure(CLOCK_BYTES == 4_368, "the length")?;
    ensure(Clock::NEW.bytes() == vec![0; CLOCK_BYTES], "a new record is zeros")?;
    let clock = record(0x0102, &[0x0304, 5]);
    let bytes = clock.bytes();
    ensure(bytes[..18] == [2, 1, 0, 0, 0, 0, 0, 0, 2, 0, 0, 0, 0, 0, 0, 0, 4, 3], "ticks, count, due times")?;
    ensure(bytes[272] == b'x' && bytes[272 + 64] == b'x' && bytes[2_320] == b'i', "events, then ids")?;
    ensure(Clock::read(&bytes) == Some(clock), "what was spelt is read")?;
    ensure(Clock::read(&bytes[1..]).is_none(), "no other length is a record")
}
