//! The journal, clause by clause: what is entered, what empties it, and what a full one refuses. Each
//! check is named by the clause's number, counted through the request, and its words.

use super::desk::{entry_post, no_start, step_back, timer, Desk};
use super::Check;
use crate::calls::Call;
use crate::clock::Clock;
use crate::generate::absurd_journal;
use crate::invariants::{ensure, Found};
use crate::journal::{Entry, Journal, ENTRY_BYTES, JOURNAL_BYTES};
use crate::limits::MAX_TICKS;
use crate::random::Random;
use crate::readings::{clock, post, run, run_in, start};
use crate::recorded::Recorded;
use crate::session::*;

pub fn checks() -> Vec<Check> {
    vec![
        Check::new("R-10, 1: accepted posts, clock calls and runs are entered", what_is_entered),
        Check::new("R-10, 1: a run stopped by refusal 7 or 10 is entered with its completed rounds", stopped),
        Check::new("R-10, 2: any start, refused too, empties it first", start_empties),
        Check::new("R-10, 2: emptying leaves the bytes of the entries", start_keeps_bytes),
        Check::new("R-10, 7: a count over 512 is 9, but in start", count_over_512),
        Check::new("R-10, 12: a full journal refuses the next such call with 15", full_journal),
        Check::new("R-10, 12: 8, 9, 6, 11, 14, 15, 7, 10", order),
        Check::new("R-10, 12: runs of an ended session are not entered or given 15", runs_of_ended),
        Check::new("R-10, 13: nothing else in the journal is checked", absurd_is_appended_to),
        Check::new("R-10, 14: a posted name is entered as its bytes", name_as_bytes),
        Check::new("R-10: the bytes of a journal", place),
    ]
}

/// Clause 1. One for each post and clock call that answers 0, and for each run of a session that has not ended: of no
/// rounds, of an idle session, and one that ends it.
fn what_is_entered() -> Found {
    let mut desk = Desk::new(&timer());
    desk.gives(post("e"), "11; ended; none")?;
    desk.gives(clock(1), "11; ended; none")?;
    desk.gives(run(1), "102; ended; none")?;
    desk.gives(start(), "0 (3,1); rows 1; none")?;
    desk.gives(post("e"), "0; rows 1 + e; post e")?;
    desk.gives(post("*"), "6; rows 1 + e; post e")?;
    desk.gives(clock(3), "0; rows 1 + e, clock 3; post e, clock 3")?;
    desk.gives(clock(2), "14; rows 1 + e, clock 3; post e, clock 3")?;
    desk.gives(run(0), "100; rows 1 + e, clock 3; post e, clock 3, run 0")?;
    desk.gives(
        run(1),
        "101 in 1 (1,1) (2,0) (7,1) (3,2) (8,4); rows 2, clock 3, x at 8; post e, clock 3, run 0, run 1",
    )?;
    desk.gives(run(5), "101; rows 2, clock 3, x at 8; post e, clock 3, run 0, run 1, run 0")?;
    let mut desk = Desk::new(&timer());
    desk.gives(start(), "0 (3,1); rows 1; none")?;
    desk.gives(post("go"), "0; rows 1 + go; post go")?;
    desk.gives(run(9), "102 in 2 (1,1) (2,2) (7,1) (3,4) (1,4); ended; post go, run 2")?;
    desk.gives(run(9), "102; ended; post go, run 2")?;
    desk.gives(post("go"), "11; ended; post go, run 2")?;
    desk.gives(clock(0), "11; ended; post go, run 2")
}

/// Clause 1. The round of e writes five entries and is done, the one behind it has no room for its four, or would hold 33
/// internal names. A post that finds 32 names is refused and leaves no entry.
fn stopped() -> Found {
    let mut desk = Desk::new(&timer());
    desk.call(start());
    desk.call(post("e"));
    desk.call(post("e"));
    desk.gives(
        run_in(2, 8),
        "10 in 1 (1,1) (2,0) (7,1) (3,2) (8,4); rows 2 + e, x at 5; post e, post e, run 1",
    )?;
    desk.gives(run_in(2, 3), "10; rows 2 + e, x at 5; post e, post e, run 1, run 0")?;
    let mut desk = Desk::new(&timer());
    desk.call(start());
    desk.call(post("no"));
    desk.call(post("many"));
    desk.gives(run(3), "7 in 1; rows 1 + many; post no, post many, run 1")?;
    desk.gives(run_in(3, 0), "7; rows 1 + many; post no, post many, run 1, run 0")?;
    desk.call(start());
    (0..32).for_each(|_| drop(desk.call(post("e"))));
    ensure(desk.now.journal.count() == 32, "32 posts are entered")?;
    desk.refuses(post("e"), QUEUE_FULL)
}

/// Clause 2. Accepted, and refused with 10, 8 and 7; with any count before.
fn start_empties() -> Found {
    let mut desk = Desk::new(&timer());
    for again in [start(), Call::Start { room: 0 }, start()] {
        desk.call(start());
        desk.call(post("e"));
        desk.gives(clock(4), "0; rows 1 + e, clock 4; post e, clock 4")?;
        let expected = if again == start() { "0 (3,1); rows 1; none" } else { "10; ended; none" };
        desk.gives(again, expected)?;
    }
    desk.call(post("e"));
    let refused = desk.now.clone().start(None, 200);
    ensure(refused.answer.number == BAD_COMPILED_CHART, "8")?;
    ensure(refused.journal.count() == 0, "a start refused with 8 empties the journal")?;
    let mut never = Desk::with_entries(&timer(), &[entry_post("e")]);
    never.chart = Desk::new(&no_start()).chart;
    never.gives(start(), "7; ended; none")?;
    for count in [512, 513, 1 << 32, u64::MAX] {
        desk.now.journal = desk.now.journal.counting(count);
        desk.gives(start(), "0 (3,1); rows 1; none")?;
    }
    Ok(())
}

fn start_keeps_bytes() -> Found {
    let mut desk = Desk::new(&timer());
    desk.now.journal = absurd_journal(&mut Random::seeded(1), 300);
    let before = desk.now.journal.clone();
    desk.call(start());
    ensure(desk.now.journal == before.clone().counting(0), "the count alone changes")?;
    desk.call(post("e"));
    let mut expected = before.counting(1);
    expected.bytes_mut()[8..88].copy_from_slice(&entry_post("e").bytes());
    ensure(desk.now.journal == expected, "an entry writes its own bytes and the count")?;
    desk.call(step_back());
    ensure(
        desk.now.journal == expected.counting(0),
        "a step back lowers the count and leaves the other bytes",
    )
}

/// Clause 7. In posts, clock calls, runs and step backs, before all but 8; of a run of an ended session too.
fn count_over_512() -> Found {
    for count in [513, 514, 1 << 32, 1 << 63, u64::MAX] {
        let mut desk = Desk::with_entries(&timer(), &[entry_post("e")]);
        desk.now.journal = desk.now.journal.counting(count);
        for call in [post("e"), post("*"), clock(5), clock(u64::MAX), run(0), run(3)] {
            desk.refuses(call, BAD_SESSION)?;
        }
        desk.refuses(step_back(), BAD_SESSION)?;
        desk.replays(0, 200, "9")?;
        let eight = desk.now.clone().post(None, b"e").answer.number;
        ensure(eight == BAD_COMPILED_CHART, "8 before 9")?;
        let eight = desk.now.clone().step_back(None, 200).answer.number;
        ensure(eight == BAD_COMPILED_CHART, "8 before 9 in a step back")?;
        desk.now.timed = Recorded::ended().timed;
        for call in [post("e"), clock(5), run(3)] {
            desk.refuses(call, BAD_SESSION)?;
        }
    }
    Ok(())
}

/// A started session with so many entries, each a run of no rounds.
fn desk_with(count: usize) -> Desk {
    let mut desk = Desk::with_entries(&timer(), &[]);
    (0..count).for_each(|_| drop(desk.call(run(0))));
    desk
}

/// Clause 12. With 511 entries one more fits; then 15 leaves all. A start empties it, a step back makes room for one.
fn full_journal() -> Found {
    let last = |desk: &Desk| Entry::read(desk.now.journal.entry(511));
    for (call, entry) in [(post("e"), entry_post("e")), (clock(7), Entry::Clock(7)), (run(4), Entry::Run(0))]
    {
        let mut desk = desk_with(511);
        let given = desk.call(call).answer.number;
        ensure(given == ACCEPTED || given == STATUS_IDLE, "the 512th is entered")?;
        ensure(desk.now.journal.count() == 512 && last(&desk) == Some(entry), "as the last")?;
        for refused in [post("e"), clock(8), clock(7), run(0), run(4)] {
            desk.refuses(refused, JOURNAL_FULL)?;
        }
        ensure(desk.call(step_back()).answer.number == ACCEPTED, "a step back from a full journal")?;
        ensure(desk.call(clock(9)).answer.number == ACCEPTED, "makes room for one")?;
        desk.refuses(clock(9), JOURNAL_FULL)?;
        ensure(desk.call(start()).answer.number == ACCEPTED, "a start is never given 15")?;
        ensure(desk.now.journal.count() == 0, "and empties it")?;
    }
    Ok(())
}

/// Clause 12. Each refusal beside a full journal: those before 15 are told, those behind it are not.
fn order() -> Found {
    let full = desk_with(512);
    let at_full = |change: &dyn Fn(&mut Recorded)| {
        let mut desk = Desk { chart: full.chart.clone(), now: full.now.clone() };
        change(&mut desk.now);
        desk
    };
    let now = || full.now.clone();
    for given in [now().post(None, b"*"), now().clock(None, u64::MAX), now().run(None, 1, 0)] {
        ensure(given.answer.number == BAD_COMPILED_CHART && given.recorded() == full.now, "8 before all")?;
    }
    let mut broken = at_full(&|now| now.timed.session.mode = 3);
    for call in [post("*"), post("e"), clock(u64::MAX), run(1)] {
        broken.refuses(call, BAD_SESSION)?;
    }
    let mut record = at_full(&|now| now.timed.clock.ticks = MAX_TICKS + 1);
    for call in [clock(5), run(1)] {
        record.refuses(call, BAD_SESSION)?;
    }
    record.refuses(post("e"), JOURNAL_FULL)?;
    let mut ended = at_full(&|now| now.timed = Recorded::ended().timed);
    ended.refuses(post("*"), BAD_NAME)?;
    ended.refuses(post("e"), SESSION_ENDED)?;
    ended.refuses(clock(u64::MAX), SESSION_ENDED)?;
    let mut running = at_full(&|now| now.timed.clock = Clock { ticks: 7, ..Clock::NEW });
    running.refuses(post("*"), BAD_NAME)?;
    running.refuses(clock(6), BAD_TICKS)?;
    running.refuses(clock(MAX_TICKS + 1), BAD_TICKS)?;
    running.refuses(clock(7), JOURNAL_FULL)?;
    let queue = Queue::of(&vec![b"many".to_vec(); 32]).expect("fits");
    let mut queued = at_full(&|now| now.timed.session.external = queue.clone());
    queued.refuses(post("e"), JOURNAL_FULL)?;
    queued.refuses(run(1), JOURNAL_FULL)?;
    queued.refuses(run_in(1, 0), JOURNAL_FULL)
}

/// Clause 12. Their status is ended, with a full journal and with one that has room.
fn runs_of_ended() -> Found {
    let mut desk = desk_with(510);
    desk.call(post("go"));
    let ended = desk.call(run(9));
    ensure(ended.answer.number == STATUS_ENDED && ended.journal.count() == 512, "the last entry ends it")?;
    for rounds in [0, 1, u32::MAX] {
        let before = desk.now.clone();
        let given = desk.call(run(rounds)).answer;
        ensure(given.number == STATUS_ENDED && given.rounds == 0 && desk.now == before, "ended, and no 15")?;
    }
    desk.refuses(post("e"), SESSION_ENDED)?;
    desk.call(step_back());
    ensure(desk.now.timed.session.mode == RUNNING, "a step back over the end of a session")?;
    ensure(desk.now.timed.session.external.names() == [b"go".to_vec()], "to where it was not yet run")
}

/// Clause 13. Bytes at will, with a count of at most 512.
fn absurd_is_appended_to() -> Found {
    let mut desk = Desk::with_entries(&timer(), &[]);
    desk.now.journal = absurd_journal(&mut Random::seeded(2), 509);
    let before = desk.now.journal.clone();
    ensure(before.entries().is_none(), "no session leaves it")?;
    for call in [post("e"), clock(2), run(1)] {
        let number = desk.call(call).answer.number;
        ensure(number == ACCEPTED || number == STATUS_IDLE, "accepted all the same")?;
    }
    let mut expected = before.counting(512);
    for (place, entry) in [(509, entry_post("e")), (510, Entry::Clock(2)), (511, Entry::Run(1))] {
        let at = Journal::place_of(place);
        expected.bytes_mut()[at..at + ENTRY_BYTES].copy_from_slice(&entry.bytes());
    }
    ensure(desk.now.journal == expected, "three entries behind it")?;
    desk.refuses(step_back(), BAD_SESSION)
}

/// Clause 14. A name that the chart has nowhere, and one of 63 bytes.
fn name_as_bytes() -> Found {
    let long = "n".repeat(63);
    let mut desk = Desk::new(&timer());
    desk.call(start());
    desk.gives(post("no.body-knows_9"), "0; rows 1 + no.body-knows_9; post no.body-knows_9")?;
    desk.call(post(&long));
    let entry = desk.now.journal.entry(1);
    ensure(entry[..16] == [1, 0, 0, 0, 0, 0, 0, 0, 0, 0, 0, 0, 0, 0, 0, 0], "kind 1, number 0")?;
    ensure(entry[16..79] == *long.as_bytes() && entry[79] == 0, "63 bytes and a zero")?;
    desk.call(post(&"n".repeat(64)));
    ensure(desk.now.journal.count() == 2, "a name of 64 bytes is refused")
}

/// 40,968 bytes: the count, then kind, number and slot of each entry, numbers with their lowest byte first.
fn place() -> Found {
    ensure(JOURNAL_BYTES == 40_968 && ENTRY_BYTES == 80, "the lengths")?;
    let entries = [entry_post("ab"), Entry::Run(0x0102), Entry::Clock(1 << 62)];
    let journal = Journal::of(&entries);
    let mut expected = vec![0; JOURNAL_BYTES];
    expected[0] = 3;
    expected[8] = 1;
    expected[24..26].copy_from_slice(b"ab");
    expected[88] = 2;
    expected[96..98].copy_from_slice(&[2, 1]);
    expected[168] = 3;
    expected[176 + 7] = 0x40;
    ensure(journal.bytes() == expected, "three entries")?;
    ensure(journal.entries() == Some(entries.to_vec()), "what was spelt is read")?;
    ensure(Journal::read(&expected) == Some(journal), "40,968 bytes are a journal")?;
    let other = [0, 8, JOURNAL_BYTES - 1, JOURNAL_BYTES + 1];
    ensure(other.iter().all(|&length| Journal::read(&vec![0; length]).is_none()), "no other length is")
}
