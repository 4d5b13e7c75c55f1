//! Replay, clause by clause, each check named by the clause's words.

use super::desk::{entry_post, no_start, step_back, timer, Desk};
use super::Check;
use crate::builder::Builder;
use crate::calls::Call;
use crate::invariants::{ensure, Found};
use crate::journal::{Entry, Journal};
use crate::limits::{MAX_ROUNDS, MAX_TICKS};
use crate::readings::{clock, post, run, run_in, start};
use crate::recorded_calls::RecordedCall;
use crate::replay::replay;
use crate::session::*;

pub fn checks() -> Vec<Check> {
    vec![
        Check::new("R-10, 3: replay gives session, clock record and trace of every k", every_k),
        Check::new("R-10, 3: entries behind k are not read", not_read_behind),
        Check::new("R-10, 4: a run entry is just its completed rounds", completed_rounds),
        Check::new("R-10, 5: first k entries that no started session leaves", what_is_left),
        Check::new("R-10, 5: an entry that no call writes", what_is_no_entry),
        Check::new("R-10, 5: rounds that come round again", come_round),
        Check::new("R-10, 6: a chart whose start gives 7", start_gives_7),
        Check::new("R-10, 6: a start refused with 10 is no obstacle", start_refused_with_10),
        Check::new("R-10, 7: too large a k", too_large_a_k),
        Check::new("R-10, 8: too little trace room is 10, behind 9; both leave all", room),
    ]
}

/// A session that was sent x by the clock: post e, clock 2, run 1, clock 7, run 1, run 0.
pub fn clocked() -> Desk {
    let mut desk = Desk::new(&timer());
    for call in [start(), post("e"), clock(2), run(4), clock(7), run_in(1, 4), run(0)] {
        desk.call(call);
    }
    desk
}

/// Clause 3. 0 is the accepted start; a post and a clock call wrote nothing.
fn every_k() -> Found {
    let desk = clocked();
    let journal = desk.now.journal.clone();
    desk.replays(0, 200, "0 (3,1); rows 1")?;
    desk.replays(1, 200, "0; rows 1 + e")?;
    desk.replays(2, 200, "0; rows 1 + e, clock 2")?;
    desk.replays(3, 200, "0 (1,1) (2,0) (7,1) (3,2) (8,4); rows 2, clock 2, x at 7")?;
    desk.replays(4, 200, "0; rows 2 + x, clock 7")?;
    desk.replays(5, 200, "0 (1,2) (2,4) (7,2) (3,1); rows 1, clock 7")?;
    desk.replays(6, 0, "0; rows 1, clock 7")?;
    ensure(desk.now.journal == journal, "the journal is unchanged")
}

fn not_read_behind() -> Found {
    for (k, expected) in EACH.iter().enumerate() {
        let mut desk = clocked();
        desk.now.journal.bytes_mut()[Journal::place_of(k)..].fill(0xff);
        desk.replays(k as u64, 5, expected)?;
        desk.replays(k as u64 + 1, 5, "9")?;
    }
    Ok(())
}

/// What each k of `clocked` gives.
pub const EACH: [&str; 6] = [
    "0 (3,1); rows 1",
    "0; rows 1 + e",
    "0; rows 1 + e, clock 2",
    "0 (1,1) (2,0) (7,1) (3,2) (8,4); rows 2, clock 2, x at 7",
    "0; rows 2 + x, clock 7",
    "0 (1,2) (2,4) (7,2) (3,1); rows 1, clock 7",
];

/// Clause 4. Three rounds could be done, one was: with any room replay does one.
fn completed_rounds() -> Found {
    let mut desk = Desk::new(&timer());
    for call in [start(), post("e"), post("e"), post("e"), run_in(3, 5)] {
        desk.call(call);
    }
    desk.replays(4, 1_000, "0 (1,1) (2,0) (7,1) (3,2) (8,4); rows 2 + e + e, x at 5")?;
    let asked = [entry_post("e"), entry_post("e"), Entry::Run(2)];
    let desk = Desk::with_entries(&timer(), &asked);
    desk.replays(3, 9, "0 (1,1) (2,0) (7,1) (3,2) (8,4) (1,2) (2,3) (7,2) (3,1); rows 1, x at 5")
}

/// Clause 5. Lists of entries, and how many of them a started session leaves.
fn what_is_left() -> Found {
    let post = entry_post;
    let (run, clock) = (Entry::Run, Entry::Clock);
    let full = vec![post("e"); 33];
    let ended = |last: Entry| vec![post("go"), run(2), last];
    let cases: Vec<(Vec<Entry>, usize)> = vec![
        (vec![run(0), run(0)], 2),
        (vec![run(1)], 0),
        (vec![post("e"), run(1), run(1)], 2),
        (vec![post("e"), run(2)], 1),
        (vec![post("e"), post("e"), run(2), run(0)], 4),
        (vec![post("no"), run(1)], 2),
        (vec![post("many"), run(0)], 2),
        (vec![post("many"), run(1)], 1),
        (vec![clock(5), clock(5), clock(4)], 2),
        (vec![clock(MAX_TICKS), clock(MAX_TICKS), clock(MAX_TICKS + 1)], 2),
        (vec![clock(u64::MAX)], 0),
        (full, 32),
        (ended(run(0)), 2),
        (ended(post("e")), 2),
        (ended(clock(0)), 2),
        (vec![post("go"), run(1), post("e"), clock(9), run(1)], 5),
        (vec![post("go"), run(3)], 1),
        (vec![run(MAX_ROUNDS)], 0),
        (vec![run(MAX_ROUNDS + 1)], 0),
        (vec![run(1 << 32)], 0),
        (vec![run(u64::MAX)], 0),
    ];
    for (entries, left) in cases {
        let desk = Desk::with_entries(&timer(), &entries);
        for k in 0..=entries.len() {
            let given = replay(Some(&desk.chart), &desk.now.journal, k as u64, 1_000);
            let expected = if k <= left { None } else { Some(BAD_SESSION) };
            ensure(given.err() == expected, &format!("the first {k} of {entries:?}"))?;
        }
    }
    Ok(())
}

/// Clause 5. Unknown kinds, a number in a post, bytes in a run or a clock call, no zeros behind a name, no name.
fn what_is_no_entry() -> Found {
    let good = [entry_post("e"), Entry::Run(0), Entry::Clock(0)];
    let spoilt: [(usize, usize, u8); 20] = [
        (0, 0, 0),
        (0, 0, 2),
        (0, 0, 3),
        (0, 0, 4),
        (0, 1, 1),
        (0, 7, 0x80),
        (0, 8, 1),
        (0, 15, 1),
        (0, 16, 0),
        (0, 16, b'*'),
        (0, 17, b'.'),
        (0, 18, b'e'),
        (0, 79, 1),
        (1, 0, 1),
        (1, 0, 0),
        (1, 16, b'e'),
        (1, 79, 0xff),
        (2, 0, 5),
        (2, 16, b'e'),
        (2, 79, 1),
    ];
    for (place, at, byte) in spoilt {
        let mut desk = Desk::with_entries(&timer(), &good);
        desk.replays(3, 0, "0; rows 1 + e")?;
        desk.now.journal.bytes_mut()[Journal::place_of(place) + at] = byte;
        desk.replays(place as u64, 200, ["0 (3,1); rows 1", "0; rows 1 + e", "0; rows 1 + e"][place])?;
        desk.replays(place as u64 + 1, 200, "9")?;
        desk.replays(3, 200, "9")?;
    }
    let mut desk = Desk::with_entries(&timer(), &[entry_post(&"n".repeat(63))]);
    desk.replays(1, 0, &format!("0; rows 1 + {}", "n".repeat(63)))?;
    desk.now.journal.bytes_mut()[Journal::place_of(0) + 79] = b'n';
    desk.replays(1, 0, "9")
}

/// Clause 5. An eventless ring of three states: any permitted number of rounds is left, each writing four entries.
fn come_round() -> Found {
    let mut b = Builder::new();
    b.state("", "a").state("", "b").state("", "c").on("a", "", "b").on("b", "", "c").on("c", "", "a");
    let ring = b.chart();
    for (rounds, row) in [(0, 1), (1, 2), (2, 3), (3, 1), (1_000, 2), (MAX_ROUNDS, 1), (MAX_ROUNDS - 1, 3)] {
        let desk = Desk::with_entries(&ring, &[Entry::Run(rounds), Entry::Clock(1)]);
        desk.replays(2, 0, &format!("0; rows {row}, clock 1"))?;
        if rounds > 0 {
            desk.replays(1, 3, "10")?;
        }
    }
    let desk = Desk::with_entries(&ring, &[Entry::Run(MAX_ROUNDS + 1)]);
    desk.replays(1, 1_000, "9")?;
    let desk = Desk::with_entries(&ring, &[Entry::Run(1_000)]);
    let given = replay(Some(&desk.chart), &desk.now.journal, 1, 4_000);
    ensure(given.is_ok_and(|replayed| replayed.trace.len() == 4_000), "4,000 entries in a room of as many")?;
    desk.replays(1, 3_999, "10")
}

/// Clause 6. For every k, 0 too; at 0 a step back changes nothing all the same.
fn start_gives_7() -> Found {
    let mut desk = Desk::new(&no_start());
    desk.gives(start(), "7; ended; none")?;
    desk.replays(0, 1_000, "9")?;
    desk.replays(0, 0, "9")?;
    desk.gives(step_back(), "0; ended; none")?;
    desk.now.journal = Journal::of(&[Entry::Run(0)]);
    desk.replays(1, 1_000, "9")?;
    desk.refuses(step_back(), BAD_SESSION)
}

fn start_refused_with_10() -> Found {
    let mut desk = Desk::new(&timer());
    desk.gives(Call::Start { room: 0 }, "10; ended; none")?;
    desk.replays(0, 1, "0 (3,1); rows 1")?;
    desk.replays(0, 0, "10")
}

fn too_large_a_k() -> Found {
    let desk = clocked();
    for k in [7, 8, 512, 513, u64::MAX] {
        desk.replays(k, 200, "9")?;
    }
    let mut desk = Desk::with_entries(&timer(), &vec![Entry::Run(0); 512]);
    desk.replays(512, 0, "0; rows 1")?;
    desk.replays(513, 0, "9")?;
    desk.now.journal = desk.now.journal.counting(513);
    desk.replays(0, 200, "9")
}

/// Clause 8. Only entry k needs room, and a fault of it comes before 10.
fn room() -> Found {
    let mut desk = clocked();
    for (k, needed) in [(0, 1), (1, 0), (2, 0), (3, 5), (4, 0), (5, 4), (6, 0)] {
        desk.replays(k, needed, EACH.get(k as usize).unwrap_or(&"0; rows 1, clock 7"))?;
        if needed > 0 {
            desk.replays(k, needed - 1, "10")?;
        }
    }
    desk.refuses(RecordedCall::StepBack { room: 3 }, NO_TRACE_ROOM)?;
    desk.gives(RecordedCall::StepBack { room: 4 }, &format!("{}; {FIRST_FIVE}", EACH[5]))?;
    let impossible = [entry_post("e"), Entry::Run(2)];
    Desk::with_entries(&timer(), &impossible).replays(2, 0, "9")?;
    let mut desk = Desk::with_entries(&timer(), &[Entry::Run(1), Entry::Run(0)]);
    desk.refuses(RecordedCall::StepBack { room: 0 }, BAD_SESSION)
}

pub const FIRST_FIVE: &str = "post e, clock 2, run 1, clock 7, run 1";
