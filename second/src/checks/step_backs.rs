//! Stepping back, clause by clause, each check named by the clause's words.

use super::desk::{entry_post, step_back, timer, Desk};
use super::replays::{clocked, EACH, FIRST_FIVE};
use super::Check;
use crate::clock::Clock;
use crate::generate::absurd_journal;
use crate::invariants::{ensure, Found};
use crate::journal::{Entry, Journal};
use crate::random::Random;
use crate::readings::{clock, post, run, start};
use crate::recorded_calls::RecordedCall;
use crate::session::*;

pub fn checks() -> Vec<Check> {
    vec![
        Check::new("R-10, 9: replay and stepping back check no session or clock record", check_no_session),
        Check::new("R-10, 10: stepping back is replay to its length less one", steps_back),
        Check::new("R-10, 10: the dropped entry is not judged", dropped_is_not_judged),
        Check::new("R-10, 10: at 0 nothing changes", nothing_at_0),
        Check::new("R-10, 11: an accepted start and those left", goes_on),
        Check::new("R-10, 11: step backs over a start's first entry and over the end", over_first_and_end),
    ]
}

/// Clause 9. A session and a record that are none, and an ended session: neither 9 nor 11.
fn check_no_session() -> Found {
    let mut desk = clocked();
    for mode in [3, ENDED] {
        desk.now = clocked().now;
        desk.now.timed.session.mode = mode;
        desk.now.timed.clock = Clock { ticks: u64::MAX, count: 77, ..Clock::NEW };
        desk.gives(step_back(), &format!("{}; {FIRST_FIVE}", EACH[5]))?;
    }
    Ok(())
}

/// Clause 10. The trace is that of the entry stepped back to.
fn steps_back() -> Found {
    let mut desk = clocked();
    desk.gives(step_back(), &format!("{}; post e, clock 2, run 1, clock 7, run 1", EACH[5]))?;
    desk.gives(step_back(), &format!("{}; post e, clock 2, run 1, clock 7", EACH[4]))?;
    desk.gives(step_back(), &format!("{}; post e, clock 2, run 1", EACH[3]))?;
    desk.gives(step_back(), &format!("{}; post e, clock 2", EACH[2]))?;
    desk.gives(step_back(), &format!("{}; post e", EACH[1]))?;
    desk.gives(step_back(), &format!("{}; none", EACH[0]))?;
    desk.gives(step_back(), "0; rows 1; none")
}

/// Clause 10. The last entry alone is impossible, or none: it is dropped. One before it is judged.
fn dropped_is_not_judged() -> Found {
    let mut desk = Desk::with_entries(&timer(), &[entry_post("e"), Entry::Run(9)]);
    desk.replays(2, 200, "9")?;
    desk.gives(step_back(), "0; rows 1 + e; post e")?;
    let mut desk = Desk::with_entries(&timer(), &[entry_post("e"), Entry::Run(1)]);
    desk.now.journal.bytes_mut()[Journal::place_of(1)] = 9;
    desk.gives(step_back(), "0; rows 1 + e; post e")?;
    let mut desk = Desk::with_entries(&timer(), &[Entry::Run(9), Entry::Run(0)]);
    desk.refuses(step_back(), BAD_SESSION)
}

/// Clause 10. 8 if the chart is none, else 0 with any room, whatever the session is.
fn nothing_at_0() -> Found {
    let mut desk = Desk::new(&timer());
    desk.gives(RecordedCall::StepBack { room: 0 }, "0; ended; none")?;
    desk.gives(start(), "0 (3,1); rows 1; none")?;
    desk.gives(RecordedCall::StepBack { room: 0 }, "0; rows 1; none")?;
    desk.now.timed.session.mode = 3;
    desk.now.journal = absurd_journal(&mut Random::seeded(3), 0);
    let before = desk.now.clone();
    ensure(desk.call(step_back()).answer.number == ACCEPTED && desk.now == before, "a broken session stays")?;
    let eight = desk.now.clone().step_back(None, 200);
    ensure(eight.answer.number == BAD_COMPILED_CHART && eight.recorded() == before, "8 leaves all")
}

/// Clause 11. What was stepped back over is as if it had not been.
fn goes_on() -> Found {
    let mut desk = clocked();
    (0..6).for_each(|_| drop(desk.call(step_back())));
    desk.gives(clock(1), "0; rows 1, clock 1; clock 1")?;
    desk.gives(post("e"), "0; rows 1 + e, clock 1; clock 1, post e")?;
    desk.gives(
        run(1),
        "101 in 1 (1,1) (2,0) (7,1) (3,2) (8,4); rows 2, clock 1, x at 6; clock 1, post e, run 1",
    )?;
    desk.gives(step_back(), "0; rows 1 + e, clock 1; clock 1, post e")?;
    desk.gives(post("go"), "0; rows 1 + e + go, clock 1; clock 1, post e, post go")?;
    desk.replays(0, 9, "0 (3,1); rows 1")?;
    desk.replays(1, 9, "0; rows 1, clock 1")?;
    desk.replays(3, 9, "0; rows 1 + e + go, clock 1")
}

fn over_first_and_end() -> Found {
    let mut desk = Desk::new(&timer());
    desk.call(start());
    desk.gives(post("go"), "0; rows 1 + go; post go")?;
    desk.gives(run(1), "100 in 1 (1,1) (2,2) (7,1) (3,4); rows 4; post go, run 1")?;
    desk.gives(run(1), "102 in 1 (1,4); ended; post go, run 1, run 1")?;
    desk.gives(run(1), "102; ended; post go, run 1, run 1")?;
    desk.gives(step_back(), "0 (1,1) (2,2) (7,1) (3,4); rows 4; post go, run 1")?;
    desk.gives(step_back(), "0; rows 1 + go; post go")?;
    desk.gives(RecordedCall::StepBack { room: 0 }, "10; rows 1 + go; post go")?;
    desk.gives(step_back(), "0 (3,1); rows 1; none")?;
    desk.gives(step_back(), "0; rows 1; none")
}
