//! Lists of calls with a journal: the calls, and the list as it is lent, seven numbers a call: its kind,
//! the room of its window and two numbers, then what it gave.

use crate::calls::Call;
use crate::compiled::CompiledChart;
use crate::recorded::{Recorded, RecordedAnswer};

#[derive(Clone, PartialEq, Eq, Debug)]
pub enum RecordedCall {
    Call(Call),
    StepBack { room: usize },
}

impl From<Call> for RecordedCall {
    fn from(call: Call) -> RecordedCall {
        RecordedCall::Call(call)
    }
}

impl RecordedCall {
    pub fn done_on(&self, recorded: Recorded, lent: Option<&CompiledChart>) -> RecordedAnswer {
        match self {
            RecordedCall::Call(Call::Start { room }) => recorded.start(lent, *room),
            RecordedCall::Call(Call::Post { name }) => recorded.post(lent, name),
            RecordedCall::Call(Call::Clock { ticks }) => recorded.clock(lent, *ticks),
            RecordedCall::Call(Call::Run { rounds, room }) => recorded.run(lent, *rounds, *room),
            RecordedCall::StepBack { room } => recorded.step_back(lent, *room),
        }
    }
}

/// The numbers of a call, and how many of them are what it is given.
pub const CALL_CELLS: usize = 7;
pub const GIVEN_CELLS: usize = 4;

/// The kinds of calls in a list.
const START: u64 = 0;
const POST: u64 = 1;
const RUN: u64 = 2;
const CLOCK: u64 = 3;
const STEP_BACK: u64 = 4;

/// The first four numbers of a call, whose name, if it has one, joins the text; what no one reads is `unread`.
pub fn spell(call: &RecordedCall, text: &mut Vec<u8>, unread: u64) -> [u64; GIVEN_CELLS] {
    let room = |room: &usize| *room as u64;
    match call {
        RecordedCall::Call(Call::Start { room: window }) => [START, room(window), unread, unread],
        RecordedCall::Call(Call::Post { name }) => {
            let first = text.len() as u64;
            text.extend(name);
            [POST, 0, first, text.len() as u64]
        }
        RecordedCall::Call(Call::Run { rounds, room: window }) => {
            [RUN, room(window), u64::from(*rounds), unread]
        }
        RecordedCall::Call(Call::Clock { ticks }) => [CLOCK, 0, *ticks, unread],
        RecordedCall::StepBack { room: window } => [STEP_BACK, room(window), unread, unread],
    }
}

/// The call that four numbers are, if they are one: a post's name lies in the text, and a run asks for no more
/// rounds than may be.
pub fn read(given: &[u64], text: &[u8]) -> Option<RecordedCall> {
    let [kind, room, a, b] = *given else { return None };
    let room = usize::try_from(room).ok()?;
    Some(match kind {
        START => Call::Start { room }.into(),
        POST => {
            let (first, end) = (usize::try_from(a).ok()?, usize::try_from(b).ok()?);
            Call::Post { name: text.get(first..end)?.to_vec() }.into()
        }
        RUN => Call::Run { rounds: u32::try_from(a).ok()?, room }.into(),
        CLOCK => Call::Clock { ticks: a }.into(),
        STEP_BACK => RecordedCall::StepBack { room },
        _ => return None,
    })
}

/// Performs a lent list up to the first that is no call or whose window does not fit what is left of the trace.
/// How many calls were performed, and what the last of them left.
pub fn perform(
    lent: Option<&CompiledChart>,
    mut recorded: Recorded,
    cells: &mut [u64],
    text: &[u8],
    mut trace: &mut [u32],
) -> (usize, Recorded) {
    let mut performed = 0;
    for call in cells.chunks_exact_mut(CALL_CELLS) {
        let (given, gave) = call.split_at_mut(GIVEN_CELLS);
        let Some(called) = read(given, text) else { break };
        let left = std::mem::take(&mut trace);
        if given[1] > left.len() as u64 {
            break;
        }
        let (window, behind) = left.split_at_mut(given[1] as usize);
        let RecordedAnswer { answer, journal } = called.done_on(recorded, lent);
        window[..answer.trace.len()].copy_from_slice(&answer.trace);
        gave.copy_from_slice(&[answer.number, u64::from(answer.rounds), answer.trace.len() as u64]);
        recorded = Recorded { timed: answer.timed(), journal };
        trace = behind;
        performed += 1;
    }
    (performed, recorded)
}
