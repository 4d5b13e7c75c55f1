//! A lent list of calls, as docs/answers.md has it: what the library performs, leaves and writes is
//! what the second program does call by call. A call has seven cells: its kind, the room of its window and
//! two numbers, then what it gave.

use crate::calls::{filled, Stage};
use crate::compare::{add, difference, ensure};
use crate::library;
use crate::sessions::timed_alike;
use second::calls::Call;
use second::generate::CallMaker;
use second::random::Random;
use second::tables::Chart;
use second::timed::{watch_nothing, Timed};

/// So many calls at most: a list of a few rounds is enough to go on from.
const MOST_CALLS: usize = 12;

/// The numbers of a call, and how many of them are what it is given.
pub const CALL_CELLS: usize = 7;
const GIVEN: usize = 4;
/// Stands where a call writes.
const UNWRITTEN: u64 = 0x5a5a;

/// Calls as they are lent, and the text of their names.
struct List {
    calls: Vec<Call>,
    cells: Vec<u64>,
    text: Vec<u8>,
    /// How many of the calls are some; what stands behind them is none.
    good: usize,
}

fn spelt(calls: Vec<Call>, random: &mut Random) -> List {
    let mut list = List { good: calls.len(), calls, cells: Vec::new(), text: Vec::new() };
    for call in &list.calls {
        let first = list.text.len() as u64;
        let given = match call {
            Call::Start { room } => [0, *room as u64, random.number(), random.number()],
            Call::Post { name } => {
                list.text.extend(name);
                [1, 0, first, list.text.len() as u64]
            }
            Call::Run { rounds, room } => [2, *room as u64, u64::from(*rounds), random.number()],
            Call::Clock { ticks } => [3, 0, *ticks, random.number()],
        };
        list.cells.extend(given);
        list.cells.extend([UNWRITTEN; CALL_CELLS - GIVEN]);
    }
    list
}

/// Makes a call of the list none, in one of the ways that there are.
fn spoil(list: &mut List, random: &mut Random) {
    let call = random.below(list.calls.len());
    let cells = &mut list.cells[CALL_CELLS * call..][..GIVEN];
    match random.below(5) {
        0 => cells[0] = random.number() | 4,
        1 => cells.copy_from_slice(&[1, 0, list.text.len() as u64, list.text.len() as u64 + 1]),
        2 => cells.copy_from_slice(&[1, 0, 1, 0]),
        3 => cells.copy_from_slice(&[2, 0, 1 << 32, 0]),
        _ => cells[1] = u64::MAX,
    }
    list.good = call;
}

/// What the second program does: how many calls, with what they write and leave.
fn performed(
    list: &List,
    stage: &Stage,
    mut timed: Timed,
    cells: &mut [u64],
    trace: &mut [u32],
) -> (usize, Timed) {
    let mut used = 0;
    for (number, call) in list.calls[..list.good].iter().enumerate() {
        let Some(cells) = cells.get_mut(CALL_CELLS * number..CALL_CELLS * (number + 1)) else {
            return (number, timed);
        };
        let room = cells[1] as usize;
        let Some(window) = trace[used..].get_mut(..room) else { return (number, timed) };
        let given = call.done_on(timed, stage.opened, &mut watch_nothing);
        window[..given.trace.len()].copy_from_slice(&given.trace);
        cells[GIVEN..].copy_from_slice(&[given.number, u64::from(given.rounds), given.trace.len() as u64]);
        timed = given.timed();
        used += room;
    }
    (list.good, timed)
}

/// A list of generated calls from one of the sessions on, at times spoilt or with too little lent.
pub fn try_list(
    stage: &Stage,
    chart: &Chart,
    timed: &[Timed],
    random: &mut Random,
    counts: &mut [u64; 2],
) -> Result<(), String> {
    let mut calls = CallMaker::new(random, chart).calls(3);
    calls.drain(..random.below(2));
    calls.truncate(random.between(1, MOST_CALLS));
    let mut list = spelt(calls, random);
    let room: u64 = list.cells.chunks(CALL_CELLS).map(|cells| cells[1]).sum();
    if random.chance(20) {
        spoil(&mut list, random);
    }
    let mut trace = filled(if random.chance(10) { random.below(room as usize + 1) } else { room as usize });
    let mut cells = list.cells.clone();
    if random.chance(10) {
        // A call with fewer cells than it needs is none.
        cells.truncate(random.below(cells.len() + 1));
    }
    let before = &timed[random.below(timed.len())];
    let (mut own_cells, mut own_trace) = (cells.clone(), trace.clone());
    let (count, own) = performed(&list, stage, before.clone(), &mut own_cells, &mut own_trace);
    let mut given = library::Timed::from(before);
    let found = given.lend().perform(stage.chart, &mut cells, &list.text, &mut trace);
    ensure(found == count, || format!("{found} calls of a list are performed, not {count}"))?;
    ensure(cells == own_cells, || difference("cell", &cells, &own_cells))?;
    ensure(trace == own_trace, || difference("entry", &trace, &own_trace))?;
    add(counts, if count == list.calls.len() { &[1, 0] } else { &[0, 1] });
    timed_alike(&given, &own).map_err(|what| format!("a list of calls: {what}"))
}
