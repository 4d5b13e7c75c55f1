//! Lists of calls with a journal as plain data: what is lent, and what must be found in the places afterwards.

use crate::clock_damage;
use crate::compiled::{compile, CompiledChart, Places};
use crate::damage;
use crate::encode::Layout;
use crate::generate;
use crate::journal::Journal;
use crate::limits::{MAX_ENTRIES, QUEUE_NAMES};
use crate::near_misses::Lent;
use crate::random::Random;
use crate::recorded::Recorded;
use crate::recorded_calls::{perform, read, spell, RecordedCall, CALL_CELLS, GIVEN_CELLS};
use crate::replay::rounds_of;
use crate::session::{Queue, Session};
use crate::session_damage;
use crate::session_places::SessionPlaces;
use crate::tables::Chart;
use crate::timed::Timed;

/// More rounds than this are not asked of the library in one step back or replay.
pub const MOST_ROUNDS: u64 = 20_000;
/// Stands where a call writes, and in cells that no one reads.
const UNWRITTEN: u64 = 0x5a5a;
const UNREAD: u64 = 0xa5a5_a5a5;
/// So many calls at most, but where a journal is filled.
const MOST_CALLS: usize = 14;
/// Of so many seeds one fills a journal.
const ONE_FULL_OF: u64 = 20;

/// The places of a list, before or after it.
#[derive(Clone, PartialEq, Eq, Debug)]
pub struct ListPlaces {
    pub session: SessionPlaces,
    pub cells: Vec<u64>,
    pub trace: Vec<u32>,
}

#[derive(Clone, Debug)]
pub struct ListCase {
    pub about: String,
    pub chart: Places,
    pub text: Vec<u8>,
    pub before: ListPlaces,
    /// How many calls are performed, and the places then.
    pub performed: usize,
    pub after: ListPlaces,
}

/// A generated chart, compiled.
pub struct Stage {
    pub chart: Chart,
    pub places: Places,
    pub compiled: CompiledChart,
}

impl Stage {
    pub fn of_seed(random: &mut Random) -> Stage {
        let flavour = generate::flavour_for_journals(random);
        Stage::of(generate::chart(random, flavour))
    }

    pub fn of(chart: Chart) -> Stage {
        let Lent { spelt, place } = Lent::of(&chart, Layout::Plain);
        let places = compile(&spelt.numbers, &spelt.names, place).expect("a generated chart is accepted");
        let compiled = CompiledChart::open(&places.numbers, &places.names).expect("a compiled chart opens");
        Stage { chart, places, compiled }
    }

    /// The compiled chart with a cell of some kind changed, and what it opens to, if it does.
    pub fn damaged(&self, random: &mut Random) -> Option<(Places, Option<CompiledChart>)> {
        let parts = damage::of_compiled();
        let places = damage::damaged(&self.places, parts[random.below(parts.len())], random)?;
        let opened = CompiledChart::open(&places.numbers, &places.names);
        Some((places, opened))
    }

    /// What a list of calls leaves of an ended session and an empty journal.
    pub fn reached(&self, random: &mut Random) -> Recorded {
        let steps = random.between(1, 3);
        let calls = generate::recorded_calls(random, &self.chart, steps);
        let mut recorded = Recorded::ended();
        for call in calls {
            recorded = call.done_on(recorded, Some(&self.compiled)).recorded();
        }
        recorded
    }
}

/// A trace of which every entry is known.
pub fn filled_trace(room: usize) -> Vec<u32> {
    (0..room as u32).map(|place| place.wrapping_mul(0x9e37_79b9)).collect()
}

/// The cases of one seed: a list from each of several sessions on.
pub fn list_cases(seed: u64) -> Vec<ListCase> {
    let mut random = Random::seeded(seed ^ 0x115f_0000);
    let stage = Stage::of_seed(&mut random);
    let mut cases = Vec::new();
    for (about, recorded) in sessions(&stage, &mut random) {
        let calls = some_calls(&stage.chart, &mut random);
        cases.push(case(about, &stage.places, Some(&stage.compiled), recorded, calls, &mut random));
    }
    if seed % ONE_FULL_OF == 0 {
        let calls = generate::calls_at_full_journal(&mut random, &stage.chart);
        let recorded = Recorded::ended();
        cases.push(case(
            "a full journal",
            &stage.places,
            Some(&stage.compiled),
            recorded,
            calls,
            &mut random,
        ));
    }
    if let Some((places, opened)) = stage.damaged(&mut random) {
        let recorded = stage.reached(&mut random);
        let calls = some_calls(&stage.chart, &mut random);
        cases.push(case("a changed chart", &places, opened.as_ref(), recorded, calls, &mut random));
    }
    cases
}

/// Sessions with journals: of zeros, reached, made, with other journals than their own, damaged.
fn sessions(stage: &Stage, random: &mut Random) -> Vec<(&'static str, Recorded)> {
    let made = generate::timed(random, &stage.compiled);
    let reached = stage.reached(random);
    let near_full = random.between(MAX_ENTRIES - 3, MAX_ENTRIES) as u64;
    let over = [MAX_ENTRIES as u64 + 1, u64::MAX, 1 << 40][random.below(3)];
    let other = generate::unasked_journal(random, &stage.chart);
    let absurd = generate::absurd_journal(random, near_full);
    let mut sessions = vec![
        ("zeros", Recorded::ended()),
        ("reached", reached.clone()),
        ("made, beside entries at will", Recorded { timed: made.clone(), journal: other.clone() }),
        (
            "made, beside a nearly full journal of bytes at will",
            Recorded { timed: made.clone(), journal: absurd },
        ),
        ("ended, beside entries at will", Recorded { timed: Timed::ended(), journal: other }),
        ("a full queue", Recorded { timed: with_full_queue(&made), journal: Journal::empty() }),
        ("a count over 512", Recorded { journal: reached.journal.clone().counting(over), ..reached.clone() }),
    ];
    let part = session_damage::all()[random.below(session_damage::all().len())];
    if let Some(session) = session_damage::damaged(&made.session, part, &stage.compiled, random) {
        let timed = Timed { session, clock: made.clock.clone() };
        sessions.push(("a damaged session", Recorded { timed, journal: reached.journal.clone() }));
    }
    let clock = clock_damage::damaged(&made.clock, clock_damage::any(random), random);
    if let Some(clock) = clock {
        let timed = Timed { clock, session: made.session };
        sessions.push(("a damaged record", Recorded { timed, journal: Journal::empty() }));
    }
    sessions
}

fn with_full_queue(made: &Timed) -> Timed {
    let external = Queue::of(&vec![b"e".to_vec(); QUEUE_NAMES]).expect("no more than fit");
    Timed { session: Session { external, ..made.session.clone() }, clock: made.clock.clone() }
}

fn some_calls(chart: &Chart, random: &mut Random) -> Vec<RecordedCall> {
    let mut calls = generate::recorded_calls(random, chart, 3);
    let first = random.below(2).min(calls.len());
    calls.drain(..first);
    calls.truncate(random.between(1, MOST_CALLS));
    calls
}

/// A list from this session on, at times with something in it that is no call, with too little lent, or with a place of
/// another length, which performs nothing.
fn case(
    about: &str,
    chart: &Places,
    opened: Option<&CompiledChart>,
    recorded: Recorded,
    calls: Vec<RecordedCall>,
    random: &mut Random,
) -> ListCase {
    let (mut cells, mut text) = (Vec::new(), Vec::new());
    for call in &calls {
        cells.extend(spell(call, &mut text, UNREAD));
        cells.extend([UNWRITTEN; CALL_CELLS - GIVEN_CELLS]);
    }
    let mut room: u64 = cells.chunks(CALL_CELLS).map(|call| call[1]).sum();
    match random.below(20) {
        0..=2 => spoil(&mut cells, &text, random),
        3 => room = random.below(room as usize + 1) as u64,
        4 => cells.truncate(random.below(cells.len() + 1)),
        _ => {}
    }
    keep_quick(opened, recorded.clone(), &mut cells, &text);
    let odd = random.chance(4);
    let places = SessionPlaces::of(&recorded);
    let session = if odd { places.of_other_length(random) } else { places };
    let before = ListPlaces { session, cells, trace: filled_trace(room as usize) };
    let mut after = before.clone();
    let mut performed = 0;
    if !odd {
        let (count, left) = perform(opened, recorded, &mut after.cells, &text, &mut after.trace);
        after.session = SessionPlaces::of(&left);
        performed = count;
    }
    let about = if odd { format!("{about}, a place of another length") } else { about.to_string() };
    ListCase { about, chart: chart.clone(), text, before, performed, after }
}

/// Makes a call of the list none, in one of the ways that there are.
fn spoil(cells: &mut [u64], text: &[u8], random: &mut Random) {
    let call = random.below(cells.len() / CALL_CELLS);
    let end = text.len() as u64;
    let given = &mut cells[CALL_CELLS * call..][..GIVEN_CELLS];
    match random.below(6) {
        0 => given[0] = 5 + random.number() % 9,
        1 => given[0] |= 1 << random.between(3, 63),
        2 => given.copy_from_slice(&[1, 0, end, end + 1]),
        3 => given.copy_from_slice(&[1, 0, 1, 0]),
        4 => given.copy_from_slice(&[2, 0, 1 << 32, 0]),
        _ => given[1] = u64::MAX,
    }
}

/// Cuts a list before a step back of more rounds than are done in a moment.
fn keep_quick(opened: Option<&CompiledChart>, mut recorded: Recorded, cells: &mut Vec<u64>, text: &[u8]) {
    let Some(compiled) = opened else { return };
    for number in 0..cells.len() / CALL_CELLS {
        let Some(call) = read(&cells[CALL_CELLS * number..][..GIVEN_CELLS], text) else { return };
        let before = recorded.journal.count().saturating_sub(1);
        let steps_back = matches!(call, RecordedCall::StepBack { .. });
        if steps_back && rounds_of(compiled, &recorded.journal, before) > MOST_ROUNDS {
            return cells.truncate(CALL_CELLS * number);
        }
        recorded = call.done_on(recorded, opened).recorded();
    }
}
