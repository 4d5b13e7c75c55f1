//! One seed: a chart, and sessions and clock records of every kind that are started, run, stepped and given the
//! clock where they lie. The library and the second program must answer alike and leave the same session,
//! record and trace; a step is the second program's post and then its run. Places of other lengths are refused.

use crate::compare::{add, difference, ensure};
use crate::library::{self, Compiled, Parts};
use crate::lists;
use crate::posts::{reached, some_name};
use crate::seeds::Tally;
use crate::sessions::timed_alike;
use second::clock::CLOCK_BYTES;
use second::clock_damage::{self, ClockPart};
use second::compiled::{compile, CompiledChart, Places};
use second::damage::{self, Part};
use second::encode::Layout;
use second::generate::{self, Flavour};
use second::near_misses::Lent;
use second::random::Random;
use second::session::{BAD_COMPILED_CHART, BAD_SESSION, NO_TRACE_ROOM};
use second::session_damage::{self, SessionPart};
use second::timed::{watch_nothing, Timed};

/// How many records with a change each seed makes.
const DAMAGED: usize = 2;

/// All kinds of changes.
pub struct Kinds {
    sessions: Vec<SessionPart>,
    pub records: Vec<ClockPart>,
    charts: Vec<Part>,
}

impl Kinds {
    pub fn all() -> Kinds {
        Kinds { sessions: session_damage::all(), records: clock_damage::all(), charts: damage::of_compiled() }
    }
}

/// Counts of what was compared, by answer or status.
#[derive(Clone)]
pub struct Counts {
    pub starts: [u64; 103],
    pub runs: [u64; 103],
    pub clocks: [u64; 103],
    /// Clock records with a change by kind, and those of them that were refused.
    pub records: Vec<[u64; 2]>,
    /// Answers of the posts and statuses of the runs of steps.
    pub step_answers: [u64; 103],
    pub step_statuses: [u64; 103],
    /// Lists of calls: those that were performed to their end, and those that were not.
    pub lists: [u64; 2],
}

impl Counts {
    pub fn none(kinds: &Kinds) -> Counts {
        let none = [0; 103];
        Counts {
            starts: none,
            runs: none,
            clocks: none,
            records: vec![[0; 2]; kinds.records.len()],
            step_answers: none,
            step_statuses: none,
            lists: [0; 2],
        }
    }
}

impl Tally for Counts {
    fn join(&mut self, other: &Counts) {
        add(&mut self.starts, &other.starts);
        add(&mut self.runs, &other.runs);
        add(&mut self.clocks, &other.clocks);
        add(self.records.as_flattened_mut(), other.records.as_flattened());
        add(&mut self.step_answers, &other.step_answers);
        add(&mut self.step_statuses, &other.step_statuses);
        add(&mut self.lists, &other.lists);
    }
}

/// A chart as it is lent, and what the second program takes it for.
#[derive(Clone, Copy)]
pub struct Stage<'a> {
    pub chart: Compiled<'a>,
    pub opened: Option<&'a CompiledChart>,
}

/// A trace of which every entry is known.
pub fn filled(room: usize) -> Vec<u32> {
    (0..room as u32).map(|place| place.wrapping_mul(0x9e37_79b9)).collect()
}

/// Whether a trace is these entries and behind them what it was filled with.
fn traced(given: &[u32], entries: &[u32]) -> Result<(), String> {
    let mut own = filled(given.len());
    own[..entries.len()].copy_from_slice(entries);
    ensure(given == own, || difference("entry", given, &own))
}

impl Stage<'_> {
    fn start(&self, timed: &Timed, room: usize, counts: &mut Counts) -> Result<(), String> {
        let own = timed.clone().start(self.opened, room, &mut watch_nothing);
        let (mut given, mut trace) = (library::Timed::from(timed), filled(room));
        let started = given.lend().start(self.chart, &mut trace);
        let (found, wanted) = ((u64::from(started.answer), started.count), (own.number, own.trace.len()));
        ensure(found == wanted, || format!("a start gives {found:?}, not {wanted:?}"))?;
        counts.starts[own.number as usize] += 1;
        traced(&trace, &own.trace)?;
        timed_alike(&given, &own.timed())
    }

    fn run(&self, timed: &Timed, rounds: u32, room: usize, counts: &mut Counts) -> Result<(), String> {
        let own = timed.clone().run(self.opened, rounds, room, &mut watch_nothing);
        let (mut given, mut trace) = (library::Timed::from(timed), filled(room));
        let ran = given.lend().run(self.chart, rounds, &mut trace);
        let found = (u64::from(ran.status), ran.rounds, ran.count);
        let wanted = (own.number, own.rounds, own.trace.len());
        ensure(found == wanted, || format!("a run gives {found:?}, not {wanted:?}"))?;
        counts.runs[own.number as usize] += 1;
        traced(&trace, &own.trace)?;
        timed_alike(&given, &own.timed())
    }

    /// Gives the clock with both. The answer.
    fn clock(&self, timed: &Timed, ticks: u64, counts: &mut Counts) -> Result<u64, String> {
        let own = timed.clone().clock(self.opened, ticks);
        let mut given = library::Timed::from(timed);
        let (found, wanted) = (u64::from(given.lend().clock(self.chart, ticks)), own.number);
        ensure(found == wanted, || format!("a clock call answers {found}, not {wanted}"))?;
        counts.clocks[wanted as usize] += 1;
        timed_alike(&given, &own.timed())?;
        Ok(wanted)
    }

    fn step(
        &self,
        timed: &Timed,
        name: &[u8],
        (rounds, room): (u32, usize),
        counts: &mut Counts,
    ) -> Result<(), String> {
        let posted = timed.clone().post(self.opened, name);
        let answer = posted.number;
        let own = posted.timed().run(self.opened, rounds, room, &mut watch_nothing);
        let (mut given, mut trace) = (library::Timed::from(timed), filled(room));
        let stepped = given.lend().step(self.chart, name, rounds, &mut trace);
        let found = (u64::from(stepped.answer), u64::from(stepped.status), stepped.rounds, stepped.count);
        let wanted = (answer, own.number, own.rounds, own.trace.len());
        ensure(found == wanted, || format!("a step gives {found:?}, not {wanted:?}"))?;
        counts.step_answers[answer as usize] += 1;
        counts.step_statuses[own.number as usize] += 1;
        traced(&trace, &own.trace)?;
        timed_alike(&given, &own.timed())
    }

    /// A step, a clock call and one of the others, each on the same session.
    fn calls(
        &self,
        timed: &Timed,
        name: &[u8],
        random: &mut Random,
        counts: &mut Counts,
    ) -> Result<(), String> {
        let room = if random.chance(20) { random.below(12) } else { random.between(40, 300) };
        let rounds = if random.chance(10) { u32::MAX } else { random.below(12) as u32 };
        self.step(timed, name, (rounds, room), counts)?;
        self.clock(timed, generate::later(random, timed.clock.ticks), counts)?;
        match random.below(2) {
            0 => self.run(timed, rounds, room, counts),
            _ => self.start(timed, room, counts),
        }
    }

    /// Enough room is enough: neither a start nor a first round gets 10, and no more is said of what
    /// is no compiled chart.
    fn has_room(&self, timed: &Timed) -> Result<(), String> {
        let room = self.chart.room();
        if self.opened.is_none() {
            return ensure(room == 0, || format!("no chart has room {room}"));
        }
        let started = timed.clone().start(self.opened, room, &mut watch_nothing).number;
        let ran = timed.clone().run(self.opened, 1, room, &mut watch_nothing).number;
        ensure(started != NO_TRACE_ROOM && ran != NO_TRACE_ROOM, || format!("a room of {room} is too small"))
    }

    /// Places of other lengths than a session and its record have: refused, and everything is as it was. A post
    /// takes no record, so that a step posts all the same where that place alone is of another length.
    fn wrong_lengths(&self, timed: &Timed, name: &[u8], random: &mut Random) -> Result<(), String> {
        let mut odd = Odd::of(timed, random);
        let before = odd.clone();
        let mut trace = filled(50);
        let mut cells = [0, 50, 0, 0, 7, 7, 7];
        let refusal = if self.opened.is_some() { BAD_SESSION } else { BAD_COMPILED_CHART };
        let started = odd.lend().start(self.chart, &mut trace);
        let ran = odd.lend().run(self.chart, 5, &mut trace);
        let clocked = odd.lend().clock(self.chart, u64::MAX);
        let performed = odd.lend().perform(self.chart, &mut cells, &[], &mut trace);
        let answers = [ran.status, clocked].map(u64::from);
        ensure(answers == [refusal; 2] && u64::from(started.answer) == BAD_SESSION, || {
            format!("wrong lengths get {answers:?} and {}", started.answer)
        })?;
        let done = [started.count, ran.count, performed];
        ensure(done == [0; 3] && ran.rounds == 0 && cells[4..] == [7; 3], || {
            "something was done with wrong lengths".to_string()
        })?;
        ensure(odd == before, || "wrong lengths change a place".to_string())?;
        self.step_in_wrong_lengths(odd, timed, name, &mut trace)?;
        traced(&trace, &[])
    }

    fn step_in_wrong_lengths(
        &self,
        mut odd: Odd,
        timed: &Timed,
        name: &[u8],
        trace: &mut [u32],
    ) -> Result<(), String> {
        let refusal = if self.opened.is_some() { BAD_SESSION } else { BAD_COMPILED_CHART };
        let before = odd.clone();
        let stepped = odd.lend().step(self.chart, name, 5, trace);
        let mut expected = (refusal, before);
        if odd.clock.len() != CLOCK_BYTES {
            let posted = timed.session.clone().post(self.opened, name);
            let Odd { clock, .. } = expected.1;
            expected = (posted.number, Odd { clock, ..Odd::from(&posted.timed()) });
        }
        let found = (u64::from(stepped.answer), u64::from(stepped.status));
        ensure(found == (expected.0, refusal), || format!("a step in wrong lengths gives {found:?}"))?;
        ensure(odd == expected.1 && (stepped.rounds, stepped.count) == (0, 0), || {
            "a step in wrong lengths changes a place".to_string()
        })
    }
}

/// The places of a session and its record, of which one is too long or too short.
#[derive(Clone, PartialEq, Eq)]
struct Odd {
    numbers: Vec<u64>,
    internal: Vec<u8>,
    external: Vec<u8>,
    clock: Vec<u8>,
}

impl From<&Timed> for Odd {
    fn from(timed: &Timed) -> Odd {
        let library::Timed { session, clock } = timed.into();
        let library::Session { numbers, internal, external } = session;
        Odd {
            numbers: numbers.into(),
            internal: internal.into(),
            external: external.into(),
            clock: clock.into(),
        }
    }
}

impl Odd {
    fn of(timed: &Timed, random: &mut Random) -> Odd {
        let mut odd = Odd::from(timed);
        let other = |length: usize, random: &mut Random| match random.below(3) {
            0 => length - 1,
            1 => length + 1,
            _ => random.below(length),
        };
        match random.below(4) {
            0 => odd.numbers.resize(other(odd.numbers.len(), random), 0),
            1 => odd.internal.resize(other(odd.internal.len(), random), 0),
            2 => odd.external.resize(other(odd.external.len(), random), 0),
            _ => odd.clock.resize(other(odd.clock.len(), random), 0),
        }
        odd
    }

    fn lend(&mut self) -> Parts<'_> {
        let Odd { numbers, internal, external, clock } = self;
        Parts { numbers, internal, external, clock }
    }
}

/// Compares all that a seed makes.
pub fn try_seed(seed: u64, kinds: &Kinds, counts: &mut Counts) -> Result<(), String> {
    let mut random = Random::seeded(seed ^ 0x57e9);
    let flavour = Flavour::any(&mut random);
    let chart = generate::chart(&mut random, flavour);
    let Lent { spelt, place } = Lent::of(&chart, Layout::Plain);
    let places = compile(&spelt.numbers, &spelt.names, place)
        .map_err(|rule| format!("a generated chart breaks rule {rule}"))?;
    let compiled = CompiledChart::open(&places.numbers, &places.names).ok_or("a compiled chart opens")?;
    let stage = Stage { chart: (&places).into(), opened: Some(&compiled) };
    let made = generate::timed(&mut random, &compiled);
    let part = kinds.sessions[seed as usize % kinds.sessions.len()];
    let mut timed = vec![made.clone(), reached(&chart, &compiled, &mut random), Timed::ended()];
    let damaged = session_damage::damaged(&made.session, part, &compiled, &mut random);
    timed.extend(damaged.map(|session| Timed { session, ..made.clone() }));
    timed.push(Timed { clock: made.clock.clone(), ..Timed::ended() });
    for timed in &timed {
        let name = some_name(&chart, &mut random);
        stage.calls(timed, &name, &mut random, counts)?;
        stage.has_room(timed)?;
    }
    changed_record(seed, &stage, kinds, &made, &mut random, counts)?;
    stage.wrong_lengths(&made, &some_name(&chart, &mut random), &mut random)?;
    lists::try_list(&stage, &chart, &timed, &mut random, &mut counts.lists)?;
    let again = places.clone();
    let same = Compiled::from(&again).fingerprint() == stage.chart.fingerprint();
    ensure(same, || "equal charts have two fingerprints".to_string())?;
    let part = kinds.charts[seed as usize % kinds.charts.len()];
    if let Some(places) = damage::damaged(&places, part, &mut random) {
        changed_chart(&places, &made, &some_name(&chart, &mut random), &mut random, counts)
            .map_err(|what| format!("{part} of the chart: {what}"))?;
    }
    Ok(())
}

/// Runs and clock calls with a record of which one number or byte was changed.
fn changed_record(
    seed: u64,
    stage: &Stage,
    kinds: &Kinds,
    made: &Timed,
    random: &mut Random,
    counts: &mut Counts,
) -> Result<(), String> {
    for turn in 0..DAMAGED {
        let kind = (seed as usize * DAMAGED + turn) % kinds.records.len();
        let part = kinds.records[kind];
        let Some(clock) = clock_damage::damaged(&made.clock, part, random) else { continue };
        let damaged = Timed { clock, session: made.session.clone() };
        let told = |what| format!("{part} of the record: {what}");
        let answer = stage.clock(&damaged, generate::later(random, made.clock.ticks), counts);
        let refused = answer.map_err(told)? == BAD_SESSION;
        add(&mut counts.records[kind], &[1, u64::from(refused)]);
        stage.run(&damaged, 3, 100, counts).map_err(told)?;
    }
    Ok(())
}

/// The same calls on a chart that was changed.
fn changed_chart(
    places: &Places,
    timed: &Timed,
    name: &[u8],
    random: &mut Random,
    counts: &mut Counts,
) -> Result<(), String> {
    let opened = CompiledChart::open(&places.numbers, &places.names);
    let stage = Stage { chart: places.into(), opened: opened.as_ref() };
    stage.calls(timed, name, random, counts)?;
    stage.has_room(timed)?;
    stage.wrong_lengths(timed, name, random)
}
