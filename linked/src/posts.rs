//! One seed: a chart, and sessions of every kind that are posted to. The library and the second
//! program must answer alike and leave the same session.

use crate::compare::{add, ensure};
use crate::library;
use crate::seeds::Tally;
use crate::sessions::alike;
use second::calls::Call;
use second::compiled::{compile, CompiledChart, Places};
use second::damage::{self, Part};
use second::encode::Layout;
use second::generate::{self, bad_names, CallMaker, Flavour};
use second::limits::MAX_NAME_BYTES;
use second::near_misses::Lent;
use second::random::Random;
use second::session::{Session, BAD_SESSION};
use second::session_damage::{self, SessionPart};
use second::tables::Chart;
use second::timed::{watch_nothing, Timed};

/// How many sessions with one cell changed, and with many, each seed makes.
const DAMAGED: usize = 8;
const AT_WILL: usize = 2;

/// All kinds of changes.
pub struct Kinds {
    pub sessions: Vec<SessionPart>,
    charts: Vec<Part>,
}

impl Kinds {
    pub fn all() -> Kinds {
        Kinds { sessions: session_damage::all(), charts: damage::of_compiled() }
    }
}

/// Counts of what was compared.
#[derive(Clone)]
pub struct Counts {
    /// Posts by answer.
    pub answers: [u64; 12],
    /// Well-formed sessions, reached by calls or not.
    pub well_formed: u64,
    /// Sessions with one cell changed by kind, and those of them that were refused.
    pub damaged: Vec<[u64; 2]>,
    /// Sessions with many cells changed, and those of them that were refused.
    pub at_will: [u64; 2],
}

impl Counts {
    pub fn none(kinds: &Kinds) -> Counts {
        Counts {
            answers: [0; 12],
            well_formed: 0,
            damaged: vec![[0; 2]; kinds.sessions.len()],
            at_will: [0; 2],
        }
    }
}

impl Tally for Counts {
    fn join(&mut self, other: &Counts) {
        add(&mut self.answers, &other.answers);
        self.well_formed += other.well_formed;
        add(self.damaged.as_flattened_mut(), other.damaged.as_flattened());
        add(&mut self.at_will, &other.at_will);
    }
}

/// A chart as it is lent, and what the second program takes it for.
struct Stage<'a> {
    places: &'a Places,
    opened: Option<&'a CompiledChart>,
}

impl Stage<'_> {
    /// Posts with both. The answer.
    fn post(&self, session: &Session, name: &[u8], counts: &mut Counts) -> Result<u64, String> {
        let own = session.clone().post(self.opened, name);
        let before = self.places.clone();
        let mut given = library::Session::from(session);
        let answer = u64::from(given.lend().post(self.places.into(), name));
        let own_answer = own.number;
        ensure(answer == own_answer, || format!("a post answers {answer}, not {own_answer}"))?;
        alike(&given, &own.session)?;
        ensure(*self.places == before, || "the chart is not as it was".to_string())?;
        counts.answers[own_answer as usize] += 1;
        Ok(own_answer)
    }
}

/// A name that is mostly an event's.
pub fn some_name(chart: &Chart, random: &mut Random) -> Vec<u8> {
    let events = generate::known_events(chart);
    let event = events[random.below(events.len())].clone();
    match random.below(10) {
        0 => {
            let bad = bad_names();
            bad[random.below(bad.len())].clone()
        }
        1 => {
            let mut name = event;
            let place = random.below(name.len());
            name[place] = random.number() as u8;
            name
        }
        2 => (0..random.between(MAX_NAME_BYTES - 1, MAX_NAME_BYTES + 2)).map(|_| b'n').collect(),
        _ => event,
    }
}

/// The session and the clock record that a list of calls leaves, at times an ended one.
pub fn reached(chart: &Chart, compiled: &CompiledChart, random: &mut Random) -> Timed {
    let mut calls = CallMaker::new(random, chart).calls(2);
    calls.truncate(random.between(1, 8));
    let mut timed = Timed::ended();
    for call in &calls {
        timed = Call::done_on(call, timed, Some(compiled), &mut watch_nothing).timed();
    }
    timed
}

/// Compares all that a seed makes.
pub fn try_seed(seed: u64, kinds: &Kinds, counts: &mut Counts) -> Result<(), String> {
    let mut random = Random::seeded(seed);
    let flavour = Flavour::any(&mut random);
    let chart = generate::chart(&mut random, flavour);
    let Lent { spelt, place } = Lent::of(&chart, Layout::Plain);
    let places = compile(&spelt.numbers, &spelt.names, place)
        .map_err(|rule| format!("a generated chart breaks rule {rule}"))?;
    let compiled = CompiledChart::open(&places.numbers, &places.names).ok_or("a compiled chart opens")?;
    let stage = Stage { places: &places, opened: Some(&compiled) };
    let made = generate::session(&mut random, &compiled);
    let reached = reached(&chart, &compiled, &mut random).session;
    for session in [&made, &reached] {
        let name = some_name(&chart, &mut random);
        let answer = stage.post(session, &name, counts)?;
        ensure(answer != BAD_SESSION, || "a well-formed session is refused".to_string())?;
        counts.well_formed += 1;
    }
    for turn in 0..DAMAGED {
        let kind = (seed as usize * DAMAGED + turn) % kinds.sessions.len();
        let part = kinds.sessions[kind];
        if let Some(session) = session_damage::damaged(&made, part, &compiled, &mut random) {
            let answer = stage.post(&session, &some_name(&chart, &mut random), counts);
            let refused = answer.map_err(|what| format!("{part}: {what}"))? == BAD_SESSION;
            add(&mut counts.damaged[kind], &[1, u64::from(refused)]);
        }
    }
    for _ in 0..AT_WILL {
        let session = session_damage::at_will(&made, &mut random);
        let answer = stage.post(&session, &some_name(&chart, &mut random), counts);
        let refused = answer.map_err(|what| format!("a session at will: {what}"))? == BAD_SESSION;
        add(&mut counts.at_will, &[1, u64::from(refused)]);
    }
    let part = kinds.charts[seed as usize % kinds.charts.len()];
    if let Some(places) = damage::damaged(&places, part, &mut random) {
        let opened = CompiledChart::open(&places.numbers, &places.names);
        let stage = Stage { places: &places, opened: opened.as_ref() };
        let session = if random.chance(50) { &made } else { &Session::ended() };
        let name = some_name(&chart, &mut random);
        stage.post(session, &name, counts).map_err(|what| format!("{part} of the chart: {what}"))?;
    }
    Ok(())
}
