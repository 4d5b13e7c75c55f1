//! Replays as plain data: what is lent, and what must be found in the places afterwards.

use crate::compiled::{CompiledChart, Places};
use crate::generate;
use crate::journal::Journal;
use crate::journal_damage::{self, JournalPart};
use crate::limits::MAX_ENTRIES;
use crate::list_cases::{filled_trace, Stage, MOST_ROUNDS};
use crate::random::Random;
use crate::replay::{replay, rounds_of, Replayed};
use crate::session::{ACCEPTED, BAD_COMPILED_CHART, BAD_SESSION};
use crate::session_places::SessionPlaces;

/// More entries of trace than a replay within these rounds is lent.
const AMPLE: usize = 1_000;

/// The places of a replay, before or after it.
#[derive(Clone, PartialEq, Eq, Debug)]
pub struct ReplayPlaces {
    pub session: SessionPlaces,
    pub trace: Vec<u32>,
}

#[derive(Clone, Debug)]
pub struct ReplayCase {
    pub about: String,
    pub chart: Places,
    pub k: u64,
    pub before: ReplayPlaces,
    /// The answer, the count of entries in the trace, and the places then.
    pub answer: u64,
    pub count: usize,
    pub after: ReplayPlaces,
}

/// The cases of one seed: a journal that calls have left at every k, others, and each field changed in turn.
pub fn replay_cases(seed: u64) -> Vec<ReplayCase> {
    let mut maker = Maker { random: Random::seeded(seed ^ 0x4e91_0000), cases: Vec::new() };
    let stage = Stage::of_seed(&mut maker.random);
    let own = stage.reached(&mut maker.random).journal;
    for k in 0..=own.count().min(20) {
        maker.add("a journal of its own", &stage.places, Some(&stage.compiled), &own, k);
    }
    let past = [own.count() + 1, MAX_ENTRIES as u64, MAX_ENTRIES as u64 + 1, u64::MAX];
    let k = past[maker.random.below(past.len())];
    maker.add("too large a k", &stage.places, Some(&stage.compiled), &own, k);
    maker.add_others(&stage, &own);
    let parts = journal_damage::all();
    for turn in 0..3 {
        maker.add_damaged(&stage, &own, parts[(3 * seed as usize + turn) % parts.len()]);
    }
    if let Some((places, opened)) = stage.damaged(&mut maker.random) {
        let k = maker.random.below(own.count() as usize + 2) as u64;
        maker.add("a changed chart", &places, opened.as_ref(), &own, k);
    }
    maker.cases
}

struct Maker {
    random: Random,
    cases: Vec<ReplayCase>,
}

impl Maker {
    /// Entries at will, bytes at will, and counts over 512.
    fn add_others(&mut self, stage: &Stage, own: &Journal) {
        let lent = Some(&stage.compiled);
        let unasked = generate::unasked_journal(&mut self.random, &stage.chart);
        let k = self.random.below(unasked.count() as usize + 1) as u64;
        self.add("entries at will", &stage.places, lent, &unasked, k);
        self.add("entries at will, the whole journal", &stage.places, lent, &unasked, unasked.count());
        let count = self.random.below(MAX_ENTRIES + 1) as u64;
        let absurd = generate::absurd_journal(&mut self.random, count);
        let k = [0, 1, count][self.random.below(3)];
        self.add("bytes at will", &stage.places, lent, &absurd, k);
        let over = own.clone().counting([MAX_ENTRIES as u64 + 1, 1 << 32, u64::MAX][self.random.below(3)]);
        self.add("a count over 512", &stage.places, lent, &over, 0);
    }

    fn add_damaged(&mut self, stage: &Stage, own: &Journal, part: JournalPart) {
        let Some((journal, place)) = journal_damage::damaged(own, part, &mut self.random) else { return };
        let k = match self.random.chance(60) {
            true => place as u64 + 1,
            false => journal.count(),
        };
        self.add(&format!("{part} changed"), &stage.places, Some(&stage.compiled), &journal, k);
    }

    /// Unless it takes more rounds than are done in a moment. The room is ample, or just what is needed, or less.
    fn add(
        &mut self,
        about: &str,
        chart: &Places,
        opened: Option<&CompiledChart>,
        journal: &Journal,
        k: u64,
    ) {
        if opened.is_some_and(|compiled| rounds_of(compiled, journal, k) > MOST_ROUNDS) {
            return;
        }
        let random = &mut self.random;
        let needed = replay(opened, journal, k, AMPLE).map_or(AMPLE, |replayed| replayed.trace.len());
        let room = match random.below(6) {
            0 => needed.saturating_sub(1),
            1 => random.below(needed + 1),
            2 => AMPLE,
            _ => needed,
        };
        let odd = random.chance(4);
        let places = SessionPlaces::at_will(random, journal.bytes().to_vec());
        let session = if odd { places.of_other_length(random) } else { places };
        let before = ReplayPlaces { session, trace: filled_trace(room) };
        let refused = if opened.is_some() { BAD_SESSION } else { BAD_COMPILED_CHART };
        let given = if odd { Err(refused) } else { replay(opened, journal, k, room) };
        let mut after = before.clone();
        let (answer, count) = match given {
            Ok(Replayed { timed, trace }) => {
                after.session = SessionPlaces::of_timed(&timed, journal.bytes().to_vec());
                after.trace[..trace.len()].copy_from_slice(&trace);
                (ACCEPTED, trace.len())
            }
            Err(refusal) => (refusal, 0),
        };
        let about = if odd { format!("{about}, a place of another length") } else { about.to_string() };
        self.cases.push(ReplayCase { about, chart: chart.clone(), k, before, answer, count, after });
    }
}
