//! Generated charts with lists of calls and a journal: the calls that enter beside a follower that remembers,
//! replay of every k beside what entry k gave, damaged journals beside a search for calls that leave them,
//! and runs cut in two.

use crate::calls::Call;
use crate::compiled::CompiledChart;
use crate::coverage::Coverage;
use crate::encode::encode_plainly;
use crate::generate;
use crate::invariants::{ensure, Found};
use crate::journal::{Entry, Journal, ENTRY_BYTES};
use crate::journal_damage::{damaged, JournalPart};
use crate::journal_search::{search, Search};
use crate::limits::MAX_ENTRIES;
use crate::random::Random;
use crate::recorded::{Recorded, RecordedAnswer};
use crate::recorded_calls::RecordedCall;
use crate::remembering::{Remembering, Snapshot};
use crate::replay::{replay, Replayed};
use crate::session::*;
use crate::show;
use crate::tables::Chart;
use crate::timed::{watch_nothing, Timed};

/// Of so many seeds one has a full journal.
const ONE_FULL_OF: u64 = 12;
/// The first of the seeds whose journals are damaged, which are others.
const DAMAGED_SEED: u64 = 1_000_000;
/// More entries of trace than the runs of these lists write.
const AMPLE: usize = 100_000;
/// A list of more entries than this is replayed at some k alone.
const EACH_K: u64 = 40;

/// What one seed stands for.
pub struct Trial {
    pub chart: Chart,
    pub calls: Vec<RecordedCall>,
    random: Random,
}

impl Trial {
    pub fn of_seed(seed: u64) -> Trial {
        let mut random = Random::seeded(seed ^ 0x10c0_0000);
        let flavour = generate::flavour_for_journals(&mut random);
        let chart = generate::chart(&mut random, flavour);
        let calls = match seed % ONE_FULL_OF {
            0 => generate::calls_at_full_journal(&mut random, &chart),
            _ => {
                let steps = random.between(2, 6);
                generate::recorded_calls(&mut random, &chart, steps)
            }
        };
        Trial { chart, calls, random }
    }

    fn compiled(&self) -> CompiledChart {
        let spelt = encode_plainly(&self.chart);
        CompiledChart::from_tables(&spelt.numbers, &spelt.names).expect("a generated chart is accepted")
    }
}

/// Tries one seed; a failure tells its chart and calls.
pub fn try_seed(seed: u64, coverage: &mut Coverage) -> Found {
    let mut trial = Trial::of_seed(seed);
    check(&mut trial, coverage).map_err(|what| {
        let (chart, calls) = (show::chart(&trial.chart), show::recorded_calls(&trial.calls));
        format!("seed {seed}: {what}: chart {{{chart}}} calls {{{calls}}}")
    })
}

fn check(trial: &mut Trial, coverage: &mut Coverage) -> Found {
    let compiled = trial.compiled();
    let random = &mut trial.random;
    let journal = match random.chance(50) {
        true => Journal::empty(),
        false => generate::absurd_journal(random, 0),
    };
    let (recorded, follower) = follow(&compiled, &trial.calls, journal, coverage)?;
    each_k(&compiled, &recorded.journal, &follower.kept, random, coverage)?;
    let made = generate::timed(random, &compiled);
    for timed in [recorded.timed, made] {
        let count = [0, 510, 511, 512][random.below(4)];
        let journal = generate::absurd_journal(random, count);
        cut(&compiled, Recorded { timed, journal }, random, coverage)?;
    }
    Ok(())
}

/// Every call beside the follower that remembers.
fn follow<'a>(
    compiled: &'a CompiledChart,
    calls: &[RecordedCall],
    journal: Journal,
    coverage: &mut Coverage,
) -> Result<(Recorded, Remembering<'a>), String> {
    let mut recorded = Recorded { timed: Timed::ended(), journal };
    let mut follower = Remembering::new(compiled);
    for call in calls {
        let before = recorded.clone();
        let given = call.done_on(recorded, Some(compiled));
        ensure(given.answer == follower.call(call), "a follower that remembers gives the same")?;
        let entries = given.journal.entries().ok_or("a journal has entries alone")?;
        ensure(entries == follower.entries(), "the journal has the entries of the follower")?;
        other_bytes_stay(&before.journal, &given.journal)?;
        count_call(call, &before, &given, coverage);
        recorded = given.recorded();
    }
    Ok((recorded, follower))
}

/// "Entering writes the entry behind the last and the count", and all else lowers the count alone.
fn other_bytes_stay(before: &Journal, after: &Journal) -> Found {
    let mut expected = before.clone().counting(after.count());
    if after.count() > before.count() {
        ensure(after.count() == before.count() + 1, "one entry joins")?;
        let place = Journal::place_of(before.count() as usize);
        let entry = &after.bytes()[place..place + ENTRY_BYTES];
        expected.bytes_mut()[place..place + ENTRY_BYTES].copy_from_slice(entry);
    }
    ensure(expected == *after, "all other bytes of the journal stay")
}

fn count_call(call: &RecordedCall, before: &Recorded, given: &RecordedAnswer, coverage: &mut Coverage) {
    let entered = given.journal.count() > before.journal.count();
    let was_ended = before.timed.session.mode == ENDED;
    match (call, given.answer.number) {
        (RecordedCall::Call(Call::Post { .. }), JOURNAL_FULL) => coverage.note("posts refused with 15"),
        (RecordedCall::Call(Call::Clock { .. }), JOURNAL_FULL) => {
            coverage.note("clock calls refused with 15")
        }
        (RecordedCall::Call(Call::Run { .. }), JOURNAL_FULL) => coverage.note("runs that say 15"),
        (RecordedCall::Call(Call::Post { .. }), _) => coverage.note_if("posts entered", entered),
        (RecordedCall::Call(Call::Clock { .. }), _) => coverage.note_if("clock calls entered", entered),
        (RecordedCall::Call(Call::Start { .. }), _) => {
            coverage.note_if("starts that empty a journal", before.journal.count() > 0);
        }
        (RecordedCall::Call(Call::Run { .. }), status) => {
            let full = before.journal.count() == MAX_ENTRIES as u64;
            coverage.note_if("runs of an ended session, not entered", was_ended && !entered);
            coverage.note_if("runs of an ended session at a full journal", was_ended && full);
            coverage.note_if("runs entered that say 7", entered && status == QUEUE_FULL);
            coverage.note_if("runs entered that say 10", entered && status == NO_TRACE_ROOM);
            coverage.note_if("runs entered with no round", entered && given.answer.rounds == 0);
            coverage.note_if("runs entered that end the session", entered && status == STATUS_ENDED);
        }
        (RecordedCall::StepBack { .. }, NO_TRACE_ROOM) => coverage.note("step backs refused with 10"),
        (RecordedCall::StepBack { .. }, _) => count_step_back(before, given, coverage),
    }
}

fn count_step_back(before: &Recorded, given: &RecordedAnswer, coverage: &mut Coverage) {
    let entries = before.journal.entries().unwrap_or_default();
    coverage.note_if("step backs at 0", entries.is_empty());
    coverage.note_if("step backs over the first entry", entries.len() == 1);
    coverage.note_if("step backs over a post", matches!(entries.last(), Some(Entry::Post(_))));
    coverage.note_if("step backs over a clock call", matches!(entries.last(), Some(Entry::Clock(_))));
    coverage.note_if("step backs over a run", matches!(entries.last(), Some(Entry::Run(_))));
    let to_run = entries.len() > 1 && matches!(entries[entries.len() - 2], Entry::Run(_));
    coverage.note_if("step backs to a run that wrote", to_run && !given.answer.trace.is_empty());
    let revived = before.timed.session.mode == ENDED && given.answer.session.mode != ENDED;
    coverage.note_if("step backs over the end of a session", revived);
    coverage.note_if("step backs from a full journal", entries.len() == MAX_ENTRIES);
}

/// "replay gives exactly the session and the clock record after entry k and the trace that entry k wrote (0 is the
/// accepted start), for every k from 0 to the journal's length", with just the room it needs and with less.
fn each_k(
    compiled: &CompiledChart,
    journal: &Journal,
    kept: &[Snapshot],
    random: &mut Random,
    coverage: &mut Coverage,
) -> Found {
    let count = journal.count();
    for k in 0..=count {
        let Some(Snapshot { timed, trace, .. }) = kept.get(k as usize) else {
            return no_accepted_start(compiled, journal, coverage);
        };
        if count > EACH_K && k > 3 && k + 3 < count && !random.chance(4) {
            continue;
        }
        let expected = Replayed { timed: timed.clone(), trace: trace.clone() };
        let given = replay(Some(compiled), journal, k, trace.len());
        ensure(given.as_ref() == Ok(&expected), &format!("replay of {k} gives what entry {k} gave"))?;
        coverage.note("replays");
        if let Some(less) = trace.len().checked_sub(1) {
            let refused = replay(Some(compiled), journal, k, less);
            ensure(refused == Err(NO_TRACE_ROOM), "10 for one entry of room less")?;
            coverage.note("replays refused with 10");
        }
    }
    ensure(replay(Some(compiled), journal, count + 1, AMPLE) == Err(BAD_SESSION), "9 for too large a k")?;
    ensure(replay(None, journal, count + 1, 0) == Err(BAD_COMPILED_CHART), "8 before 9 and 10")?;
    let over = journal.clone().counting(MAX_ENTRIES as u64 + 1);
    ensure(replay(Some(compiled), &over, 0, AMPLE) == Err(BAD_SESSION), "9 for a count over 512")
}

/// Where no start was accepted, 0 still is the start that would be, unless that gives 7.
fn no_accepted_start(compiled: &CompiledChart, journal: &Journal, coverage: &mut Coverage) -> Found {
    ensure(journal.count() == 0, "no entries without a start")?;
    let started = Timed::ended().start(Some(compiled), AMPLE, &mut watch_nothing);
    let given = replay(Some(compiled), journal, 0, AMPLE);
    coverage.note_if("replays of 0 where no start was accepted", started.number == ACCEPTED);
    coverage.note_if("replays of 0 where no start can be", started.number == QUEUE_FULL);
    match started.number {
        ACCEPTED => {
            let expected = Replayed { trace: started.trace.clone(), timed: started.timed() };
            ensure(given == Ok(expected), "0 is the start that would be accepted")
        }
        _ => ensure(given == Err(BAD_SESSION), "9 for a chart whose start gives 7"),
    }
}

/// "a run of a rounds and then one of b, with b at least 1 and no call between, gives the session, clock record, joined
/// trace, status and summed count of one run of a+b, provided that no trace room runs out, the journal has
/// room, and a+b is a permitted count" (R-13). Each run has a room of its own.
fn cut(compiled: &CompiledChart, from: Recorded, random: &mut Random, coverage: &mut Coverage) -> Found {
    let a = random.below(6) as u32;
    let b = if random.chance(10) { u32::MAX - a } else { random.between(1, 6) as u32 };
    let mut room = || random.between(100, 900);
    let first = from.clone().run(Some(compiled), a, room());
    let second = first.clone().recorded().run(Some(compiled), b, room());
    let whole = from.clone().run(Some(compiled), a + b, room());
    let numbers = [&first, &second, &whole].map(|given| given.answer.number);
    if numbers.iter().any(|&number| number == NO_TRACE_ROOM || number == JOURNAL_FULL) {
        let enters = from.timed.session.mode != ENDED && numbers[0] != STATUS_ENDED;
        let full = enters && from.journal.count() + 2 > MAX_ENTRIES as u64;
        let told = numbers[1] == JOURNAL_FULL;
        coverage.note_if("cuts whose second run finds the journal full", told && from.journal.count() == 511);
        return ensure(full == told, "15 exactly where the journal has no room for the second entry");
    }
    coverage.note("runs cut in two");
    coverage.note_if("runs cut in two that say 7", numbers[2] == QUEUE_FULL);
    coverage.note_if("runs cut behind their last round", second.answer.rounds == 0);
    let joined = [&first.answer.trace[..], &second.answer.trace].concat();
    let same = second.answer.session == whole.answer.session
        && second.answer.clock == whole.answer.clock
        && joined == whole.answer.trace
        && second.answer.number == whole.answer.number
        && u64::from(first.answer.rounds) + u64::from(second.answer.rounds) == u64::from(whole.answer.rounds);
    ensure(same, "a run of a and then of b is a run of a + b")?;
    let more = |given: &RecordedAnswer| given.journal.count() - from.journal.count();
    let ended = [from.timed.session.mode == ENDED, first.answer.session.mode == ENDED];
    let expected = ended.map(|ended| u64::from(!ended));
    ensure(more(&second) == expected[0] + expected[1], "two entries, unless the session had ended")?;
    ensure(more(&whole) == expected[0], "one entry")
}

/// What became of a journal with a field changed.
#[derive(Clone, Copy, PartialEq, Eq, Debug)]
pub enum Verdict {
    Left,
    NotLeft,
    Unknown,
    /// The journal has no such field, or no start was accepted.
    NoSuchField,
}

/// A journal that a seed's calls leave, with one field of this part changed: replay gives 9 exactly if a search finds
/// no calls that leave its first k entries, and else what these gave.
pub fn try_damage(seed: u64, part: JournalPart) -> Result<Verdict, String> {
    let mut trial = Trial::of_seed(DAMAGED_SEED + seed);
    let compiled = trial.compiled();
    trial.calls.truncate(16);
    let (recorded, follower) = follow(&compiled, &trial.calls, Journal::empty(), &mut Coverage::default())?;
    let started = !follower.kept.is_empty();
    let field = damaged(&recorded.journal, part, &mut trial.random).filter(|_| started);
    let Some((changed, place)) = field else { return Ok(Verdict::NoSuchField) };
    let k = match trial.random.chance(50) {
        true => changed.count(),
        false => changed.count().min(place as u64 + 1),
    };
    let given = replay(Some(&compiled), &changed, k, AMPLE);
    match search(&compiled, &changed, k) {
        Search::Left(left) => {
            let (timed, trace) = *left;
            ensure(
                given == Ok(Replayed { timed, trace }),
                &format!("seed {seed}: replay gives what calls gave"),
            )?;
            Ok(Verdict::Left)
        }
        Search::NotLeft => {
            ensure(given == Err(BAD_SESSION), &format!("seed {seed}: 9 where no calls leave the entries"))?;
            Ok(Verdict::NotLeft)
        }
        Search::Unknown => Ok(Verdict::Unknown),
    }
}
