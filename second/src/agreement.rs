//! The great comparison: generated charts and call lists, with every invariant asserted in every
//! round, and quick answers compared with slow ones.

use crate::branches::conditions;
use crate::brute;
use crate::calls::Call;
use crate::clock_damage;
use crate::compiled::{compile, needed_place, CompiledChart, Places};
use crate::coverage::Coverage;
use crate::encode::{encode, Layout, Spelt};
use crate::generate::{self, CallMaker, Flavour, LARGE};
use crate::invariants::{ensure, run_splits, Found, Seen};
use crate::legal::{can_be_stored, is_legal};
use crate::limits::{HISTORY_PLACES, MAX_TICKS, QUEUE_NAMES, ROW_SET_ROWS};
use crate::numbers::RowNumber;
use crate::random::Random;
use crate::row_set::RowSet;
use crate::rules::verdict;
use crate::session::*;
use crate::tables::{Action, Chart};
use crate::timed::{watch_nothing, Timed};

/// More legal configurations than this are not enumerated.
const SMALL: usize = 400;

/// A chart that failed, made smaller where that was easy.
#[derive(Debug)]
pub struct Failure {
    pub seed: u64,
    pub what: String,
    pub chart: Chart,
    pub calls: Vec<Call>,
}

/// What one seed stands for.
pub struct Trial {
    pub chart: Chart,
    pub calls: Vec<Call>,
    pub seed: u64,
}

impl Trial {
    pub fn of_seed(seed: u64) -> Trial {
        let mut random = Random::seeded(seed);
        let flavour = Flavour::any(&mut random);
        let chart = generate::chart(&mut random, flavour);
        let steps = random.between(2, 7);
        let calls = CallMaker::new(&mut random, &chart).calls(steps);
        Trial { chart, calls, seed }
    }

    /// Runs all comparisons on this chart and these calls.
    pub fn check(&self, coverage: &mut Coverage) -> Found {
        let mut random = Random::seeded(self.seed ^ 0x5eed);
        let spelt = encode(&self.chart, Layout::Mixed(Random::seeded(self.seed)));
        let compiled = self.compiles(&spelt, &mut random, coverage)?;
        self.calls_agree(&compiled, &mut random, coverage)?;
        let legal = brute::legal_configurations(&compiled.tree, SMALL);
        if let Some(legal) = &legal {
            small_chart_agrees(&compiled, legal, &mut random, coverage)?;
        }
        for _ in 0..2 {
            session_agrees(&compiled, legal.as_deref(), &mut random, coverage)?;
        }
        self.broken_tables_are_judged(&spelt, &mut random, coverage)
    }

    fn compiles(
        &self,
        spelt: &Spelt,
        random: &mut Random,
        coverage: &mut Coverage,
    ) -> Result<CompiledChart, String> {
        coverage.note("charts");
        coverage.note_if("charts of 40 rows and more", self.chart.rows.len() >= 40);
        coverage.note_if("charts of more rows than a word has bits", self.chart.rows.len() >= LARGE);
        self.count_initial_lists(coverage);
        self.count_blocks(coverage);
        let place = needed_place(&spelt.numbers).ok_or("a generated chart is too large")?;
        let places = compile(&spelt.numbers, &spelt.names, place)
            .map_err(|rule| format!("a generated chart breaks rule {rule}"))?;
        let compiled = CompiledChart::open(&places.numbers, &places.names).ok_or("a compiled chart opens")?;
        ensure(compiled.chart == self.chart, "tables spell the chart")?;
        let changed = change_one_cell(&places, spelt.numbers.len(), random);
        let opened = CompiledChart::open(&changed.numbers, &changed.names);
        ensure(opened.is_none(), "a changed compiled set is refused")?;
        Ok(compiled)
    }

    fn count_initial_lists(&self, coverage: &mut Coverage) {
        for row in self.chart.rows.iter().filter(|row| !row.kind.is_history() && !row.list.is_empty()) {
            coverage.note("initial lists");
            let names_history = row.list.iter().any(|&target| self.chart.kind(target).is_history());
            coverage.note_if("initial lists that name a history", names_history);
        }
    }

    fn count_blocks(&self, coverage: &mut Coverage) {
        let rows = self.chart.rows.iter().flat_map(|row| [&row.entry, &row.exit, &row.block]);
        let blocks = rows.chain(self.chart.transitions.iter().map(|transition| &transition.block));
        for block in blocks.filter(|block| !block.is_empty()) {
            coverage.note("blocks");
            coverage.note_if("blocks with an if", conditions(block).next().is_some());
            let timing = |action: &Action| matches!(action, Action::Send { .. } | Action::Cancel(_));
            coverage.note_if("blocks with a send or cancel", block.iter().any(timing));
        }
    }

    fn calls_agree(&self, compiled: &CompiledChart, random: &mut Random, coverage: &mut Coverage) -> Found {
        let mut timed = Timed::ended();
        for call in &self.calls {
            let before = timed.clone();
            let answer = watched(compiled, call, timed, random, coverage)?;
            answer_is_right(compiled, call, &before, &answer)?;
            count_answer(call, &before, &answer, coverage);
            if let Call::Run { rounds, room } = *call {
                run_splits(compiled, &before, rounds, room, &answer, random)?;
            }
            timed = answer.timed();
        }
        Ok(())
    }

    /// Tables with cells changed at will are judged, never fallen over.
    fn broken_tables_are_judged(&self, spelt: &Spelt, random: &mut Random, coverage: &mut Coverage) -> Found {
        for _ in 0..4 {
            let mut changed = spelt.clone();
            for _ in 0..random.between(1, 3) {
                change_anything(&mut changed, random);
            }
            let place =
                needed_place(&changed.numbers).unwrap_or(crate::rules::Place { numbers: 0, names: 0 });
            let rule = verdict(&changed.numbers, &changed.names, place);
            coverage.note(
                [
                    "changed tables: 0",
                    "changed tables: 1",
                    "changed tables: 2",
                    "changed tables: 3",
                    "changed tables: 4",
                    "changed tables: 5",
                ][rule as usize],
            );
            if rule == 0 {
                let places =
                    compile(&changed.numbers, &changed.names, place).map_err(|rule| rule.to_string())?;
                let compiled = CompiledChart::open(&places.numbers, &places.names).ok_or("opens")?;
                let calls = CallMaker::new(random, &compiled.chart).calls(1);
                let trial = Trial { chart: compiled.chart.clone(), calls, seed: self.seed };
                trial.calls_agree(&compiled, random, &mut Coverage::default())?;
            }
        }
        Ok(())
    }
}

fn change_one_cell(places: &Places, tables: usize, random: &mut Random) -> Places {
    let mut changed = places.clone();
    let cell = random.between(tables, changed.numbers.len() - 1);
    changed.numbers[cell] ^= 1 << random.below(64);
    changed
}

fn change_anything(spelt: &mut Spelt, random: &mut Random) {
    if random.chance(20) && !spelt.names.is_empty() {
        let place = random.below(spelt.names.len());
        spelt.names[place] = random.number() as u8;
        return;
    }
    let place = random.below(spelt.numbers.len());
    let old = spelt.numbers[place];
    spelt.numbers[place] = match random.below(8) {
        0 => u64::MAX,
        1 => 65_535,
        2 => old.wrapping_sub(1),
        3 => old.wrapping_add(1),
        4 => random.number(),
        _ => random.below(12) as u64,
    };
}

/// Does a call, checking and counting every round of it.
fn watched(
    compiled: &CompiledChart,
    call: &Call,
    timed: Timed,
    random: &mut Random,
    coverage: &mut Coverage,
) -> Result<Answer, String> {
    let mut found: Found = Ok(());
    let answer = call.done_on(timed, Some(compiled), &mut |before, record, after| {
        let seen = Seen { compiled, before, record, after };
        seen.count(coverage);
        if found.is_ok() {
            found = seen.check(random);
        }
    });
    found.map(|()| answer)
}

/// What a list of calls shows, from an ended session.
pub fn covered_by(compiled: &CompiledChart, calls: &[Call]) -> Coverage {
    let mut coverage = Coverage::default();
    let mut timed = Timed::ended();
    for call in calls {
        let before = timed.clone();
        let answer = call.done_on(timed, Some(compiled), &mut |before, record, after| {
            Seen { compiled, before, record, after }.count(&mut coverage);
        });
        count_answer(call, &before, &answer, &mut coverage);
        timed = answer.timed();
    }
    coverage
}

/// What holds of every answer, whatever the call.
fn answer_is_right(compiled: &CompiledChart, call: &Call, before: &Timed, answer: &Answer) -> Found {
    ensure(answer.clone().timed().is_well_formed(compiled), "sessions and records stay well formed")?;
    match call {
        Call::Start { room } => {
            ensure(answer.trace.len() <= *room && answer.rounds == 0, "a start fits its room")?;
            let refused = answer.number != ACCEPTED;
            ensure(
                !refused || answer.clone().timed() == Timed::ended() && answer.trace.is_empty(),
                "a refused start hands back an ended session and a new record",
            )
        }
        Call::Post { .. } => {
            ensure(answer.trace.is_empty() && answer.rounds == 0, "a post writes nothing")?;
            let accepted = answer.number == ACCEPTED;
            ensure(accepted != (answer.session == before.session), "a refused post changes nothing")?;
            ensure(answer.clock == before.clock, "a post leaves the clock record")
        }
        Call::Clock { ticks } => clock_answer_is_right(*ticks, before, answer),
        Call::Run { rounds, room } => run_answer_is_right(compiled, *rounds, *room, answer),
    }
}

/// The names that joined are the due ones in the order in which a search for the next finds them, and what
/// is pending then has not moved.
fn clock_answer_is_right(ticks: u64, before: &Timed, answer: &Answer) -> Found {
    ensure(answer.trace.is_empty() && answer.rounds == 0, "a clock call writes nothing")?;
    if answer.number != ACCEPTED {
        let expected = if before.session.mode == ENDED { SESSION_ENDED } else { BAD_TICKS };
        ensure(answer.number == expected, "11 before 14")?;
        return ensure(answer.clone().timed() == *before, "a refused clock call changes nothing");
    }
    ensure((before.clock.ticks..=MAX_TICKS).contains(&ticks), "14 for an earlier or too late clock")?;
    let mut left = before.clock.pending();
    let mut names = before.session.external.names();
    while names.len() < QUEUE_NAMES {
        let earliest = left.iter().map(|send| send.due).min().filter(|&due| due <= ticks);
        let Some(place) = left.iter().position(|send| Some(send.due) == earliest) else { break };
        names.push(left.remove(place).event);
    }
    ensure(answer.clock.ticks == ticks && answer.clock.pending() == left, "the rest stays pending")?;
    ensure(answer.session.external.names() == names, "what is due joins by due time, then by order")?;
    let moved = Session { external: answer.session.external.clone(), ..before.session.clone() };
    ensure(moved == answer.session, "a clock call moves the external queue alone")
}

fn run_answer_is_right(compiled: &CompiledChart, rounds: u32, room: usize, answer: &Answer) -> Found {
    ensure(answer.trace.len() <= room && answer.rounds <= rounds, "a run keeps its budgets")?;
    let session = &answer.session;
    let fewer = answer.rounds < rounds;
    let fits = match answer.number {
        STATUS_ENDED => session.mode == ENDED,
        STATUS_IDLE => session.is_idle(compiled) && session.internal.count + session.external.count == 0,
        STATUS_MORE => session.mode != ENDED && !session.is_idle(compiled) && !fewer,
        QUEUE_FULL | NO_TRACE_ROOM => session.mode != ENDED && !session.is_idle(compiled) && fewer,
        _ => false,
    };
    ensure(fits, "the status of a run is right")
}

fn count_answer(call: &Call, before: &Timed, answer: &Answer, coverage: &mut Coverage) {
    let what = match (call, answer.number) {
        (Call::Clock { .. }, ACCEPTED) => "clock calls accepted",
        (Call::Clock { .. }, BAD_TICKS) => "clock calls refused with 14",
        (Call::Clock { .. }, _) => "clock calls refused with 11",
        (Call::Start { .. }, ACCEPTED) => "starts accepted",
        (Call::Start { .. }, _) => "starts refused",
        (Call::Post { .. }, ACCEPTED) => "posts accepted",
        (Call::Post { .. }, BAD_NAME) => "posts refused with 6",
        (Call::Post { .. }, QUEUE_FULL) => "posts refused with 7",
        (Call::Post { .. }, _) => "posts refused with 11",
        (Call::Run { .. }, STATUS_MORE) => "runs that say more",
        (Call::Run { .. }, STATUS_IDLE) => "runs that say idle",
        (Call::Run { .. }, STATUS_ENDED) => "runs that say ended",
        (Call::Run { .. }, QUEUE_FULL) => "runs that say 7",
        (Call::Run { .. }, _) => "runs that say 10",
    };
    coverage.note(what);
    if let (Call::Clock { ticks }, ACCEPTED) = (call, answer.number) {
        count_joined(*ticks, before, answer, coverage);
    }
    if let Call::Run { .. } = call {
        let taken = answer.trace.iter().any(|entry| entry / 65_536 == 2);
        coverage.note_if("runs that take a transition", taken);
    }
}

fn count_joined(ticks: u64, before: &Timed, answer: &Answer, coverage: &mut Coverage) {
    let due: Vec<u64> =
        before.clock.pending().iter().map(|send| send.due).filter(|&due| due <= ticks).collect();
    let joined = answer.session.external.count - before.session.external.count;
    coverage.add("due sends that join", joined);
    coverage.note_if("clock calls that leave due sends pending", joined < due.len() as u64);
    coverage.note_if("clock calls that join out of order of sending", joined > 1 && !due.is_sorted());
    let ties = due.iter().enumerate().any(|(place, one)| due[..place].contains(one));
    coverage.note_if("clock calls with equal due times", ties && joined > 1);
    coverage.note_if("clock calls that stand still", ticks == before.clock.ticks);
    coverage.note_if("clock calls that stand still and join", ticks == before.clock.ticks && joined > 0);
    coverage.note_if("clock calls at 2^62", ticks == MAX_TICKS);
}

/// Legality and stored sets, quick against slow, on a chart with few legal configurations.
fn small_chart_agrees(
    compiled: &CompiledChart,
    legal: &[RowSet],
    random: &mut Random,
    coverage: &mut Coverage,
) -> Found {
    coverage.note("small charts compared with brute force");
    for configuration in legal {
        ensure(is_legal(&compiled.tree, configuration), "each enumerated configuration is legal")?;
    }
    for _ in 0..10 {
        let mut set = legal[random.below(legal.len())];
        flip_some(&mut set, compiled.chart.rows.len() + 1, random);
        let same = is_legal(&compiled.tree, &set) == legal.contains(&set);
        ensure(same, "legal exactly if enumerated")?;
    }
    for history in compiled.chart.row_numbers().filter(|&row| compiled.tree.is_history(row)) {
        for _ in 0..6 {
            let mut set = generate::storable(random, &compiled.tree, history);
            if random.chance(60) {
                flip_some(&mut set, compiled.chart.rows.len() + 1, random);
            }
            let quick = can_be_stored(&compiled.tree, history, &set);
            let slow = brute::can_be_stored(compiled, legal, history, &set);
            ensure(quick == slow, "a stored set is right exactly if some configuration stores it")?;
            coverage.note(if quick { "stored sets found right" } else { "stored sets found wrong" });
        }
    }
    Ok(())
}

fn flip_some(set: &mut RowSet, rows: usize, random: &mut Random) {
    for _ in 0..random.between(0, 2) {
        let row = RowNumber(random.below(rows.min(ROW_SET_ROWS)));
        match set.contains(row) {
            true => set.remove(row),
            false => set.insert(row),
        }
    }
}

/// A well-formed session that no start needs to reach keeps all invariants; a damaged one is
/// refused with 9 exactly if it is not well formed.
fn session_agrees(
    compiled: &CompiledChart,
    legal: Option<&[RowSet]>,
    random: &mut Random,
    coverage: &mut Coverage,
) -> Found {
    let timed = generate::timed(random, compiled);
    ensure(timed.is_well_formed(compiled), "a made session is well formed, and so is its record")?;
    let call = Call::Run { rounds: 8, room: 300 };
    let answer = watched(compiled, &call, timed.clone(), random, coverage)?;
    run_answer_is_right(compiled, 8, 300, &answer)?;
    run_splits(compiled, &timed, 8, 300, &answer, random)?;
    record_agrees(compiled, &timed, random, coverage)?;
    let mut damaged = timed.session;
    damage(&mut damaged, compiled.chart.rows.len(), random);
    let well_formed = damaged.is_well_formed(compiled);
    coverage.note(if well_formed { "damaged sessions still well formed" } else { "damaged sessions" });
    if let Some(legal) = legal {
        let slow = is_well_formed_slowly(compiled, legal, &damaged);
        ensure(well_formed == slow, "a session is well formed exactly if it is slowly")?;
    }
    let posted = damaged.clone().post(Some(compiled), b"e");
    let run = damaged.clone().run(Some(compiled), 1, 300);
    ensure((posted.number == BAD_SESSION) != well_formed, "9 exactly if not well formed")?;
    ensure((run.number == BAD_SESSION) != well_formed, "9 exactly if not well formed")?;
    let untouched = posted.session == damaged && run.session == damaged && run.trace.is_empty();
    ensure(well_formed || untouched && run.rounds == 0, "9 leaves all")
}

/// A clock call moves a made record as it should; a damaged record gives 9 in runs and clock calls exactly
/// if it is not well formed, and none of a start's or a post's business.
fn record_agrees(
    compiled: &CompiledChart,
    timed: &Timed,
    random: &mut Random,
    coverage: &mut Coverage,
) -> Found {
    let ticks = generate::later(random, timed.clock.ticks);
    let call = Call::Clock { ticks };
    let answer = timed.clone().clock(Some(compiled), ticks);
    answer_is_right(compiled, &call, timed, &answer)?;
    count_answer(&call, timed, &answer, coverage);
    let clock = clock_damage::damaged(&timed.clock, clock_damage::any(random), random);
    let damaged =
        Timed { clock: clock.unwrap_or_else(|| timed.clock.clone()), session: timed.session.clone() };
    let well_formed = damaged.clock.is_well_formed(damaged.session.mode);
    coverage.note(if well_formed { "damaged records still well formed" } else { "damaged records" });
    ensure(
        well_formed == clock_damage::is_spelt(&damaged.clock),
        "well formed exactly if some sends spell it",
    )?;
    let clocked = damaged.clone().clock(Some(compiled), ticks);
    let run = damaged.clone().run(Some(compiled), 1, 300, &mut watch_nothing);
    ensure((clocked.number == BAD_SESSION) != well_formed, "9 exactly if not well formed")?;
    ensure((run.number == BAD_SESSION) != well_formed, "9 exactly if not well formed")?;
    let untouched = run.rounds == 0 && run.trace.is_empty() && run.timed() == damaged;
    ensure(well_formed || untouched && clocked.timed() == damaged, "9 leaves all")?;
    let started = damaged.clone().start(Some(compiled), 300, &mut watch_nothing);
    let clean = Timed::ended().start(Some(compiled), 300, &mut watch_nothing);
    ensure(started == clean, "a start looks at no record")?;
    let posted = damaged.clone().post(Some(compiled), b"e");
    ensure(posted.number != BAD_SESSION && posted.clock == damaged.clock, "posts take no clock record")
}

fn damage(session: &mut Session, rows: usize, random: &mut Random) {
    match random.below(9) {
        0 => session.mode = random.below(4) as u64,
        1 => flip_some(&mut session.configuration, rows + 1, random),
        2 => session.configuration.insert(RowNumber(ROW_SET_ROWS - 1)),
        3 => flip_some(&mut session.stored[random.below(rows)], rows, random),
        4 => session.stored[random.between(rows - 1, HISTORY_PLACES - 1)].insert(RowNumber(1)),
        5 => session.internal.count = random.between(0, 40) as u64,
        6 => session.external.slots[random.below(QUEUE_NAMES)][random.below(64)] = random.number() as u8,
        7 => session.configuration = RowSet::EMPTY,
        _ => session.internal.count = u64::MAX,
    }
}

/// The same sentence as the quick test, with every part of it by search.
fn is_well_formed_slowly(compiled: &CompiledChart, legal: &[RowSet], session: &Session) -> bool {
    let queue_is_good = |queue: &Queue| {
        queue.count <= QUEUE_NAMES as u64
            && queue.slots.iter().enumerate().all(|(place, slot)| {
                let length = slot.iter().take_while(|&&byte| byte != 0).count();
                let zeros = slot[length..].iter().all(|&byte| byte == 0);
                let name = zeros && crate::names::is_name(&slot[..length]);
                if (place as u64) < queue.count {
                    name
                } else {
                    slot.iter().all(|&byte| byte == 0)
                }
            })
    };
    let finals_under_root: RowSet =
        compiled.chart.row_numbers().filter(|&row| compiled.tree.is_final_under_root(row)).collect();
    let empty = session.configuration.is_empty();
    let mode_is_good = match session.mode {
        ENDED => empty && session.internal == Queue::EMPTY && session.external == Queue::EMPTY,
        RUNNING => legal.contains(&session.configuration) && !session.configuration.meets(&finals_under_root),
        CLOSING => legal.contains(&session.configuration) && session.configuration.meets(&finals_under_root),
        _ => false,
    };
    let stored_is_good = session.stored.iter().enumerate().all(|(row, set)| {
        set.is_empty()
            || row < compiled.chart.rows.len() && brute::can_be_stored(compiled, legal, RowNumber(row), set)
    });
    queue_is_good(&session.internal) && queue_is_good(&session.external) && mode_is_good && stored_is_good
}

/// Tries one seed; a failure is made smaller before it is told.
pub fn try_seed(seed: u64, coverage: &mut Coverage) -> Result<(), Box<Failure>> {
    let trial = Trial::of_seed(seed);
    match trial.check(coverage) {
        Ok(()) => Ok(()),
        Err(what) => Err(Box::new(reduce(trial, what))),
    }
}

/// Leaves out calls, transitions and blocks as long as something still fails.
fn reduce(trial: Trial, what: String) -> Failure {
    let mut best = Failure { seed: trial.seed, what, chart: trial.chart, calls: trial.calls };
    loop {
        let smaller = smaller_trials(&best).into_iter().find_map(|trial| {
            let what = trial.check(&mut Coverage::default()).err()?;
            Some(Failure { seed: trial.seed, what, chart: trial.chart, calls: trial.calls })
        });
        match smaller {
            Some(failure) => best = failure,
            None => return best,
        }
    }
}

fn smaller_trials(failure: &Failure) -> Vec<Trial> {
    let mut trials = Vec::new();
    let mut add = |chart: Chart, calls: Vec<Call>| trials.push(Trial { chart, calls, seed: failure.seed });
    for place in (0..failure.calls.len()).rev() {
        let mut calls = failure.calls.clone();
        calls.remove(place);
        add(failure.chart.clone(), calls);
    }
    for place in (0..failure.chart.transitions.len()).rev() {
        let mut chart = failure.chart.clone();
        chart.transitions.remove(place);
        add(chart, failure.calls.clone());
    }
    for place in 0..failure.chart.rows.len() {
        let row = &failure.chart.rows[place];
        if !row.entry.is_empty() || !row.exit.is_empty() || !row.block.is_empty() {
            let mut chart = failure.chart.clone();
            chart.rows[place].entry.clear();
            chart.rows[place].exit.clear();
            chart.rows[place].block.clear();
            add(chart, failure.calls.clone());
        }
    }
    trials
}
