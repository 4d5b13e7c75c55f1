//! Every named check: bad input at every boundary, marked runs, readings, near misses and the
//! agreement of generated charts.

use crate::agreement;
use crate::coverage::Coverage;
use crate::flat_agreement;
use crate::invariants::Found;
use crate::journal_agreement;
use crate::show;

mod answers;
mod by_hand;
mod cases;
mod clocks;
mod cuts;
mod damaged_journals;
mod desk;
mod flats;
mod input;
mod journals;
mod lent_lists;
mod names;
mod near_misses;
mod plain_cases;
mod readings;
mod replays;
mod runs;
mod step_backs;
mod text;
mod worked;

/// A check with its name. Equal checks give equal answers, whenever and wherever they run.
pub struct Check {
    pub name: String,
    pub run: Box<dyn Fn(&mut Coverage) -> Found + Send + Sync>,
}

impl Check {
    pub fn new(name: impl Into<String>, run: impl Fn() -> Found + Send + Sync + 'static) -> Check {
        Check { name: name.into(), run: Box::new(move |_| run()) }
    }
}

/// The first seed of the agreement run, its charts and how many of them are one check.
pub const FIRST_SEED: u64 = 1;
pub const CHARTS: u64 = 20_000;
pub const JOURNALS: u64 = 3_000;
pub const FLAT_TABLES: u64 = 4_000;
pub const CHARTS_OF_CHECK: u64 = 100;

/// All small checks.
pub fn small() -> Vec<Check> {
    let mut checks = Vec::new();
    checks.extend(names::checks());
    checks.extend(input::checks());
    checks.extend(answers::checks());
    checks.extend(clocks::checks());
    checks.extend(journals::checks());
    checks.extend(replays::checks());
    checks.extend(step_backs::checks());
    checks.extend(lent_lists::checks());
    checks.extend(damaged_journals::checks());
    checks.extend(cuts::checks());
    checks.extend(flats::checks());
    checks.extend(plain_cases::checks());
    checks.extend(runs::checks());
    checks.extend(readings::checks());
    checks.extend(near_misses::checks());
    checks.extend(by_hand::checks());
    checks.extend(cases::checks());
    checks.extend(text::checks());
    checks.extend(worked::checks());
    checks
}

/// The agreement of generated charts, of those with journals and of flat tables, in pieces.
pub fn agreement() -> Vec<Check> {
    let charts = pieces("agreement", CHARTS, agree_on);
    let journals = pieces("journals", JOURNALS, journal_agreement::try_seed);
    let flats = pieces("flat tables", FLAT_TABLES, flat_agreement::try_seed);
    [journals, charts, flats].into_iter().flatten().collect()
}

fn pieces(
    name: &str,
    seeds: u64,
    try_seed: impl Fn(u64, &mut Coverage) -> Found + Copy + Send + Sync + 'static,
) -> Vec<Check> {
    (0..seeds / CHARTS_OF_CHECK)
        .map(|piece| {
            let first = FIRST_SEED + piece * CHARTS_OF_CHECK;
            let last = first + CHARTS_OF_CHECK - 1;
            let name = format!("{name}: seeds {first} to {last}");
            let run =
                move |coverage: &mut Coverage| (first..=last).try_for_each(|seed| try_seed(seed, coverage));
            Check { name, run: Box::new(run) }
        })
        .collect()
}

/// What a great run must have met, lest it prove little.
const MUST_HAPPEN: [&str; 84] = [
    "blocks that no active row would decide otherwise",
    "blocks that the configuration after the round would decide otherwise",
    "blocks that the configuration before the round would decide otherwise",
    "cancels",
    "candidates removed by conflicts",
    "charts flattened",
    "charts of more rows than a word has bits",
    "charts of more than 256 configurations",
    "charts with a history, not flattened",
    "clock calls at 2^62",
    "clock calls entered",
    "clock calls refused with 11",
    "clock calls refused with 14",
    "clock calls refused with 15",
    "clock calls that join out of order of sending",
    "clock calls that leave due sends pending",
    "clock calls that stand still and join",
    "clock calls with equal due times",
    "closing rounds",
    "closing rounds with sends or cancels",
    "configurations with a final under root",
    "cuts whose second run finds the journal full",
    "damaged records",
    "deep histories restored",
    "default blocks not run, parent not entered",
    "default blocks run",
    "done events of parallels",
    "done events of states",
    "eventless entries beside names that lead elsewhere",
    "flat tables of charts of more rows than a word has bits",
    "flat tables of more than 20 configurations",
    "full tables that a later cancel would empty",
    "histories that fell to their default lists",
    "internal transitions that stay inside",
    "listed histories restored, of a row below",
    "listed histories restored, of the owner",
    "listed histories that fell, of a row below",
    "listed histories that fell, of the owner",
    "listed histories that the same round stored",
    "posts entered",
    "posts refused with 11",
    "posts refused with 15",
    "posts refused with 6",
    "posts refused with 7",
    "replays",
    "replays of 0 where no start can be",
    "replays refused with 10",
    "rounds or starts refused with 10",
    "rounds or starts refused with 7",
    "rounds or starts refused with 7 for the table alone",
    "rounds where Appendix D enters above the domain",
    "rounds where selection order is not number order",
    "rounds whose entry reads history of the same round",
    "rounds with several transitions",
    "runs cut behind their last round",
    "runs cut in two",
    "runs cut in two that say 7",
    "runs entered that end the session",
    "runs entered that say 10",
    "runs entered that say 7",
    "runs entered with no round",
    "runs of an ended session, not entered",
    "runs that say 15",
    "sends that a later round cancels",
    "sends that their own round cancels",
    "sessions that end with pending sends",
    "shallow histories restored",
    "small charts compared with brute force",
    "starts that empty a journal",
    "step backs at 0",
    "step backs from a full journal",
    "step backs over a clock call",
    "step backs over a post",
    "step backs over a run",
    "step backs over the end of a session",
    "step backs over the first entry",
    "step backs refused with 10",
    "step backs to a run that wrote",
    "stored sets found right",
    "stored sets found wrong",
    "transitions chosen by several",
    "transitions chosen from below",
    "transitions whose anchors give another domain",
    "transitions with several targets",
];

/// Whether the agreement run has met enough of everything.
pub fn enough_happened(coverage: &Coverage) -> Found {
    for what in MUST_HAPPEN {
        if coverage.get(what) < 100 {
            return Err(format!("{what}: only {}", coverage.get(what)));
        }
    }
    Ok(())
}

fn agree_on(seed: u64, coverage: &mut Coverage) -> Found {
    agreement::try_seed(seed, coverage).map_err(|failure| {
        format!(
            "seed {seed}: {}: chart {{{}}} calls {{{}}}",
            failure.what,
            show::chart(&failure.chart),
            show::calls(&failure.calls)
        )
    })
}
