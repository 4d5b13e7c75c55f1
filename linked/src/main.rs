//! linked [first seed] [seeds]: compares the static library with the second program and ends with
//! how many seeds, and kinds of what they made, passed and failed.

use linked::calls;
use linked::compare::{self, Counts, Kinds};
#[cfg(feature = "flat")]
use linked::flats;
use linked::library;
use linked::posts;
#[cfg(feature = "journal")]
use linked::recorded;
use linked::seeds::{try_all, Tally};
use linked::story;
use linked::texts;
use linked::written;
use std::ops::Range;
use std::process::ExitCode;

const FIRST_SEED: u64 = 1;
const SEEDS: u64 = 20_000;

/// With fewer seeds than this not every kind has come round often.
const ENOUGH: u64 = 10_000;
/// How often each kind must have been met.
const OFTEN: u64 = 20;

/// How much passed, and what failed.
#[derive(Default)]
struct Outcome {
    passed: u64,
    failures: Vec<String>,
}

impl Outcome {
    /// Seeds that were tried, and kinds that must have been met.
    fn add(&mut self, seeds: u64, failures: Vec<String>, demands: Vec<(String, bool)>) {
        self.passed += seeds - failures.len() as u64;
        self.failures.extend(failures);
        self.demand(seeds >= ENOUGH, demands);
    }

    fn demand(&mut self, enough: bool, demands: Vec<(String, bool)>) {
        for (what, met) in demands {
            match met || !enough {
                true => self.passed += 1,
                false => self.failures.push(format!("not met often enough: {what}")),
            }
        }
    }
}

fn main() -> ExitCode {
    let mut arguments = std::env::args().skip(1).map(|text| text.parse::<u64>());
    let first = arguments.next().and_then(Result::ok).unwrap_or(FIRST_SEED);
    let count = arguments.next().and_then(Result::ok).unwrap_or(SEEDS);
    let seeds = first..first + count;
    let mut outcome = Outcome::default();
    compare_charts(seeds.clone(), &mut outcome);
    compare_posts(seeds.clone(), &mut outcome);
    compare_calls(seeds.clone(), &mut outcome);
    compare_texts(seeds.clone(), &mut outcome);
    compare_written(seeds.clone(), &mut outcome);
    #[cfg(feature = "journal")]
    compare_recorded(seeds.clone(), &mut outcome);
    #[cfg(feature = "flat")]
    compare_flats(seeds, &mut outcome);
    outcome.add(1, story::play().err().into_iter().collect(), Vec::new());
    outcome.add(1, is_of_this_number().err().into_iter().collect(), Vec::new());
    let Outcome { passed, mut failures } = outcome;
    failures.sort();
    for failure in &failures {
        println!("FAILED {failure}");
    }
    println!("{passed} passed, {} failed", failures.len());
    match failures.is_empty() {
        true => ExitCode::SUCCESS,
        false => ExitCode::FAILURE,
    }
}

fn compare_charts(seeds: Range<u64>, outcome: &mut Outcome) {
    let kinds = Kinds::all();
    let try_seed = |seed: u64, counts: &mut Counts| compare::try_seed(seed, &kinds, counts);
    let count = seeds.end - seeds.start;
    let (counts, failures) = try_all(seeds, Counts::none(&kinds), try_seed);
    say(&counts);
    outcome.add(count, failures, demands(&kinds, &counts));
}

/// What must have been met, lest the comparison show little: large charts, every answer, every kind of near miss,
/// and of every kind of cell a change that is refused.
fn demands(kinds: &Kinds, counts: &Counts) -> Vec<(String, bool)> {
    let [large, greatest] = counts.large;
    let mut demands = vec![
        ("large charts".to_string(), large >= OFTEN),
        ("charts of as many rows as there may be".to_string(), greatest >= OFTEN),
    ];
    for (answer, &count) in counts.answers.iter().enumerate() {
        demands.push((format!("answer {answer}"), count >= OFTEN));
    }
    for (kind, &count) in kinds.near_misses.iter().zip(&counts.near_misses) {
        demands.push((format!("near miss: {}", kind.name), count >= OFTEN));
    }
    for (part, [_, refused]) in kinds.compiled.iter().zip(&counts.damaged) {
        demands.push((format!("compiled, {part}"), *refused >= OFTEN));
    }
    for (part, [_, refused]) in kinds.tables.iter().zip(&counts.changed) {
        demands.push((format!("tables, {part}"), *refused >= OFTEN));
    }
    demands
}

fn say(counts: &Counts) {
    let sum = |pairs: &[[u64; 2]]| pairs.iter().fold([0; 2], |[a, b], [c, d]| [a + c, b + d]);
    let [damaged, refused] = sum(&counts.damaged);
    let [changed, _] = sum(&counts.changed);
    let [large, greatest] = counts.large;
    println!("{large:>10}  large charts, {greatest} of them of as many rows as there may be");
    println!("{:>10}  near misses", counts.near_misses.iter().sum::<u64>());
    println!("{changed:>10}  tables with a change");
    println!("{damaged:>10}  compiled charts with a change, {refused} of them refused");
    for (answer, count) in counts.answers.iter().enumerate() {
        println!("{count:>10}  compiled with answer {answer}");
    }
}

/// Every answer that a post can have, and of every kind of cell of a session a change that is refused.
fn compare_posts(seeds: Range<u64>, outcome: &mut Outcome) {
    let kinds = posts::Kinds::all();
    let try_seed = |seed: u64, counts: &mut posts::Counts| posts::try_seed(seed, &kinds, counts);
    let count = seeds.end - seeds.start;
    let (counts, failures) = try_all(seeds, posts::Counts::none(&kinds), try_seed);
    let mut demands = Vec::new();
    for answer in [0, 6, 7, 8, 9, 11] {
        println!("{:>10}  posts with answer {answer}", counts.answers[answer]);
        demands.push((format!("a post with answer {answer}"), counts.answers[answer] >= OFTEN));
    }
    for (part, [_, refused]) in kinds.sessions.iter().zip(&counts.damaged) {
        demands.push((format!("a session, {part}"), *refused >= OFTEN));
    }
    let [damaged, refused] = counts.damaged.iter().fold([0; 2], |[a, b], [c, d]| [a + c, b + d]);
    println!("{:>10}  well-formed sessions", counts.well_formed);
    println!("{damaged:>10}  sessions with a change, {refused} of them refused");
    println!("{:>10}  sessions at will, {} of them refused", counts.at_will[0], counts.at_will[1]);
    outcome.add(count, failures, demands);
}

/// Starts, runs, steps, clock calls and lists of calls: every answer and status that each can have, and of every
/// kind of place of a clock record a change that is refused.
fn compare_calls(seeds: Range<u64>, outcome: &mut Outcome) {
    let kinds = calls::Kinds::all();
    let try_seed = |seed: u64, counts: &mut calls::Counts| calls::try_seed(seed, &kinds, counts);
    let count = seeds.end - seeds.start;
    let (counts, failures) = try_all(seeds, calls::Counts::none(&kinds), try_seed);
    let mut demands = Vec::new();
    let mut demand = |what: &str, numbers: &[usize], counts: &[u64; 103]| {
        for &number in numbers {
            println!("{:>10}  {what} {number}", counts[number]);
            demands.push((format!("{what} {number}"), counts[number] >= OFTEN));
        }
    };
    demand("starts with answer", &[0, 7, 8, 10], &counts.starts);
    demand("clock calls with answer", &[0, 8, 9, 11, 14], &counts.clocks);
    demand("runs with status", &[100, 101, 102, 7, 8, 9, 10], &counts.runs);
    demand("steps with answer", &[0, 6, 7, 8, 9, 11], &counts.step_answers);
    demand("steps with status", &[100, 101, 102, 7, 8, 9, 10], &counts.step_statuses);
    for (part, [_, refused]) in kinds.records.iter().zip(&counts.records) {
        demands.push((format!("a clock record, {part}"), *refused >= OFTEN));
    }
    let [damaged, refused] = counts.records.iter().fold([0; 2], |[a, b], [c, d]| [a + c, b + d]);
    println!("{damaged:>10}  clock records with a change, {refused} of them refused");
    let [whole, part] = counts.lists;
    println!("{whole:>10}  lists of calls to their end\n{part:>10}  lists that end before it");
    demands.push(("whole lists of calls, and lists that end early".to_string(), whole.min(part) >= OFTEN));
    outcome.add(count, failures, demands);
}

/// Texts in random spellings, a tenth of the seeds, and every change of one byte of a few texts: every answer
/// that a read can have.
fn compare_texts(seeds: Range<u64>, outcome: &mut Outcome) {
    let count = (seeds.end - seeds.start).div_ceil(10);
    let (mut counts, failures) =
        try_all(seeds.start..seeds.start + count, texts::Counts::default(), texts::try_seed);
    let (changed, more) = try_all(0..texts::places(), texts::Counts::default(), texts::try_place);
    counts.join(&changed);
    let mut demands = Vec::new();
    for answer in [0, 1, 2, 3, 4, 5, 12] {
        println!("{:>10}  texts with answer {answer}", counts.answers[answer]);
        demands.push((format!("a text with answer {answer}"), counts.answers[answer] >= OFTEN));
    }
    outcome.add(count, failures, Vec::new());
    outcome.add(texts::places(), more, Vec::new());
    outcome.demand(seeds.end - seeds.start >= ENOUGH, demands);
}

/// Charts written back, a tenth of the seeds: every answer that writing can have, and charts of each kind.
fn compare_written(seeds: Range<u64>, outcome: &mut Outcome) {
    let kinds = written::Kinds::all();
    let try_seed = |seed: u64, counts: &mut written::Counts| written::try_seed(seed, &kinds, counts);
    let count = (seeds.end - seeds.start).div_ceil(10);
    let (counts, failures) = try_all(seeds.start..seeds.start + count, written::Counts::default(), try_seed);
    let mut demands = Vec::new();
    for answer in [0, 1, 2, 3, 4, 5, 13] {
        println!("{:>10}  charts written with answer {answer}", counts.answers[answer]);
        demands.push((format!("a chart written with answer {answer}"), counts.answers[answer] >= OFTEN));
    }
    let kinds = ["an if", "a send", "a listed history", "more than 32,768 bytes"];
    for (what, count) in kinds.iter().zip(counts.kinds) {
        println!("{count:>10}  charts written that have {what}");
        demands.push((format!("a written chart that has {what}"), count >= OFTEN));
    }
    outcome.add(count, failures, Vec::new());
    outcome.demand(seeds.end - seeds.start >= ENOUGH, demands);
}

/// Lists of calls with a journal and replays, a tenth of the seeds: every answer and status that each can have.
#[cfg(feature = "journal")]
fn compare_recorded(seeds: Range<u64>, outcome: &mut Outcome) {
    let count = (seeds.end - seeds.start).div_ceil(10);
    let none = recorded::Counts::none();
    let (counts, failures) = try_all(seeds.start..seeds.start + count, none, recorded::try_seed);
    let mut demands = Vec::new();
    let kinds: [(&str, &[usize]); recorded::KINDS] = [
        ("starts", &[0, 7, 8, 10]),
        ("posts", &[0, 6, 7, 8, 9, 11, 15]),
        ("runs", &[100, 101, 102, 7, 8, 9, 10, 15]),
        ("clock calls", &[0, 8, 9, 11, 14, 15]),
        ("step backs", &[0, 8, 9, 10]),
    ];
    for ((what, answers), counts) in kinds.iter().zip(&counts.calls) {
        for &answer in *answers {
            println!("{:>10}  {what} beside a journal with {answer}", counts[answer]);
            demands.push((format!("{what} beside a journal with {answer}"), counts[answer] >= OFTEN));
        }
    }
    for answer in [0, 8, 9, 10] {
        println!("{:>10}  replays with answer {answer}", counts.replays[answer]);
        demands.push((format!("a replay with answer {answer}"), counts.replays[answer] >= OFTEN));
    }
    let [whole, part] = counts.lists;
    println!("{whole:>10}  lists with a journal to their end\n{part:>10}  lists that end before it");
    demands
        .push(("whole lists with a journal, and such that end early".to_string(), whole.min(part) >= OFTEN));
    outcome.add(count, failures, Vec::new());
    outcome.demand(seeds.end - seeds.start >= ENOUGH, demands);
}

/// Flat tables, a tenth of the seeds: every answer that flattening can have.
#[cfg(feature = "flat")]
fn compare_flats(seeds: Range<u64>, outcome: &mut Outcome) {
    let count = (seeds.end - seeds.start).div_ceil(10);
    let (counts, failures) =
        try_all(seeds.start..seeds.start + count, flats::Counts::default(), flats::try_seed);
    let mut demands = Vec::new();
    for answer in [0, 1, 6, 8, 16, 17] {
        println!("{:>10}  flat tables with answer {answer}", counts.answers[answer]);
        demands.push((format!("a flat table with answer {answer}"), counts.answers[answer] >= OFTEN));
    }
    outcome.add(count, failures, Vec::new());
    outcome.demand(seeds.end - seeds.start >= ENOUGH, demands);
}

/// The archive is the one that these declarations are for.
fn is_of_this_number() -> Result<(), String> {
    compare::ensure(library::version() == 3, || format!("the library's number is {}", library::version()))
}
