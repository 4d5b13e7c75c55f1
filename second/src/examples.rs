//! Examples for the proved program: a chart's tables, calls, and what must come of them.

use crate::agreement;
use crate::builder::{Builder, Do};
use crate::calls::{dumps, Call, Dump};
use crate::compiled::CompiledChart;
use crate::coverage::Coverage;
use crate::encode::{encode, encode_plainly, Layout, Spelt};
use crate::generate::{self, CallMaker, Flavour};
use crate::limits::{HEADER_CELLS, NONE, SLOT_BYTES};
use crate::near_misses::{self, Lent, NearMiss};
use crate::random::Random;
use crate::readings::{post, run, start};
use crate::rules::{verdict, Place};
use crate::tables::Chart;

#[derive(Clone, PartialEq, Eq, Debug)]
pub struct Example {
    pub name: String,
    /// What the example is there for.
    pub about: String,
    pub spelt: Spelt,
    pub place: Place,
    pub calls: Vec<Call>,
    pub verdict: u64,
    /// One for each call; none for a refused chart.
    pub dumps: Vec<Dump>,
}

impl Example {
    /// Tables with places of the right sizes.
    pub fn of_tables(name: &str, about: &str, spelt: Spelt, calls: Vec<Call>) -> Example {
        let cell = |place: usize| spelt.numbers.get(place).copied().unwrap_or(0);
        let sets = cell(0).saturating_mul(16).saturating_add(cell(1).saturating_mul(4));
        let place =
            Place { numbers: spelt.numbers.len().saturating_add(sets as usize), names: spelt.names.len() };
        Example::of_lent(name, about, Lent { spelt, place }, calls)
    }

    pub fn of_lent(name: &str, about: &str, lent: Lent, calls: Vec<Call>) -> Example {
        let Lent { spelt, place } = lent;
        let verdict = verdict(&spelt.numbers, &spelt.names, place);
        let dumps = match CompiledChart::from_tables(&spelt.numbers, &spelt.names) {
            Ok(compiled) if verdict == 0 => dumps(&compiled, &calls),
            _ => Vec::new(),
        };
        let calls = if verdict == 0 { calls } else { Vec::new() };
        Example { name: name.to_string(), about: about.to_string(), spelt, place, calls, verdict, dumps }
    }

    pub fn of_chart(name: &str, about: &str, chart: &Chart, calls: Vec<Call>) -> Example {
        Example::of_tables(name, about, encode_plainly(chart), calls)
    }

    pub fn compiled(&self) -> CompiledChart {
        CompiledChart::from_tables(&self.spelt.numbers, &self.spelt.names).expect("the example is accepted")
    }

    pub fn slots(&self) -> impl Iterator<Item = &[u8]> {
        self.spelt.names.chunks(SLOT_BYTES)
    }
}

/// A few charts for what generated ones seldom reach.
pub fn by_hand() -> Vec<Example> {
    vec![
        thirty_three_posts(),
        refused_start(),
        longest_id(),
        one_level_only(),
        targets_beside_history(),
        chosen_twice(),
    ]
}

fn chosen_twice() -> Example {
    let mut b = Builder::new();
    b.parallel("", "p").state("p", "a").state("p", "b").state("p", "c");
    b.on("p", "e", "").doing(&[Do::Host(1)]).on("b", "e", "").doing(&[Do::Host(2)]);
    let calls = vec![start(), post("e"), run(1)];
    Example::of_chart("chosen_twice", "two states choose one transition, once", &b.chart(), calls)
}

fn thirty_three_posts() -> Example {
    let mut b = Builder::new();
    b.state("", "s").on("s", "e", "");
    let mut calls = vec![start()];
    calls.extend((0..33).map(|number| post(if number % 2 == 0 { "e" } else { "f" })));
    calls.push(run(5));
    Example::of_chart("thirty_three_posts", "the thirty-third post is refused", &b.chart(), calls)
}

fn refused_start() -> Example {
    let mut b = Builder::new();
    b.state("", "a").state("a", "b").state("b", "c").state("c", "d").state("d", "x");
    for id in ["a", "b", "c", "d"] {
        b.on_entry(id, &[Do::Raise("e"); 8]);
    }
    b.on_entry("x", &[Do::Host(65_535), Do::Raise("e")]);
    let calls = vec![start(), post("e"), run(1), Call::Start { room: 0 }];
    Example::of_chart("refused_start", "a start that would queue 33 names", &b.chart(), calls)
}

fn longest_id() -> Example {
    let id = "i".repeat(52);
    let mut b = Builder::new();
    b.state("", &id).final_(&id, "f").state("", "z").on(&id, &format!("done.state.{id}"), "z");
    let calls = vec![start(), run(2)];
    Example::of_chart("longest_id", "a done event of 63 bytes", &b.chart(), calls)
}

fn one_level_only() -> Example {
    let mut b = Builder::new();
    b.parallel("", "p").state("p", "b").final_("b", "bf").parallel("p", "q").state("q", "a");
    b.state("a", "a1").final_("a", "af").on("a1", "e", "af").on("p", "done.state.p", "a1");
    let calls = vec![start(), post("e"), run(2), run(9)];
    Example::of_chart("one_level_only", "q is done, and p is not told", &b.chart(), calls)
}

fn targets_beside_history() -> Example {
    let mut b = Builder::new();
    b.state("", "z").parallel("", "p").state("p", "a").state("a", "x").state("a", "y");
    b.shallow("a", "h").state("p", "b").state("b", "u").state("b", "v");
    b.list("h", "y", &[Do::Host(2)]).on_entry("a", &[Do::Host(1)]);
    b.on("z", "e", "v h").on("p", "f", "z").on("y", "g", "x");
    let calls = vec![start(), post("e"), run(1), post("g"), post("f"), post("e"), run(3)];
    Example::of_chart("targets_beside_history", "a state and a history, twice", &b.chart(), calls)
}

/// The first seed of the generated examples, and how many seeds are tried for each of them.
pub const EXAMPLE_SEED: u64 = 7_000_000;
const TRIED: u64 = 24;

/// Generated charts with calls: mostly small, a few larger. Of those tried the one is taken that
/// shows most of what the others before it have not shown.
pub fn generated(count: usize) -> Vec<Example> {
    let mut shown = Coverage::default();
    (0..count).map(|place| generated_example(place, &mut shown)).collect()
}

fn generated_example(place: usize, shown: &mut Coverage) -> Example {
    let first = EXAMPLE_SEED + TRIED * place as u64;
    let mut best: Option<(f64, Example, Coverage)> = None;
    for seed in first..first + TRIED {
        let example = example_of_seed(place, seed);
        let covered = agreement::covered_by(&example.compiled(), &example.calls);
        let worth: f64 = covered.seen().map(|what| 1.0 / (1.0 + shown.get(what) as f64)).sum();
        if best.as_ref().is_none_or(|(most, _, _)| worth > *most) {
            best = Some((worth, example, covered));
        }
    }
    let (_, example, covered) = best.expect("some seed is tried");
    for what in covered.seen() {
        shown.note(what);
    }
    example
}

fn example_of_seed(place: usize, seed: u64) -> Example {
    let mut random = Random::seeded(seed);
    let rows = match place % 20 {
        19 => random.between(12, 15),
        9 | 14 => random.between(9, 11),
        _ => random.between(3, 8),
    };
    let flavour = Flavour::with_rows(&mut random, rows);
    let chart = generate::chart(&mut random, flavour);
    let calls = small_calls(&mut random, &chart);
    let spelt = match place % 2 {
        0 => encode_plainly(&chart),
        _ => encode(&chart, Layout::Mixed(Random::seeded(seed))),
    };
    let about = format!("a generated chart, seed {seed}");
    Example::of_tables(&format!("generated_{place:03}"), &about, spelt, calls)
}

/// Two to six calls, runs of at most eight rounds.
fn small_calls(random: &mut Random, chart: &Chart) -> Vec<Call> {
    let count = random.between(2, 6);
    let mut calls = CallMaker::new(random, chart).calls(6);
    for call in &mut calls {
        if let Call::Run { rounds, .. } = call {
            *rounds = (*rounds).min(8);
        }
    }
    calls.truncate(count);
    let runs = calls.iter().any(|call| matches!(call, Call::Run { .. }));
    if !runs {
        calls.pop();
        calls.push(Call::Run { rounds: 8, room: 200 });
    }
    calls
}

/// One refused chart for each kind of near miss.
pub fn refused() -> Vec<Example> {
    each_near_miss("refused", near_misses::all(), &[])
}

/// One chart for each kind that comes next to a refused one, with two rounds of it.
pub fn accepted() -> Vec<Example> {
    each_near_miss("accepted", near_misses::accepted(), &[start(), post("s"), run(2)])
}

/// Each kind on the smallest sample that has a place for it.
fn each_near_miss(prefix: &str, kinds: Vec<NearMiss>, calls: &[Call]) -> Vec<Example> {
    let mut samples = near_misses::small_samples();
    samples.push(near_misses::sample());
    kinds
        .iter()
        .filter_map(|near_miss| {
            let mut lent =
                samples.iter().filter_map(|sample| near_miss.of(sample, &mut Random::seeded(1), true));
            let name = format!("{prefix}_{}", identifier(near_miss.name));
            Some(Example::of_lent(&name, near_miss.name, lent.next()?, calls.to_vec()))
        })
        .collect()
}

/// The first seed of the changed charts.
const CHANGED_SEED: u64 = 8_000_000;

/// Small charts with cells changed at will. Most changes break rule 1; of those few are taken.
pub fn changed(count: usize) -> Vec<Example> {
    let mut taken: Vec<Example> = Vec::new();
    let mut seed = CHANGED_SEED;
    while taken.len() < count {
        let example = changed_example(seed);
        let alike = taken.iter().filter(|other| other.verdict == example.verdict).count();
        let share = if example.verdict == 1 { count / 10 } else { count / 4 };
        if alike < share {
            taken.push(example);
        }
        seed += 1;
    }
    taken
}

fn changed_example(seed: u64) -> Example {
    let mut random = Random::seeded(seed);
    let rows = random.between(3, 7);
    let flavour = Flavour::with_rows(&mut random, rows);
    let chart = generate::chart(&mut random, flavour);
    let mut spelt = encode(&chart, Layout::Mixed(Random::seeded(seed)));
    for _ in 0..random.between(1, 3) {
        let cell = random.between(HEADER_CELLS, spelt.numbers.len() - 1);
        spelt.numbers[cell] = match random.below(6) {
            0 => NONE,
            _ => random.below(chart.rows.len() + 1) as u64,
        };
    }
    let calls = vec![start(), post("e"), run(2)];
    Example::of_tables("changed", &format!("a chart with changed cells, seed {seed}"), spelt, calls)
}

/// A name made of letters, digits and underscores.
fn identifier(text: &str) -> String {
    text.chars()
        .filter(|&letter| letter != ',')
        .map(|letter| if letter.is_ascii_alphanumeric() { letter.to_ascii_lowercase() } else { '_' })
        .collect()
}
