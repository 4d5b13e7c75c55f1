//! Charts with lists of starts, posts, clock calls and runs for the program `calls_run`.

use super::script::{making, making_clock, Line};
use crate::at_limits;
use crate::builder::{Builder, Do};
use crate::by_hand;
use crate::cells::INTERNAL;
use crate::clock_damage;
use crate::compiled::{compile, CompiledChart};
use crate::encode::Layout;
use crate::examples::{self, Example};
use crate::generate::{self, CallMaker, Flavour};
use crate::limits::SLOT_BYTES;
use crate::near_misses::Lent;
use crate::random::Random;
use crate::readings::{self, post, run, run_in, start};
use crate::session_damage;
use crate::story;
use crate::timed::{watch_nothing, Timed};
use crate::worked;

/// How many small generated charts there are, how many of any size, and how many large ones.
const SMALL: usize = 150;
const ANY_SIZE: u64 = 12;
const LARGE: u64 = 3;
/// The first seed of those of any size, of the large ones, and of the lists with 8 and 9.
const FIRST_SEED: u64 = 10_000_000;
const LARGE_SEED: u64 = 12_000_000;
const REFUSED_SEED: u64 = 11_000_000;
const REFUSED: u64 = 40;
/// The last so many of the lists with 8 and 9 are of large charts too.
const LARGE_REFUSED: u64 = 1;

/// Regions, and actions of the parallel above them, so that the round that enters them has 168 entries,
/// 169 and 551: as many as the library drafts, one more, and many more.
const LONG: [(usize, usize); 3] = [(18, 2), (18, 3), (60, 7)];

pub fn lists() -> Vec<Line> {
    let mut lines = story();
    lines.extend(LONG.into_iter().flat_map(|(regions, more)| long_round(regions, more)));
    lines.extend(examples().into_iter().flat_map(played));
    lines.extend((FIRST_SEED..FIRST_SEED + ANY_SIZE).flat_map(|seed| generated(seed, Flavour::any)));
    lines.extend((LARGE_SEED..LARGE_SEED + LARGE).flat_map(|seed| generated(seed, Flavour::large)));
    lines.extend((REFUSED_SEED..REFUSED_SEED + REFUSED).flat_map(refused));
    lines
}

/// A reading that a refused chart tells has no calls: the answer of compiling it is all there is.
fn examples() -> Vec<Example> {
    let readings =
        readings::all().into_iter().flatten().filter(|example| example.spelt.names.len() % SLOT_BYTES == 0);
    let limits = at_limits::small().into_iter().chain(at_limits::large());
    let others = by_hand::all().into_iter().chain(examples::by_hand()).chain(limits);
    let worked = worked::all().into_iter().map(|one| one.example);
    let others = others.chain(examples::accepted()).chain(worked);
    let others = others.chain(examples::generated(SMALL)).filter(|example| !example.calls.is_empty());
    readings.chain(others).collect()
}

fn played(example: Example) -> Vec<Line> {
    let Example { about, spelt, place, calls, .. } = example;
    let mut lines = vec![Line::About(about), Line::Chart(Lent { spelt, place }), Line::Zeros];
    lines.extend(calls.into_iter().map(Line::Call));
    lines
}

/// The first two slots of the queue are shown whole, before and after.
fn story() -> Vec<Line> {
    let chart = Line::Chart(Lent::of(&story::chart(), Layout::Plain));
    let slots = Line::Show(INTERNAL, 2 * SLOT_BYTES);
    let mut lines = vec![Line::About("a region with an id of 52 bytes ends".to_string()), chart, Line::Zeros];
    lines.extend(story::before().into_iter().map(Line::Call));
    lines.extend([slots.clone(), Line::Call(story::last()), slots, Line::Call(story::last())]);
    lines
}

/// A parallel whose regions each do eight host actions is entered with one place too few in the trace,
/// then with just enough, and left again.
fn long_round(regions: usize, more: usize) -> Vec<Line> {
    let eight: Vec<Do> = (0..8).map(Do::Host).collect();
    let mut b = Builder::new();
    b.state("", "s").parallel("", "p").on_entry("p", &eight[..more]);
    for region in 0..regions {
        let id = format!("r{region}");
        b.state("p", &id).on_entry(&id, &eight);
    }
    b.on("s", "go", "p").on("p", "back", "s");
    let entries = 4 + more + 9 * regions;
    let about = format!("a round of {entries} entries");
    let mut lines = vec![Line::About(about), Line::Chart(Lent::of(&b.chart(), Layout::Plain)), Line::Zeros];
    let calls = [start(), post("go"), run_in(1, entries - 1), run_in(1, entries), post("back"), run(1)];
    lines.extend(calls.map(Line::Call));
    lines
}

fn generated(seed: u64, flavour: fn(&mut Random) -> Flavour) -> Vec<Line> {
    let mut random = Random::seeded(seed);
    let flavour = flavour(&mut random);
    let chart = generate::chart(&mut random, flavour);
    let calls = CallMaker::new(&mut random, &chart).calls(3);
    let about = format!("a generated chart of {} rows, seed {seed}", chart.rows.len());
    let Lent { spelt, .. } = Lent::of(&chart, Layout::Mixed(random));
    played(Example::of_tables("generated", &about, spelt, calls))
}

/// A list of calls in which now and then the session, the clock record or the compiled chart is changed for
/// one call.
fn refused(seed: u64) -> Vec<Line> {
    let mut random = Random::seeded(seed);
    let flavour = match seed < REFUSED_SEED + REFUSED - LARGE_REFUSED {
        true => {
            let rows = random.between(3, 9);
            Flavour::with_rows(&mut random, rows)
        }
        false => Flavour::large(&mut random),
    };
    let chart = generate::chart(&mut random, flavour);
    let lent = Lent::of(&chart, Layout::Plain);
    let places = compile(&lent.spelt.numbers, &lent.spelt.names, lent.place).expect("the chart is accepted");
    let compiled = CompiledChart::open(&places.numbers, &places.names).expect("what was compiled opens");
    let mut lines =
        vec![Line::About(format!("a list with changes, seed {seed}")), Line::Chart(lent), Line::Zeros];
    let calls = CallMaker::new(&mut random, &chart).calls(2);
    let mut timed = Timed::ended();
    for call in calls {
        let parts = session_damage::all();
        let part = parts[random.below(parts.len())];
        let changed = session_damage::damaged(&timed.session, part, &compiled, &mut random);
        if let Some(changed) = changed.filter(|_| random.chance(40)) {
            lines.extend(making(&changed).into_iter().chain(making_clock(&timed.clock)));
            lines.push(Line::Call(call.clone()));
            lines.extend(making_both(&timed));
        }
        let changed = clock_damage::damaged(&timed.clock, clock_damage::any(&mut random), &mut random);
        if let Some(changed) = changed.filter(|_| random.chance(40)) {
            lines.extend(making(&timed.session).into_iter().chain(making_clock(&changed)));
            lines.push(Line::Call(call.clone()));
            lines.extend(making_both(&timed));
        }
        if random.chance(40) {
            let cell = random.below(places.numbers.len());
            lines.push(Line::Number(cell, places.numbers[cell] ^ 1));
            lines.push(Line::Call(call.clone()));
            lines.push(Line::Number(cell, places.numbers[cell]));
            lines.extend(making_both(&timed));
        }
        lines.push(Line::Call(call.clone()));
        timed = call.done_on(timed, Some(&compiled), &mut watch_nothing).timed();
    }
    lines
}

fn making_both(timed: &Timed) -> Vec<Line> {
    making(&timed.session).into_iter().chain(making_clock(&timed.clock)).collect()
}
