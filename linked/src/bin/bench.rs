//! bench: how long the library and the second program take to compile and to check charts of 8 to
//! 256 rows, for a post and for the test of a session, in one run. Prints the tables of
//! docs/bench.md.

use linked::library::{self, Compiled, Parts};
use second::builder::Builder;
use second::compiled::{compile, CompiledChart, Places};
use second::encode::Layout;
use second::generate::{self, Flavour};
use second::limits::{HEADER_CELLS, QUEUE_NAMES, ROW_CELLS};
use second::near_misses::Lent;
use second::numbers::RowNumber;
use second::random::Random;
use second::row_set::RowSet;
use second::session::{Session, ACCEPTED, BAD_NAME, BAD_SESSION};
use second::tables::Kind;
use std::hint::black_box;
use std::time::{Duration, Instant};

const SIZES: [usize; 6] = [8, 16, 32, 64, 128, 256];
/// The first seed of the charts of each size, and how many charts there are.
const FIRST_SEED: u64 = 1;
const CHARTS: usize = 50;
/// The shortest of so many turns is taken of each chart and call; in each turn all calls are measured
/// one after the other.
const TURNS: usize = 200;
/// A turn does each call so often: so little that other work on the machine seldom falls into it.
const TIMES: usize = 4;

/// Where a row's list stands among its cells, and room for the trace of any start.
const LIST_CELL: usize = 7;
const MAX_TRACE: usize = 65_536;

/// The name that is posted, and what is no name.
const NAME: &[u8] = b"event.of.some.length";
const NO_NAME: &[u8] = b".";

/// A session as each of the two takes it.
struct Both {
    own: Session,
    given: library::Session,
}

impl Both {
    fn of(own: Session) -> Both {
        Both { given: library::Session::from(&own), own }
    }
}

struct Bench {
    lent: Lent,
    places: Places,
    compiled: CompiledChart,
    session: Both,
}

/// A well-formed session with room for a post.
fn session(random: &mut Random, compiled: &CompiledChart) -> Session {
    loop {
        let session = generate::session(random, compiled);
        if session.external.count < QUEUE_NAMES as u64 {
            return session;
        }
    }
}

fn bench(lent: Lent, session: impl FnOnce(&CompiledChart) -> Session) -> Bench {
    let places = compile(&lent.spelt.numbers, &lent.spelt.names, lent.place);
    let places = places.expect("the chart is accepted");
    let compiled = CompiledChart::open(&places.numbers, &places.names).expect("a compiled chart opens");
    let session = session(&compiled);
    let bench = Bench { lent, places, compiled, session: Both::of(session) };
    assert_eq!([u64::from(given(&bench, NAME)), own(&bench)], [ACCEPTED; 2], "the answers of a post");
    assert_eq!(u64::from(given(&bench, NO_NAME)), BAD_NAME, "the answer where the name is no name");
    assert_eq!(u64::from(lent_short(&bench)), BAD_SESSION, "the answer where a place is too short");
    bench
}

/// Charts that have exactly so many rows.
fn charts(rows: usize) -> Vec<Bench> {
    let mut found = Vec::new();
    for seed in FIRST_SEED.. {
        let mut random = Random::seeded(seed);
        let flavour = Flavour::with_rows(&mut random, rows);
        let chart = generate::chart(&mut random, flavour);
        if chart.rows.len() == rows {
            found.push(bench(Lent::of(&chart, Layout::Plain), |compiled| session(&mut random, compiled)));
        }
        if found.len() == CHARTS {
            break;
        }
    }
    found
}

/// A session that was just started.
fn started(compiled: &CompiledChart) -> Session {
    Session::ended().start(Some(compiled), MAX_TRACE).session
}

/// States one in the other around a parallel of as many leaves as there are states: each state and the
/// root have all leaves in their initial lists, which are one part of the table of references.
fn shared_lists(rows: usize) -> Bench {
    let mut builder = Builder::new();
    let mut around = String::new();
    let outer = rows / 2 - 2;
    for i in 0..outer {
        let id = format!("s{i}");
        builder.state(&around, &id);
        around = id;
    }
    builder.parallel(&around, "p");
    let leaves: Vec<String> = (outer + 2..rows).map(|i| format!("a{i}")).collect();
    for leaf in &leaves {
        builder.state("p", leaf);
    }
    builder.list("", &leaves.join(" "), &[]);
    let mut lent = Lent::of(&builder.chart, Layout::Plain);
    let list = HEADER_CELLS + LIST_CELL..HEADER_CELLS + LIST_CELL + 2;
    for row in 1..=outer {
        lent.spelt.numbers.copy_within(list.clone(), list.start + ROW_CELLS * row);
    }
    bench(lent, started)
}

/// Parallels one in the other, each with a deep history that stores all leaves below.
fn stored_sets(rows: usize) -> Bench {
    let mut builder = Builder::new();
    let mut around = String::new();
    for i in 0..(rows - 1) / 4 {
        let [parallel, history, a, b] = ["p", "h", "a", "b"].map(|letter| format!("{letter}{i}"));
        builder
            .parallel(&around, &parallel)
            .deep(&parallel, &history)
            .state(&parallel, &a)
            .state(&parallel, &b);
        builder.list(&history, &a, &[]);
        around = parallel;
    }
    for i in builder.chart.rows.len()..rows {
        builder.state(&around, &format!("c{i}"));
    }
    let chart = builder.chart;
    let is_leaf = |row: &RowNumber| chart.kind(*row) == Kind::State;
    let leaves: Vec<RowNumber> = chart.row_numbers().filter(is_leaf).collect();
    bench(Lent::of(&chart, Layout::Plain), |compiled| {
        let mut session = started(compiled);
        for row in chart.row_numbers().filter(|&row| chart.kind(row) == Kind::DeepHistory) {
            let below: Vec<RowNumber> = leaves.iter().copied().filter(|leaf| leaf.0 > row.0).collect();
            session.stored[row.0] = RowSet::of(&below);
        }
        session
    })
}

/// The chart's numbers and names held against a copy of them: the least that reading them can take.
fn compare(chart: &Bench, copy: &Places) {
    let places = black_box(&chart.places);
    black_box(places.numbers == copy.numbers && places.names == copy.names);
}

fn time(chart: &mut Bench, call: impl Fn(&mut Bench)) -> Duration {
    let began = Instant::now();
    for _ in 0..TIMES {
        call(chart);
    }
    began.elapsed()
}

fn library_compiles(chart: &mut Bench) {
    let Bench { lent, places, .. } = chart;
    let (numbers, names) = (black_box(&lent.spelt.numbers), black_box(&lent.spelt.names));
    black_box(library::compile(numbers, names, &mut places.numbers, &mut places.names));
}

fn second_compiles(chart: &mut Bench) {
    let lent = black_box(&chart.lent);
    let _ = black_box(compile(&lent.spelt.numbers, &lent.spelt.names, lent.place));
}

fn library_checks(chart: &mut Bench) {
    let places = black_box(&chart.places);
    black_box(Compiled::from(places).check());
}

fn second_checks(chart: &mut Bench) {
    let places = black_box(&chart.places);
    black_box(CompiledChart::open(&places.numbers, &places.names));
}

/// A post of the library; its answer.
fn given(chart: &Bench, name: &[u8]) -> u32 {
    let places = black_box(&chart.places);
    black_box(chart.session.given.clone()).lend().post(places.into(), name)
}

/// The same where a queue is lent too short: no session, which is told before anything else of it is tested.
fn lent_short(chart: &Bench) -> u32 {
    let places = black_box(&chart.places);
    let mut session = black_box(chart.session.given.clone());
    let Parts { numbers, internal, external, clock } = session.lend();
    Parts { numbers, internal, external: &mut external[1..], clock }.post(places.into(), NO_NAME)
}

/// A post of the second program, which has to open the chart as the library has to check it.
fn own(chart: &Bench) -> u64 {
    let places = black_box(&chart.places);
    let compiled = CompiledChart::open(&places.numbers, &places.names);
    black_box(chart.session.own.clone()).post(compiled.as_ref(), NAME).number
}

fn library_posts(chart: &mut Bench) {
    black_box(given(chart, NAME));
}

fn second_posts(chart: &mut Bench) {
    black_box(own(chart));
}

/// Chart and session are checked, and the name is refused at once.
fn library_refuses_the_name(chart: &mut Bench) {
    black_box(given(chart, NO_NAME));
}

/// The chart is checked, and the session refused at once.
fn library_refuses_the_session(chart: &mut Bench) {
    black_box(lent_short(chart));
}

/// The test by itself, the chart once opened.
fn second_tests(chart: &mut Bench) {
    let Bench { compiled, session, .. } = chart;
    black_box(black_box(&session.own).is_well_formed(compiled));
}

const MEASURED: usize = 9;
const CALLS: [fn(&mut Bench); MEASURED] = [
    library_compiles,
    second_compiles,
    library_checks,
    second_checks,
    library_posts,
    second_posts,
    library_refuses_the_name,
    second_tests,
    library_refuses_the_session,
];

/// The microseconds of each, all charts alike.
fn measure(charts: &mut [Bench]) -> [f64; MEASURED] {
    let mut shortest = vec![[Duration::MAX; MEASURED]; charts.len()];
    for _ in 0..TURNS {
        for (chart, shortest) in charts.iter_mut().zip(&mut shortest) {
            for (shortest, call) in shortest.iter_mut().zip(CALLS) {
                *shortest = (*shortest).min(time(chart, call));
            }
        }
    }
    std::array::from_fn(|call| {
        let sum: Duration = shortest.iter().map(|times| times[call]).sum();
        sum.as_nanos() as f64 / (1000 * charts.len() * TIMES) as f64
    })
}

/// A library's time, the second program's and their ratio.
fn pair(library: f64, second: f64) -> String {
    format!("{library:.2} µs | {second:.2} µs | {:.2}", library / second)
}

struct Row {
    rows: usize,
    numbers: usize,
    times: [f64; MEASURED],
}

fn measured(rows: usize) -> Row {
    let mut charts = charts(rows);
    let numbers: usize = charts.iter().map(|chart| chart.lent.spelt.numbers.len()).sum();
    Row { rows, numbers: numbers / CHARTS, times: measure(&mut charts) }
}

fn print_charts(table: &[Row]) {
    println!("| rows | numbers | compile: library | second | ratio | check: library | second | ratio |");
    println!("|---|---|---|---|---|---|---|---|");
    for Row { rows, numbers, times } in table {
        println!("| {rows} | {numbers} | {} | {} |", pair(times[0], times[1]), pair(times[2], times[3]));
    }
}

fn print_growth(table: &[Row]) {
    println!("| rows | compile: library | second | check: library | second |");
    println!("|---|---|---|---|---|");
    for Row { rows, times, .. } in table {
        let times = times[..4].iter().zip(table[0].times);
        let times: Vec<String> = times.map(|(time, first)| format!("{:.1}", time / first)).collect();
        println!("| {rows} | {} |", times.join(" | "));
    }
}

/// The library's test is what a post takes whose name is refused behind it, less one whose session is
/// refused before it; the second program's is measured by itself.
fn print_sessions(table: &[Row]) {
    println!("| rows | post: library | second | ratio | test for 9: library | second | ratio |");
    println!("|---|---|---|---|---|---|---|");
    for Row { rows, times, .. } in table {
        let test = pair(times[6] - times[8], times[7]);
        println!("| {rows} | {} | {test} |", pair(times[4], times[5]));
    }
}

/// The microseconds of a call of the library, the second program's left aside.
fn shortest(chart: &mut Bench, call: impl Fn(&mut Bench) + Copy) -> f64 {
    let shortest = (0..TURNS).map(|_| time(chart, call)).min().unwrap_or_default();
    shortest.as_nanos() as f64 / (1000 * TIMES) as f64
}

/// The dearest charts and sessions that we know of, beside `memcmp` of the chart.
fn print_dearest(made: fn(usize) -> Bench) {
    println!("| rows | bytes of the chart | memcmp of it | check 8 | ns a byte | test for 9 | ns a byte |");
    println!("|---|---|---|---|---|---|---|");
    for rows in SIZES {
        let mut chart = made(rows);
        let copy = Places { numbers: chart.places.numbers.clone(), names: chart.places.names.clone() };
        let bytes = (8 * copy.numbers.len() + copy.names.len()) as f64;
        let least = shortest(&mut chart, |chart| compare(chart, &copy));
        let calls = [library_checks, library_refuses_the_name, library_refuses_the_session];
        let [check, behind, before] = calls.map(|call| shortest(&mut chart, call));
        let test = behind - before;
        let each = |time: f64| format!("{time:.2} µs | {:.2}", 1000.0 * time / bytes);
        println!("| {rows} | {bytes} | {least:.2} µs | {} | {} |", each(check), each(test));
    }
}

fn main() {
    let table = SIZES.map(measured);
    print_charts(&table);
    println!();
    print_growth(&table);
    println!();
    print_sessions(&table);
    println!();
    print_dearest(shared_lists);
    println!();
    print_dearest(stored_sets);
}
