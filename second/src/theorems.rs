//! Examples as theorems for the prover: modules of text, each theorem true by evaluation.

use crate::at_limits::{self, Header};
use crate::by_hand;
use crate::calls::{Call, Dump};
use crate::compiled::{compile, needed_place, Places};
use crate::encode::{encode_plainly, Spelt};
use crate::examples::{self, Example};
use crate::faults::{self, Fault};
use crate::follower::{session_examples, SessionExample};
use crate::generate::{self, Flavour};
use crate::limits::SLOT_BYTES;
use crate::names::{slot_holds_descriptor, text_of};
use crate::near_misses::sample;
use crate::places::{self, LentPlaces, Opened};
use crate::random::Random;
use crate::readings;
use crate::records::{self, RecordExample};
use crate::rules::Place;
use crate::session::{CLOSING, ENDED};
use crate::worked;

/// A file of theorems.
pub struct Module {
    pub name: String,
    pub text: String,
}

const HEADER: &str = "\
use Rattle.std.specs.Prelude.{◌≡◌, refl, Bool, true, false, List, [], ◌∷◌, ◌++◌, ℕ}
use Rattle.definition.specs.Rows.{same}
use Rattle.definition.specs.declared.Mode.{Mode}
use Rattle.definition.specs.declared.Mode.TheVariants.{Running, Closing, Ended}
use Rattle.definition.specs.Tables.{slot_of}
use Rattle.follower.specs.Follower.{Follower}
use Rattle.follower.specs.Clock.{Timer, Clock}
use Rattle.follower.specs.Calls.{starts, posts, clocks, runs}
use Rattle.follower.specs.Open.{everything}
use Rattle.examples.specs.Play.{joined, history_shown, queue_shown, pending_shown, shown, played_if, played, judged, counts_kept, compiled_sets, opens, fits, timer, record_fits, alike}
";

/// How many played charts are written, and how many to a module.
const GENERATED: usize = 200;
const PLAYED_IN_MODULE: usize = 42;
const COMPILED: usize = 20;
const CHANGED: usize = 100;
/// More numbers than a chart has that the prover computes.
const PROVABLE: usize = 1_000;
/// So many rows need a second word of a set.
const TWO_WORDS: usize = 66;
/// No line is longer.
const LINE: usize = 120;

pub fn modules() -> Vec<Module> {
    let mut modules = vec![readings_module()];
    let played = [examples::by_hand(), examples::generated(GENERATED)].concat();
    for (place, part) in played.chunks(PLAYED_IN_MODULE).enumerate() {
        modules.push(played_module(place, part));
    }
    modules.push(examples_module("ByHand", "Charts for single sentences, played.", &by_hand::all()));
    modules.push(worked_module());
    modules.push(limits_module());
    modules.push(refused_module());
    let accepted = "One chart for each way to come near to breaking a rule without breaking it.";
    modules.push(examples_module("Accepted", accepted, &examples::accepted()));
    modules.push(changed_module());
    modules.push(faults_module());
    modules.push(sets_module());
    modules.push(places_module());
    modules.push(sessions_module());
    modules.push(records_module());
    modules
}

fn module(name: &str, holds: &str, theorems: &[String]) -> Module {
    let about = format!("-- {holds} Written by second/ and compared, never edited by hand.\n");
    let theorems: String = theorems.join("\n").lines().map(wrapped).collect();
    Module { name: name.to_string(), text: format!("{about}{HEADER}\n{theorems}") }
}

/// A line, continued behind a "∷" on lines four deeper where it is long.
fn wrapped(line: &str) -> String {
    let indent = line.chars().take_while(|&letter| letter == ' ').count();
    let mut text = String::new();
    let mut length = 0;
    for piece in line.split_inclusive("∷ ") {
        let width = piece.chars().count();
        if length > 0 && length + width > LINE {
            text.truncate(text.trim_end().len());
            text += "\n";
            text += &" ".repeat(indent + 4);
            length = indent + 4;
        }
        text += piece;
        length += width;
    }
    text + "\n"
}

fn readings_module() -> Module {
    let mut theorems = Vec::new();
    for (reading, examples) in readings::all().into_iter().enumerate() {
        for mut example in examples {
            example.about = format!("Reading {}: {}.", reading + 1, example.about);
            theorems.push(played(theorems.len() + 1, &example));
        }
    }
    module(
        "Readings",
        "One chart and more for each reading of the rules that has room for another.",
        &theorems,
    )
}

fn played_module(place: usize, part: &[Example]) -> Module {
    let first = place * PLAYED_IN_MODULE + 1;
    let theorems: Vec<String> =
        part.iter().enumerate().map(|(place, example)| played(first + place, example)).collect();
    module(&format!("Played{}", place + 1), "Charts, played.", &theorems)
}

fn examples_module(name: &str, holds: &str, examples: &[Example]) -> Module {
    let theorems: Vec<String> =
        examples.iter().enumerate().map(|(place, example)| played(place + 1, example)).collect();
    module(name, holds, &theorems)
}

/// A refusal for the lent places alone cannot be told from tables; module Places has those. Tables past
/// their limits take the prover too long; module Limits has their headers.
fn refused_module() -> Module {
    let fitting = |example: &Example| {
        example.spelt.numbers.len() <= PROVABLE
            && Example::of_tables("", "", example.spelt.clone(), Vec::new()).verdict == example.verdict
    };
    let refused: Vec<Example> = examples::refused().into_iter().filter(fitting).collect();
    examples_module("Refused", "One chart for each way to break one rule.", &refused)
}

fn limits_module() -> Module {
    let headers = at_limits::headers();
    let mut theorems: Vec<String> =
        headers.iter().enumerate().map(|(place, header)| counts_kept(place + 1, header)).collect();
    let charts = at_limits::small();
    theorems.extend(charts.iter().enumerate().map(|(place, example)| played(place + 1, example)));
    module("Limits", "Headers at the limits and past them, and a chart with as much of everything as a transition may have.", &theorems)
}

fn worked_module() -> Module {
    let worked: Vec<Example> = worked::all().into_iter().map(|one| one.example).collect();
    examples_module("Worked", "Charts for the requests of document 02, worked out by hand.", &worked)
}

fn faults_module() -> Module {
    let faults: Vec<Example> = faults::all().iter().map(Fault::example).collect();
    examples_module("Faults", "Charts with a fault that one clause alone sees, and with two faults.", &faults)
}

fn changed_module() -> Module {
    let theorems: Vec<String> = examples::changed(CHANGED)
        .iter()
        .enumerate()
        .map(|(place, example)| played(place + 1, example))
        .collect();
    module("Changed", "Charts with changed cells, refused or played.", &theorems)
}

fn sets_module() -> Module {
    let mut random = Random::seeded(5_000_000);
    let mut charts = vec![sample(), readings::chart_a()];
    while charts.len() < COMPILED {
        let rows = random.between(3, 14);
        let flavour = Flavour::with_rows(&mut random, rows);
        charts.push(generate::chart(&mut random, flavour));
    }
    charts.push(at_limits::last_row_everywhere(TWO_WORDS));
    let theorems: Vec<String> = charts
        .iter()
        .enumerate()
        .map(|(place, chart)| compiled_sets(place + 1, &encode_plainly(chart)))
        .collect();
    module("Sets", "What charts compile to.", &theorems)
}

fn sessions_module() -> Module {
    let mut theorems = Vec::new();
    let mut place = 0;
    for (number, (chart, sessions)) in session_examples().iter().enumerate() {
        theorems.push(numbers_definition(number + 1, &encode_plainly(chart)));
        for session in sessions {
            place += 1;
            theorems.push(session_theorem(place, number + 1, session));
        }
    }
    module("Sessions", "Sessions that are well formed, and such that are not.", &theorems)
}

fn records_module() -> Module {
    let records = records::examples();
    let theorems: Vec<String> =
        records.iter().enumerate().map(|(place, example)| record_theorem(place + 1, example)).collect();
    module("Records", "Clock records that are well formed, and such that are not.", &theorems)
}

fn places_module() -> Module {
    let chart = places::small_chart();
    let mut theorems =
        vec![numbers_definition(1, &chart), names_definition(1, chart.names.chunks(SLOT_BYTES))];
    theorems.extend(places::lent().iter().enumerate().map(|(place, lent)| judged(place + 1, lent)));
    theorems.extend(places::opened().iter().enumerate().map(|(place, opened)| opens(place + 1, opened)));
    module(
        "Places",
        "Places of the right size and of others; compiled charts, and such that are none.",
        &theorems,
    )
}

// Lists

fn list<T: ToString>(items: impl IntoIterator<Item = T>) -> String {
    let mut text = String::new();
    for item in items {
        text += &item.to_string();
        text += " ∷ ";
    }
    text + "[]"
}

fn bracketed<T: ToString>(items: impl IntoIterator<Item = T>) -> String {
    match list(items) {
        text if text == "[]" => text,
        text => format!("({text})"),
    }
}

fn list_of_lists<'a>(lists: impl IntoIterator<Item = &'a Vec<u64>>) -> String {
    list(lists.into_iter().map(bracketed))
}

/// A slot that holds no name or descriptor is written byte by byte.
fn slot(bytes: &[u8]) -> String {
    match text_of(bytes) {
        Some(text) if slot_holds_descriptor(bytes) && bytes.len() == 64 => {
            format!("slot_of {}", bracketed(text))
        }
        _ => bracketed(bytes),
    }
}

// Theorems

fn numbers_definition(number: usize, spelt: &Spelt) -> String {
    format!("abbrev numbers_{number:03} : List ℕ\nnumbers_{number:03} = {}\n", list(&spelt.numbers))
}

fn names_definition<'a>(number: usize, slots: impl Iterator<Item = &'a [u8]>) -> String {
    let slots = list(slots.map(slot));
    format!("abbrev names_{number:03} : List ℕ\nnames_{number:03} = joined {}\n", in_brackets(&slots))
}

fn in_brackets(text: &str) -> String {
    if text == "[]" {
        text.to_string()
    } else {
        format!("({text})")
    }
}

fn call(call: &Call) -> String {
    match call {
        Call::Start { room } => format!("starts {room}"),
        Call::Post { name } => format!("posts {}", bracketed(name)),
        Call::Clock { ticks } => format!("clocks {ticks}"),
        Call::Run { rounds, room } => format!("runs {rounds} {room}"),
    }
}

fn expected(example: &Example) -> String {
    let verdict = vec![example.verdict];
    let lists = example.dumps.iter().flat_map(Dump::lists);
    list_of_lists(std::iter::once(&verdict).chain(lists))
}

fn played(number: usize, example: &Example) -> String {
    let calls = in_brackets(&list(example.calls.iter().map(call)));
    format!(
        "-- {}\n{}\n{}\nexample_{number:03} : alike (played numbers_{number:03} names_{number:03} {calls}) ({}) ≡ true\n\
         unfolding everything joined history_shown queue_shown pending_shown shown played_if played alike\n\
         example_{number:03} = refl\n",
        example.about,
        numbers_definition(number, &example.spelt),
        names_definition(number, example.slots()),
        expected(example),
    )
}

fn compiled_sets(number: usize, spelt: &Spelt) -> String {
    let place = needed_place(&spelt.numbers).expect("the chart is accepted");
    let places = compile(&spelt.numbers, &spelt.names, place).expect("the chart is accepted");
    let words = list(&places.numbers[spelt.numbers.len()..]);
    format!(
        "{}\ncompiled_{number:03} : same (compiled_sets numbers_{number:03}) {} ≡ true\n\
         unfolding everything compiled_sets\ncompiled_{number:03} = refl\n",
        numbers_definition(number, spelt),
        in_brackets(&words),
    )
}

fn counts_kept(number: usize, header: &Header) -> String {
    format!(
        "-- {}\nheader_{number:03} : counts_kept {} ≡ {}\nunfolding everything counts_kept\nheader_{number:03} = refl\n",
        header.about,
        bracketed(header.counts),
        header.fits,
    )
}

fn judged(number: usize, example: &LentPlaces) -> String {
    let Place { numbers, names } = example.place;
    format!(
        "-- {}\njudged_{number:03} : judged numbers_001 names_001 {numbers} {names} ≡ {}\n\
         unfolding everything joined judged\njudged_{number:03} = refl\n",
        example.about, example.verdict,
    )
}

fn opens(number: usize, example: &Opened) -> String {
    let Places { numbers, names } = &example.places;
    let slots = in_brackets(&list(names.chunks(SLOT_BYTES).map(slot)));
    format!(
        "-- {}\nopens_{number:03} : opens {} (joined {slots}) ≡ {}\n\
         unfolding everything joined opens\nopens_{number:03} = refl\n",
        example.about,
        bracketed(numbers),
        example.opens,
    )
}

fn mode_word(mode: u64) -> &'static str {
    match mode {
        ENDED => "Ended",
        CLOSING => "Closing",
        _ => "Running",
    }
}

fn session_theorem(number: usize, chart: usize, example: &SessionExample) -> String {
    let session = &example.session;
    let mode = mode_word(session.mode);
    let names = |queue: &[Vec<u8>]| list(queue.iter().map(bracketed));
    let record = format!(
        "record {{\n  configuration = {};\n  history = {};\n  internal = {};\n  external = {};\n  mode = {mode};\n}}",
        list(&session.configuration),
        list(session.history.iter().map(bracketed)),
        names(&session.internal),
        names(&session.external),
    );
    format!(
        "-- {}\nsession_{number:03} : fits numbers_{chart:03} ({record}) ≡ {}\n\
         unfolding everything fits\nsession_{number:03} = refl\n",
        example.about, example.fits,
    )
}

fn record_theorem(number: usize, example: &RecordExample) -> String {
    let send = |send: &records::ListedSend| {
        format!("timer {} {} {}", send.due, bracketed(&send.event), bracketed(&send.id))
    };
    let pending = bracketed(example.record.pending.iter().map(send));
    format!(
        "-- {}\nrecord_{number:03} : record_fits {} {} {pending} ≡ {}\n\
         unfolding everything record_fits\nrecord_{number:03} = refl\n",
        example.about,
        mode_word(example.mode),
        example.record.ticks,
        example.fits,
    )
}
