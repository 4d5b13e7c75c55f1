//! Small charts for the requests of document 02, each with what its calls must give, worked out by hand.

use crate::calls::{Call, Dump};
use crate::examples::Example;
use crate::tables::Chart;

mod branches;
mod choosers;
mod listed_histories;
mod spinning;
mod timers;

/// A chart with its verdict and a line for each start and run: answer and rounds, the trace as kinds and
/// indices, the configuration; for a clock call the clock record and the external queue.
#[derive(Clone)]
pub struct Worked {
    pub example: Example,
    pub verdict: u64,
    pub lines: Vec<&'static str>,
    /// Whether the lines of starts and runs tell the clock record.
    pub shows_clock: bool,
}

pub fn all() -> Vec<Worked> {
    let lists = [choosers::all(), spinning::all(), listed_histories::all(), branches::all(), timers::all()];
    lists.into_iter().flatten().collect()
}

fn accepted(name: &str, about: &str, chart: &Chart, calls: Vec<Call>, lines: &[&'static str]) -> Worked {
    let example = Example::of_chart(name, about, chart, calls);
    Worked { example, verdict: 0, lines: lines.to_vec(), shows_clock: false }
}

fn timed(name: &str, about: &str, chart: &Chart, calls: Vec<Call>, lines: &[&'static str]) -> Worked {
    Worked { shows_clock: true, ..accepted(name, about, chart, calls, lines) }
}

fn refused(name: &str, about: &str, chart: &Chart, verdict: u64) -> Worked {
    let example = Example::of_chart(name, about, chart, Vec::new());
    Worked { example, verdict, lines: Vec::new(), shows_clock: false }
}

/// What a start or a run gave, as a line.
fn line(dump: &Dump) -> String {
    let entries = dump.trace.iter().map(|entry| format!("({},{})", entry / 65_536, entry % 65_536));
    let entries = counted(entries.collect(), " ");
    format!("{:?} {} conf {:?}", dump.answer_and_rounds, entries, dump.configuration)
}

/// Three and more that are alike are one, with their number.
fn counted(items: Vec<String>, between: &str) -> String {
    let runs = items.chunk_by(|one, next| one == next).flat_map(|run| match run.len() {
        0..=2 => run.to_vec(),
        length => vec![format!("{}*{length}", run[0])],
    });
    runs.collect::<Vec<_>>().join(between)
}

/// A clock record: the ticks, then each pending send with its due time, event and id.
fn clock_of(dump: &Dump) -> String {
    let (ticks, mut rest) = dump.clock.split_first().expect("a record has ticks");
    let mut items = vec![format!("clock {ticks}")];
    while let Some((due, behind)) = rest.split_first() {
        let (event, behind) = name_of(behind);
        let (id, behind) = name_of(behind);
        items.push(format!("{due} {event} {id}").trim_end().to_string());
        rest = behind;
    }
    counted(items, ", ")
}

/// The first name of a list of them, and the others.
fn name_of(list: &[u64]) -> (String, &[u64]) {
    let (name, others) = list[1..].split_at(list[0] as usize);
    (name.iter().map(|&byte| char::from(byte as u8)).collect(), others)
}

/// What a clock call gave, as a line.
fn clock_line(dump: &Dump) -> String {
    let mut line = format!("{:?} {} external", dump.answer_and_rounds, clock_of(dump));
    let mut rest = &dump.external[..];
    while !rest.is_empty() {
        let (name, others) = name_of(rest);
        line += &format!(" {name}");
        rest = others;
    }
    line
}

impl Worked {
    /// The lines that the program gives.
    pub fn given(&self) -> Vec<String> {
        let (calls, dumps) = (&self.example.calls, &self.example.dumps);
        let given = calls.iter().zip(dumps).filter_map(|(call, dump)| match call {
            Call::Post { .. } => None,
            Call::Clock { .. } => Some(clock_line(dump)),
            _ if self.shows_clock => Some(format!("{} {}", line(dump), clock_of(dump))),
            _ => Some(line(dump)),
        });
        given.collect()
    }
}
