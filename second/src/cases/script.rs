//! The lines that the program `calls_run` reads, and what it has to print for each.

use super::lines::*;
use crate::calls::Call;
use crate::cells::{self, CELLS, EXTERNAL_COUNT, INTERNAL, INTERNAL_COUNT, STORED};
use crate::clock::Clock;
use crate::compiled::{compile, CompiledChart};
use crate::limits::{QUEUE_NAMES, SLOT_BYTES};
use crate::names::{Slot, EMPTY_SLOT};
use crate::near_misses::Lent;
use crate::numbers::RowNumber;
use crate::row_set::RowSet;
use crate::rules::Place;
use crate::session::{Answer, Queue, Session, BAD_COMPILED_CHART, BAD_SESSION};
use crate::timed::{watch_nothing, Timed};

#[derive(Clone, Debug)]
pub enum Line {
    /// What comes next is there for this.
    About(String),
    /// A chart, compiled.
    Chart(Lent),
    /// So much of the compiled chart is lent from here on.
    Lend(Place),
    /// A number of the compiled chart, a byte of its names.
    Number(usize, u64),
    Byte(usize, u8),
    /// A session of zeros, and a clock record of zeros.
    Zeros,
    /// A cell of the session.
    Cell(usize, u64),
    /// The slots of a queue, and their count.
    Internal(Vec<Slot>),
    External(Vec<Slot>),
    /// A number of the clock record: its ticks, its count, its due times.
    ClockNumber(usize, u64),
    /// The slots of its events, and of its ids.
    Events(Vec<Slot>),
    Ids(Vec<Slot>),
    /// A session whose every cell is made from the number.
    Made(u64),
    /// Start, post, clock call or run.
    Call(Call),
    /// A post of the name to the session with each cell changed in each way.
    EachCell(Vec<u8>),
    /// Posts of the name with every byte value at each place.
    EachByte(Vec<u8>),
    /// So many cells of the session from the first on.
    Show(usize, usize),
}

impl Line {
    fn spell(&self) -> String {
        match self {
            Line::About(text) => format!("c {text}\n"),
            Line::Chart(Lent { spelt, place }) => format!(
                "n {}\ns {}\np {} {}\n",
                spell_numbers(&spelt.numbers),
                spell_slots(spelt.names.chunks(SLOT_BYTES)),
                place.numbers,
                place.names
            ),
            Line::Lend(place) => format!("l {} {}\n", place.numbers, place.names),
            Line::Number(cell, number) => format!("k {cell} {number}\n"),
            Line::Byte(place, byte) => format!("b {place} {byte}\n"),
            Line::Zeros => "z \n".to_string(),
            Line::Cell(cell, number) => format!("f {cell} {number}\n"),
            Line::Internal(slots) => spell_queue('i', slots),
            Line::External(slots) => spell_queue('x', slots),
            Line::ClockNumber(place, number) => format!("h {place} {number}\n"),
            Line::Events(slots) => spell_queue('e', slots),
            Line::Ids(slots) => spell_queue('w', slots),
            Line::Made(from) => format!("r {from}\n"),
            Line::Call(Call::Post { name }) => format!("o {}\n", spell_bytes(name)),
            Line::Call(Call::Start { room }) => format!("t {room}\n"),
            Line::Call(Call::Clock { ticks }) => format!("y {ticks}\n"),
            Line::Call(Call::Run { rounds, room }) => format!("u {rounds} {room}\n"),
            Line::EachCell(name) => format!("d {}\n", spell_bytes(name)),
            Line::EachByte(name) => format!("v {}\n", spell_bytes(name)),
            Line::Show(first, count) => format!("a {first} {count}\n"),
        }
    }
}

fn spell_queue(letter: char, slots: &[Slot]) -> String {
    format!("{letter} {}\n", spell_slots(slots.iter().map(|slot| &slot[..])))
}

/// The lines that make a clock record of one of zeros.
pub fn making_clock(clock: &Clock) -> Vec<Line> {
    let numbers = [clock.ticks, clock.count].into_iter().chain(clock.due).enumerate();
    let mut lines: Vec<Line> = numbers
        .filter(|&(_, number)| number != 0)
        .map(|(place, number)| Line::ClockNumber(place, number))
        .collect();
    let slots = [(&clock.events, Line::Events as fn(Vec<Slot>) -> Line), (&clock.ids, Line::Ids)];
    for (slots, line) in slots {
        let used = used(slots);
        if used > 0 {
            lines.push(line(slots[..used].to_vec()));
        }
    }
    lines
}

/// How many slots there are to the last that is not zero.
fn used(slots: &[Slot]) -> usize {
    slots.iter().rposition(|slot| slot != &EMPTY_SLOT).map_or(0, |last| last + 1)
}

/// The lines that make a session, and a clock record of zeros.
pub fn making(session: &Session) -> Vec<Line> {
    let mut lines = vec![Line::Zeros];
    let numbers: Vec<u64> = cells::all(session).collect();
    let mut set = |at: usize| lines.push(Line::Cell(at, numbers[at]));
    (0..INTERNAL).filter(|&at| numbers[at] != 0).for_each(&mut set);
    if numbers[CELLS - 1] != 0 {
        set(CELLS - 1);
    }
    for (queue, count, line) in [
        (&session.internal, INTERNAL_COUNT, Line::Internal as fn(Vec<Slot>) -> Line),
        (&session.external, EXTERNAL_COUNT, Line::External),
    ] {
        let used = used(&queue.slots);
        if used > 0 {
            lines.push(line(queue.slots[..used].to_vec()));
        }
        if queue.count != used as u64 {
            lines.push(Line::Cell(count, queue.count));
        }
    }
    lines
}

/// What the program holds, and what it has printed.
struct Stage {
    words: Vec<u64>,
    bytes: Vec<u8>,
    lent: Place,
    timed: Timed,
    printed: String,
}

/// How often each answer came one after the other, and a sum of the sessions handed back.
struct Seen {
    runs: Vec<(u64, u64)>,
    sum: u64,
}

impl Seen {
    fn none() -> Seen {
        Seen { runs: Vec::new(), sum: FIRST_SUM }
    }

    fn add(&mut self, answer: &Answer) {
        self.sum = sum_of(self.sum, &answer.session);
        match self.runs.last_mut() {
            Some((number, count)) if *number == answer.number => *count += 1,
            _ => self.runs.push((answer.number, 1)),
        }
    }

    fn text(&self) -> String {
        let runs: Vec<String> =
            self.runs.iter().map(|(number, count)| format!(" {count}*{number}")).collect();
        format!("{} {:016x}\n", runs.concat(), self.sum)
    }
}

fn sum_of(sum: u64, session: &Session) -> u64 {
    cells::all(session).fold(sum, mix)
}

fn rows(set: &RowSet) -> String {
    set.rows().map(|RowNumber(row)| format!(" {row}")).collect()
}

fn names(queue: &Queue) -> String {
    queue.names().iter().map(|name| format!(" {}", String::from_utf8_lossy(name))).collect()
}

/// A session whole, and the sum of its cells. After 8 and 9 it may be anything: the sum alone.
fn session_text(session: &Session, answer: u64) -> String {
    let mut text = String::new();
    if answer != BAD_COMPILED_CHART && answer != BAD_SESSION {
        text += &format!(", mode {}, rows{}", session.mode, rows(&session.configuration));
        for (row, set) in session.stored.iter().enumerate().filter(|(_, set)| !set.is_empty()) {
            text += &format!(", stored {row}:{}", rows(set));
        }
        text += &format!(", internal{}", names(&session.internal));
        text += &format!(", external{}", names(&session.external));
    }
    text + &format!(", {:016x}\n", sum_of(FIRST_SUM, session))
}

/// A clock record whole, with no bytes for an id that a send has not, and the sum of its bytes. After 8 and 9
/// it may be anything: the sum alone.
fn clock_text(clock: &Clock, answer: u64) -> String {
    let mut text = String::new();
    if answer != BAD_COMPILED_CHART && answer != BAD_SESSION {
        text += &format!(", clock {}", clock.ticks);
        for send in clock.pending() {
            let id = send.id.unwrap_or_default();
            let (event, id) = (String::from_utf8_lossy(&send.event), String::from_utf8_lossy(&id));
            text += &format!(", due {} {event} {id}", send.due);
        }
    }
    text + &format!(", {:016x}", sum_bytes(FIRST_SUM, &clock.bytes()))
}

fn trace_text(trace: &[u32]) -> String {
    let entries: Vec<String> = trace.iter().map(|entry| format!(" {entry}")).collect();
    format!(", {} entries{}, the others kept", trace.len(), entries.concat())
}

impl Stage {
    fn new() -> Stage {
        Stage {
            words: filled_words(),
            bytes: filled_bytes(),
            lent: Place { numbers: 0, names: 0 },
            timed: Timed::ended(),
            printed: String::new(),
        }
    }

    fn compiled(&self) -> Option<CompiledChart> {
        let Place { numbers, names } = self.lent;
        CompiledChart::open(&self.words[GUARD..][..numbers], &self.bytes[GUARD..][..names])
    }

    fn play(&mut self, line: &Line) {
        match line {
            Line::About(text) => self.printed += &format!("{text}: "),
            Line::Chart(lent) => self.compile(lent),
            Line::Lend(place) => self.lent = *place,
            Line::Number(cell, number) => self.words[GUARD + cell] = *number,
            Line::Byte(place, byte) => self.bytes[GUARD + place] = *byte,
            Line::Zeros => self.timed = Timed::ended(),
            Line::Cell(at, number) => cells::change(&mut self.timed.session, *at, |_| *number),
            Line::Internal(slots) => self.timed.session.internal = queue_of(slots),
            Line::External(slots) => self.timed.session.external = queue_of(slots),
            Line::ClockNumber(place, number) => *self.timed.clock.number_mut(*place) = *number,
            Line::Events(slots) => self.timed.clock.events[..slots.len()].copy_from_slice(slots),
            Line::Ids(slots) => self.timed.clock.ids[..slots.len()].copy_from_slice(slots),
            Line::Made(from) => self.timed.session = made(*from),
            Line::Call(call) => self.call(call),
            Line::EachCell(name) => self.each_cell(name),
            Line::EachByte(name) => self.each_byte(name),
            Line::Show(first, count) => self.show(*first, *count),
        }
    }

    fn compile(&mut self, lent: &Lent) {
        let Lent { spelt, place } = lent;
        self.words = filled_words();
        self.bytes = filled_bytes();
        self.lent = *place;
        let answer = match compile(&spelt.numbers, &spelt.names, *place) {
            Ok(places) => {
                self.words[GUARD..][..places.numbers.len()].copy_from_slice(&places.numbers);
                self.bytes[GUARD..][..places.names.len()].copy_from_slice(&places.names);
                0
            }
            Err(rule) => rule,
        };
        self.printed += &format!("{answer}\n");
    }

    fn call(&mut self, call: &Call) {
        let answer = call.done_on(self.timed.clone(), self.compiled().as_ref(), &mut watch_nothing);
        self.printed += &match call {
            Call::Post { .. } => format!("post {}", answer.number),
            Call::Clock { .. } => format!("clock {}", answer.number),
            Call::Start { .. } => format!("start {}{}", answer.number, trace_text(&answer.trace)),
            Call::Run { .. } => {
                format!("run {}, {} rounds{}", answer.number, answer.rounds, trace_text(&answer.trace))
            }
        };
        if !matches!(call, Call::Post { .. }) {
            self.printed += &clock_text(&answer.clock, answer.number);
        }
        self.printed += &session_text(&answer.session, answer.number);
        self.timed = answer.timed();
    }

    fn each_cell(&mut self, name: &[u8]) {
        let compiled = self.compiled();
        for way in 0..WAYS {
            let mut seen = Seen::none();
            for at in 0..CELLS {
                let mut session = self.timed.session.clone();
                cells::change(&mut session, at, |number| match cells::is_byte(at) {
                    true => u64::from(changed_byte(way, number as u8)),
                    false => changed(way, number),
                });
                seen.add(&session.post(compiled.as_ref(), name));
            }
            self.printed += &format!("{way}:{}", seen.text());
        }
    }

    fn each_byte(&mut self, name: &[u8]) {
        let compiled = self.compiled();
        for place in 0..name.len() {
            let mut seen = Seen::none();
            for byte in 0..=255 {
                let mut name = name.to_vec();
                name[place] = byte;
                seen.add(&self.timed.session.clone().post(compiled.as_ref(), &name));
            }
            self.printed += &format!("{place}:{}", seen.text());
        }
    }

    fn show(&mut self, first: usize, count: usize) {
        for number in cells::all(&self.timed.session).skip(first).take(count) {
            self.printed += &format!(" {number}");
        }
        self.printed.push('\n');
    }
}

fn queue_of(slots: &[Slot]) -> Queue {
    let mut queue = Queue { count: slots.len() as u64, ..Queue::EMPTY };
    queue.slots[..slots.len().min(QUEUE_NAMES)].copy_from_slice(slots);
    queue
}

/// The words of the configuration are made one after the other, each from the one before and its
/// number; then in the same way those of the history and the bytes of each queue, each beginning
/// with number 0 again; and the counts and the mode from the last byte's.
fn made(from: u64) -> Session {
    let mut session = Session::ended();
    let mut last = mix(FIRST_SUM, from);
    for part in [0..STORED, STORED..INTERNAL, INTERNAL..cells::EXTERNAL, cells::EXTERNAL..INTERNAL_COUNT] {
        let first = part.start;
        for at in part {
            last = mix(last, (at - first) as u64);
            cells::change(&mut session, at, |_| last);
        }
    }
    for at in INTERNAL_COUNT..CELLS {
        cells::change(&mut session, at, |_| mix(last, (at - INTERNAL_COUNT) as u64));
    }
    session
}

/// The program's standard input, and what it has to print.
pub fn texts(lines: &[Line]) -> (String, String) {
    let mut stage = Stage::new();
    lines.iter().for_each(|line| stage.play(line));
    (lines.iter().map(Line::spell).collect(), stage.printed)
}
