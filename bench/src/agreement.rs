//! The engine, and the library where it is linked, bare and behind the header's wrappers, against
//! the second program: the same answers, sessions and traces on generated charts and call lists,
//! with every refusal among them.

use crate::bridge::{held, recorded, timed};
use crate::contenders::{Held, Lent};
use crate::engine::answers::*;
use crate::engine::limits::{BITS, MOST_ROWS, QUEUE_BYTES, WORDS};
use crate::engine::{verdict, Session};
use crate::given::{agreed, given, step_given, Step};
use second::agreement::Trial;
use second::calls::Call;
use second::clock_damage;
use second::compiled::{compile, needed_place, CompiledChart, Places};
use second::coverage::Coverage;
use second::encode::{encode, Layout, Spelt};
use second::generate::{self, CallMaker, LARGE};
use second::limits::{HEADER_CELLS, NONE, ROW_SET_WORDS};
use second::near_misses;
use second::random::Random;
use second::rules::{self, Place};

pub type Found = Result<(), String>;

const LISTS: &str = "call lists";
const LARGE_CHARTS: &str = "charts of more rows than a word has bits";
const GREATEST_CHARTS: &str = "charts of as many rows as there may be";
const REFUSED_LISTS: &str = "call lists with a refusal";
/// Every call with every answer that it can have.
const ANSWERS: [&str; 22] = [
    "start: 0",
    "start: 7",
    "start: 8",
    "start: 10",
    "post: 0",
    "post: 6",
    "post: 7",
    "post: 8",
    "post: 9",
    "post: 11",
    "run: more",
    "run: idle",
    "run: ended",
    "run: 7",
    "run: 8",
    "run: 9",
    "run: 10",
    "clock: 0",
    "clock: 8",
    "clock: 9",
    "clock: 11",
    "clock: 14",
];

/// Whether a great run has met enough: every answer of every call, and a refusal in one list of four.
pub fn enough_happened(coverage: &Coverage) -> Found {
    for answer in ANSWERS {
        ensure(coverage.get(answer) > 0, || format!("no {answer} among the calls"))?;
    }
    for steps in ["steps: refused, but run", "steps: posted, run refused"] {
        ensure(coverage.get(steps) > 0, || format!("no {steps}"))?;
    }
    for charts in [LARGE_CHARTS, GREATEST_CHARTS] {
        ensure(coverage.get(charts) >= 5, || format!("{charts}: only {}", coverage.get(charts)))?;
    }
    let (lists, refused) = (coverage.get(LISTS), coverage.get(REFUSED_LISTS));
    ensure(refused * 4 >= lists, || format!("only {refused} of {lists} call lists have a refusal"))
}

pub fn ensure(holds: bool, what: impl FnOnce() -> String) -> Found {
    match holds {
        true => Ok(()),
        false => Err(what()),
    }
}

fn lent(places: &Places) -> Lent<'_> {
    Lent { numbers: &places.numbers, names: &places.names }
}

pub struct Comparison<'a> {
    random: Random,
    seed: u64,
    /// Whether a call of the list was refused.
    refused: bool,
    pub coverage: &'a mut Coverage,
}

/// One generated chart with its call lists.
pub fn try_seed(seed: u64, coverage: &mut Coverage) -> Found {
    let trial = Trial::of_seed(seed);
    let mut comparison =
        Comparison { random: Random::seeded(seed ^ 0xbe_9c4), seed, refused: false, coverage };
    comparison.trial(&trial).map_err(|what| format!("seed {seed}: {what}"))
}

impl Comparison<'_> {
    fn trial(&mut self, trial: &Trial) -> Found {
        let spelt = encode(&trial.chart, Layout::Mixed(Random::seeded(self.seed)));
        let place = needed_place(&spelt.numbers).ok_or("a generated chart is too large")?;
        let places = compile(&spelt.numbers, &spelt.names, place).map_err(|rule| rule.to_string())?;
        let compiled = CompiledChart::open(&places.numbers, &places.names).ok_or("a compiled chart opens")?;
        self.coverage.note_if("charts of 40 rows and more", trial.chart.rows.len() >= 40);
        self.coverage.note_if(LARGE_CHARTS, trial.chart.rows.len() >= LARGE);
        self.coverage.note_if(GREATEST_CHARTS, trial.chart.rows.len() == MOST_ROWS);
        self.call_list(&places, &trial.calls)?;
        let more = CallMaker::new(&mut self.random, &trial.chart).calls(3);
        self.disturbed_list(&places, &compiled, &more)?;
        self.made_sessions(&places, &compiled)?;
        self.changed_charts(&places, spelt.numbers.len())?;
        self.changed_tables(&spelt)?;
        self.near_misses(trial)
    }

    /// One call of everyone; the session and the record that it leaves. A post is tried with a run behind it
    /// too, in one call.
    fn call(&mut self, call: &Call, held: Held, lent: Lent) -> Result<Held, String> {
        if let Call::Post { name } = call {
            self.step(name, held, lent)?;
        }
        let (answer, status, _, _, left, _) = agreed(call, |calls| given(calls, call, held, lent))?;
        self.count(call, answer.max(status));
        Ok(left)
    }

    fn step(&mut self, name: &[u8], held: Held, lent: Lent) -> Found {
        let room = if self.random.below(4) == 0 { self.random.below(8) } else { 300 };
        let step = Step { name, rounds: self.random.below(12) as u32, room };
        let (answer, status, ..) = agreed(&step, |calls| step_given(calls, &step, held, lent))?;
        self.coverage.note("steps");
        self.coverage.note_if("steps: refused, but run", answer != DONE && status >= MORE);
        self.coverage.note_if("steps: posted, run refused", answer == DONE && status < MORE);
        Ok(())
    }

    fn count(&mut self, call: &Call, answer: u32) {
        self.refused |= (BAD_NAME..=BAD_TICKS).contains(&answer);
        self.coverage.note("calls");
        self.coverage.note(match (call, answer) {
            (Call::Start { .. }, DONE) => "start: 0",
            (Call::Start { .. }, FULL) => "start: 7",
            (Call::Start { .. }, BAD_CHART) => "start: 8",
            (Call::Start { .. }, _) => "start: 10",
            (Call::Post { .. }, DONE) => "post: 0",
            (Call::Post { .. }, BAD_NAME) => "post: 6",
            (Call::Post { .. }, FULL) => "post: 7",
            (Call::Post { .. }, BAD_CHART) => "post: 8",
            (Call::Post { .. }, BAD_SESSION) => "post: 9",
            (Call::Post { .. }, _) => "post: 11",
            (Call::Clock { .. }, DONE) => "clock: 0",
            (Call::Clock { .. }, BAD_CHART) => "clock: 8",
            (Call::Clock { .. }, BAD_SESSION) => "clock: 9",
            (Call::Clock { .. }, SESSION_ENDED) => "clock: 11",
            (Call::Clock { .. }, _) => "clock: 14",
            (Call::Run { .. }, MORE) => "run: more",
            (Call::Run { .. }, IDLE) => "run: idle",
            (Call::Run { .. }, ENDED) => "run: ended",
            (Call::Run { .. }, FULL) => "run: 7",
            (Call::Run { .. }, BAD_CHART) => "run: 8",
            (Call::Run { .. }, BAD_SESSION) => "run: 9",
            (Call::Run { .. }, _) => "run: 10",
        });
    }

    fn call_list(&mut self, places: &Places, calls: &[Call]) -> Found {
        self.refused = false;
        let mut held = Held::ENDED;
        for call in calls {
            held = self.call(call, held, lent(places))?;
        }
        self.count_list();
        Ok(())
    }

    fn count_list(&mut self) {
        self.coverage.note(LISTS);
        self.coverage.note_if(REFUSED_LISTS, self.refused);
    }

    /// A list in which some calls get a changed chart, a changed session or a changed record. After a
    /// refusal for it the list goes on with what was there before.
    fn disturbed_list(&mut self, places: &Places, compiled: &CompiledChart, calls: &[Call]) -> Found {
        self.refused = false;
        let rows = compiled.chart.rows.len();
        let mut held = Held::ENDED;
        for call in calls {
            let mut used = places.clone();
            let mut handed = held;
            match self.random.below(10) {
                0 => self.change_set(&mut used, rows),
                1 => self.damage(&mut handed.session, rows),
                2 => self.damage_record(&mut handed),
                _ => {}
            }
            let left = self.call(call, handed, lent(&used))?;
            let undisturbed = handed == held && used == *places;
            let goes_on = undisturbed || timed(&left).is_well_formed(compiled);
            held = if goes_on { left } else { held };
        }
        self.count_list();
        Ok(())
    }

    /// Sessions and records that no start needs to reach, as they are and damaged.
    fn made_sessions(&mut self, places: &Places, compiled: &CompiledChart) -> Found {
        for _ in 0..3 {
            let made = held(&generate::timed(&mut self.random, compiled));
            self.short_calls(made, lent(places))?;
            for _ in 0..3 {
                let mut damaged = made;
                match self.random.below(3) {
                    0 => self.damage_record(&mut damaged),
                    _ => self.damage(&mut damaged.session, compiled.chart.rows.len()),
                }
                self.short_calls(damaged, lent(places))?;
            }
        }
        Ok(())
    }

    /// A run, a post, a clock call and a run behind them.
    fn short_calls(&mut self, held: Held, lent: Lent) -> Found {
        let room = self.random.between(0, 300);
        let ticks = generate::later(&mut self.random, held.clock.ticks);
        let held = self.call(&Call::Run { rounds: 5, room }, held, lent)?;
        let held = self.call(&Call::Post { name: b"e".to_vec() }, held, lent)?;
        let held = self.call(&Call::Clock { ticks }, held, lent)?;
        self.call(&Call::Run { rounds: 20, room: 300 }, held, lent).map(|_| ())
    }

    /// Compiled charts with something changed: in the sets, in the tables, or in the names. A
    /// change of the tables may leave another compiled chart, which is then followed too.
    fn changed_charts(&mut self, places: &Places, tables: usize) -> Found {
        for _ in 0..6 {
            let mut changed = places.clone();
            let names = &mut changed.names;
            match self.random.below(6) {
                0 => {
                    let cell = self.random.between(tables, changed.numbers.len() - 1);
                    changed.numbers[cell] ^= 1 << self.random.below(64);
                }
                1 => {
                    let place = self.random.below(names.len());
                    names[place] =
                        *b"\0.*aZ_ ".get(self.random.below(8)).unwrap_or(&(self.random.number() as u8));
                }
                2 => match self.random.below(4) {
                    0 => changed.numbers.push(0),
                    1 => drop(changed.numbers.pop()),
                    2 => names.push(0),
                    _ => drop(names.pop()),
                },
                _ => self.change_cell(&mut changed.numbers[..tables]),
            }
            let calls = [
                Call::Start { room: 300 },
                Call::Post { name: b"e".to_vec() },
                Call::Clock { ticks: 5 },
                Call::Run { rounds: 10, room: 300 },
            ];
            let mut held = Held::ENDED;
            for call in calls {
                held = self.call(&call, held, lent(&changed))?;
            }
        }
        Ok(())
    }

    /// Tables with cells changed at will: the same verdict of both.
    fn changed_tables(&mut self, spelt: &Spelt) -> Found {
        for _ in 0..6 {
            let mut numbers = spelt.numbers.clone();
            for _ in 0..self.random.between(1, 2) {
                self.change_cell(&mut numbers);
            }
            let place = needed_place(&numbers).unwrap_or(Place { numbers: 0, names: 0 });
            self.same_verdict(&numbers, &spelt.names, place)?;
        }
        Ok(())
    }

    /// Tables that break one rule, or almost do, behind them sets of zeros: the same verdict, and refusal 8.
    fn near_misses(&mut self, trial: &Trial) -> Found {
        let kinds = [near_misses::all(), near_misses::accepted()].concat();
        for turn in 0..4 {
            let kind = &kinds[(self.seed as usize * 4 + turn) % kinds.len()];
            let Some(lent_wrong) = kind.of(&trial.chart, &mut self.random, false) else { continue };
            let Spelt { mut numbers, names } = lent_wrong.spelt;
            self.same_verdict(&numbers, &names, lent_wrong.place)?;
            numbers.resize(lent_wrong.place.numbers.max(HEADER_CELLS), 0);
            let call = Call::Run { rounds: 1, room: 10 };
            self.call(&call, Held::ENDED, Lent { numbers: &numbers, names: &names })?;
        }
        Ok(())
    }

    fn same_verdict(&mut self, numbers: &[u64], names: &[u8], place: Place) -> Found {
        let expected = rules::verdict(numbers, names, place);
        let found = verdict(numbers, names, place.numbers, place.names);
        ensure(u64::from(found) == expected, || format!("verdict {found}, the follower's {expected}"))?;
        self.coverage.note(
            ["verdict 0", "verdict 1", "verdict 2", "verdict 3", "verdict 4", "verdict 5"][expected as usize],
        );
        Ok(())
    }

    // Changes

    fn change_cell(&mut self, numbers: &mut [u64]) {
        let cell = self.random.below(numbers.len());
        let old = numbers[cell];
        numbers[cell] = match self.random.below(10) {
            0 => u64::MAX,
            1 => NONE,
            2 => old.wrapping_sub(1),
            3 => old.wrapping_add(1),
            4 => self.random.number(),
            _ => self.random.below(12) as u64,
        };
    }

    /// Changes a bit of a compiled set; one of the rows' mostly.
    fn change_set(&mut self, places: &mut Places, rows: usize) {
        let sets = ROW_SET_WORDS * 4 * rows;
        let end = places.numbers.len();
        let transitions = ROW_SET_WORDS * places.numbers[1] as usize;
        let cell = end - transitions - sets + self.random.below(sets + transitions);
        places.numbers[cell] ^= 1 << self.random.below(64);
    }

    /// One number or byte of the record, or a record with sends for an ended session.
    fn damage_record(&mut self, held: &mut Held) {
        let part = clock_damage::any(&mut self.random);
        match clock_damage::damaged(&timed(held).clock, part, &mut self.random) {
            Some(clock) => held.clock = recorded(&clock),
            None => held.clock.due[self.random.below(32)] ^= 1,
        }
    }

    fn damage(&mut self, session: &mut Session, rows: usize) {
        let random = &mut self.random;
        let flip = |words: &mut [u64], row: usize| words[row / BITS] ^= 1 << (row % BITS);
        match random.below(14) {
            0 => session.mode = random.below(4) as u64,
            12 | 13 => {
                let stored: Vec<usize> =
                    (0..rows).filter(|row| session.history[WORDS * row..][..WORDS] != [0; WORDS]).collect();
                let history = random.pick(&stored).unwrap_or(0);
                flip(&mut session.history[WORDS * history..], random.below(rows));
            }
            1 | 2 => flip(&mut session.configuration, random.below((rows + 1).min(MOST_ROWS))),
            3 => flip(&mut session.configuration, random.below(MOST_ROWS)),
            4 | 5 => flip(&mut session.history[WORDS * random.below(rows)..], random.below(rows)),
            6 => flip(&mut session.history, random.below(MOST_ROWS * MOST_ROWS)),
            7 => session.internal_count = random.between(0, 40) as u64,
            8 => session.external_count = session.external_count.wrapping_sub(1),
            9 => session.internal[random.below(QUEUE_BYTES)] = random.number() as u8,
            10 => session.external[random.below(256)] = *b"\0.*a".get(random.below(4)).unwrap_or(&0),
            _ => session.configuration = [0; WORDS],
        }
    }
}
