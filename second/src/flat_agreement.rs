//! Flat tables beside a follower that is stepped: from each configuration a session of it runs one round, of a
//! chart whose blocks are left out, and for the names one whose eventless transitions are left out too.

use crate::compiled::CompiledChart;
use crate::coverage::Coverage;
use crate::encode::encode_plainly;
use crate::flat::{flat_cells, flatten};
use crate::generate::{self, Flavour, LARGE};
use crate::invariants::{ensure, Found};
use crate::limits::{MAX_CONFIGURATIONS, MAX_LISTED_NAMES, MAX_ROWS, NONE};
use crate::names::done_name;
use crate::numbers::RowNumber;
use crate::random::Random;
use crate::row_set::RowSet;
use crate::session::*;
use crate::show;
use crate::tables::{Chart, Kind};
use std::collections::HashMap;

/// Of so many seeds one has a history, and one a chart of more than twelve rows below its root.
const ONE_WITH_HISTORY_OF: u64 = 10;
const ONE_GREATER_OF: u64 = 4;
/// What stands in the place before.
const BEFORE: u64 = 0x5a5a_5a5a;

/// A chart and names to flatten it with.
pub struct Trial {
    pub chart: Chart,
    pub names: Vec<Vec<u8>>,
}

impl Trial {
    pub fn of_seed(seed: u64) -> Trial {
        let mut random = Random::seeded(seed ^ 0xf1a7_0000);
        let greater = seed % ONE_GREATER_OF == 0;
        let chart = match seed % ONE_WITH_HISTORY_OF {
            3 => any_chart(&mut random, greater, 60),
            0 | 1 | 2 | 4 => any_chart(&mut random, greater, 0),
            _ if greater => generate::regions(&mut random, 8, 4),
            _ => generate::regions(&mut random, 3, 3),
        };
        let count = match greater {
            true => random.between(5, MAX_LISTED_NAMES),
            false => random.below(5).max(random.below(5)),
        };
        let names = (0..count).map(|_| name(&mut random, &chart)).collect();
        Trial { chart, names }
    }
}

/// A chart of 1 to 12 rows below its root, or a greater one.
fn any_chart(random: &mut Random, greater: bool, histories: usize) -> Chart {
    let rows = match random.below(3) {
        0 if greater => random.between(LARGE, MAX_ROWS as usize),
        _ if greater => random.between(14, 60),
        _ => random.between(2, 13),
    };
    let flavour = Flavour {
        histories,
        spins: random.chance(30),
        more_transitions: random.below(3),
        ..Flavour::with_rows(random, rows)
    };
    generate::chart(random, flavour)
}

/// Mostly an event of the chart's transitions, at times the done event of a row or a name that no one knows.
fn name(random: &mut Random, chart: &Chart) -> Vec<u8> {
    let events = generate::known_events(chart);
    match random.below(8) {
        0 => done_name(chart.id(RowNumber(random.between(1, chart.rows.len() - 1)))),
        1 => events[random.below(events.len())].clone(),
        _ => events[events.len() - 1 - random.below(events.len().saturating_sub(2).max(1))].clone(),
    }
}

fn compiled(chart: &Chart) -> CompiledChart {
    let spelt = encode_plainly(chart);
    CompiledChart::from_tables(&spelt.numbers, &spelt.names).expect("the chart is accepted")
}

/// "Blocks, sends and queues are no part of the table."
fn without_blocks(chart: &Chart) -> Chart {
    let mut bare = chart.clone();
    for row in &mut bare.rows {
        row.entry.clear();
        row.exit.clear();
        row.block.clear();
    }
    bare.transitions.iter_mut().for_each(|transition| transition.block.clear());
    bare
}

fn without_eventless(chart: &Chart) -> Chart {
    let mut bare = without_blocks(chart);
    bare.transitions.retain(|transition| !transition.descriptors.is_empty());
    bare
}

/// A table as a stepped follower finds it: lines of a configuration and where it leads.
pub struct Stepped {
    eventless: CompiledChart,
    named: CompiledChart,
    numbers: HashMap<RowSet, usize>,
    pub lines: Vec<(RowSet, Vec<Option<usize>>)>,
}

impl Stepped {
    /// Steps from the start on; lines past the 257th configuration are not worked out.
    pub fn of(chart: &Chart, names: &[Vec<u8>]) -> Stepped {
        let (eventless, named) = (compiled(&without_blocks(chart)), compiled(&without_eventless(chart)));
        let started = Session::ended().start(Some(&eventless), usize::MAX).session;
        let mut stepped = Stepped { eventless, named, numbers: HashMap::new(), lines: Vec::new() };
        let mut found = vec![started.configuration];
        stepped.numbers.insert(started.configuration, 0);
        while let Some(&configuration) = found.get(stepped.lines.len()) {
            let mut next = vec![stepped.round(configuration, None)];
            next.extend(names.iter().map(|name| stepped.round(configuration, Some(name))));
            let mut line = Vec::new();
            for set in next {
                line.push(set.map(|set| {
                    let new = stepped.numbers.len();
                    *stepped.numbers.entry(set).or_insert_with(|| {
                        found.push(set);
                        new
                    })
                }));
            }
            stepped.lines.push((configuration, line));
            if found.len() > MAX_CONFIGURATIONS {
                break;
            }
        }
        stepped
    }

    pub fn configurations(&self) -> usize {
        self.numbers.len()
    }

    /// One round of a session that has this configuration and nothing else.
    fn round(&self, configuration: RowSet, name: Option<&[u8]>) -> Option<RowSet> {
        let chart = if name.is_some() { &self.named } else { &self.eventless };
        let closing = configuration.rows().any(|row| chart.tree.is_final_under_root(row));
        if closing {
            return None;
        }
        let mut session = Session { configuration, mode: RUNNING, ..Session::ended() };
        if let Some(name) = name {
            session = session.post(Some(chart), name).session;
        }
        let ran = session.run(Some(chart), 1, usize::MAX);
        (ran.rounds == 1).then_some(ran.session.configuration)
    }

    /// The whole place.
    pub fn cells(&self, names: usize) -> Vec<u64> {
        let mut cells = vec![self.lines.len() as u64, names as u64];
        for (configuration, next) in &self.lines {
            cells.extend(configuration.0);
            cells.extend(next.iter().map(|next| next.map_or(NONE, |number| number as u64)));
        }
        cells.resize(flat_cells(names), 0);
        cells
    }
}

/// Tries one seed; a failure tells its chart and names.
pub fn try_seed(seed: u64, coverage: &mut Coverage) -> Found {
    let trial = Trial::of_seed(seed);
    check(&trial, coverage).map_err(|what| {
        let names: Vec<_> = trial.names.iter().map(|name| String::from_utf8_lossy(name)).collect();
        format!("seed {seed}: {what}: chart {{{}}} names {names:?}", show::chart(&trial.chart))
    })
}

fn check(trial: &Trial, coverage: &mut Coverage) -> Found {
    let Trial { chart, names } = trial;
    let lent: Vec<Option<&[u8]>> = names.iter().map(|name| Some(&name[..])).collect();
    let before = vec![BEFORE; flat_cells(names.len())];
    let mut place = before.clone();
    let answer = flatten(Some(&compiled(chart)), &lent, &mut place);
    let has_history = chart.rows.iter().any(|row| row.kind.is_history());
    if has_history {
        coverage.note("charts with a history, not flattened");
        ensure(
            answer == HAS_HISTORY && place == before,
            "17 for a chart with a history, the place untouched",
        )?;
        return Ok(());
    }
    let stepped = Stepped::of(chart, names);
    if stepped.configurations() > MAX_CONFIGURATIONS {
        coverage.note("charts of more than 256 configurations");
        return ensure(answer == TOO_MANY_CONFIGURATIONS && place == before, "16, the place untouched");
    }
    ensure(answer == ACCEPTED, &format!("answer {answer}"))?;
    ensure(place == stepped.cells(names.len()), "the table is what a stepped follower finds")?;
    count(chart, &stepped, coverage);
    Ok(())
}

fn count(chart: &Chart, stepped: &Stepped, coverage: &mut Coverage) {
    coverage.note("charts flattened");
    coverage.add("configurations of flat tables", stepped.configurations() as u64);
    coverage.note_if("flat tables of more than 20 configurations", stepped.configurations() > 20);
    coverage.note_if("flat tables of charts of more rows than a word has bits", chart.rows.len() >= LARGE);
    let is_last = |set: &RowSet| {
        set.rows().any(|row| {
            chart.kind(row) == Kind::Final && chart.row(row).parent.is_some_and(|above| above.0 == 0)
        })
    };
    for (number, (configuration, next)) in stepped.lines.iter().enumerate() {
        coverage.note_if("configurations with a final under root", is_last(configuration));
        coverage.note_if("eventless entries of flat tables", next[0].is_some());
        let names = &next[1..];
        let moves = names.iter().any(|next| next.is_some_and(|next| next != number));
        coverage.note_if("eventless entries beside names that lead elsewhere", next[0].is_some() && moves);
        coverage.note_if("entries of flat tables that a name leads to", moves);
    }
}
